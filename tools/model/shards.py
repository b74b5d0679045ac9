"""Shard ranges of containers, and the two passes that split one: the creation of shards, and the cleaving of a range."""
import hashlib

from .common import Refused, escaped, normal
from .containers import create, merge_rows


class Range:
    """The names above its lower bound, up to and with its upper one, and the shard that they go to. An empty text is no bound."""

    def __init__(self, lower, upper, shard):
        self.lower, self.upper, self.shard = lower, upper, shard

    def has(self, name):
        return name > self.lower and (not self.upper or name <= self.upper)


class Split:
    """How a container is split at a device: its ranges, the first so many of which are closed; up to which number a device of a range's shard has the
    rows of the range; and whether the container's own rows were taken away."""

    def __init__(self, ranges):
        self.ranges, self.cursor, self.points, self.is_emptied = ranges, 0, {}, False

    def told(self):
        return b"sharded" if self.is_emptied else b"sharding"

    def state(self, index):
        return 40 if self.is_emptied else 30 if index < self.cursor else 20


def path_of(place):
    return b"/" + b"/".join(place)


def shards_text(nodes, device, place):
    split = nodes.place(device, *place).split
    lines = [(b"%d" % index, b"%d" % split.state(index), escaped(it.lower) or b"*", escaped(it.upper) or b"*", escaped(path_of(it.shard)))
             for index, it in enumerate(split.ranges if split else [])]
    return b"".join(b" ".join(it) + b"\n" for it in lines)


def cut(container, place, per_shard, when):
    """The ranges of a container that is cut at each live name that is the last of so many and has another one behind it."""
    names = sorted(it.name for it in container.live())
    bounds = [b"", *names[per_shard - 1:-1:per_shard], b""]
    start = place[1] + b"-" + hashlib.md5(place[1]).hexdigest().encode() + b"-" + normal(when)
    shards = [(b".shards_" + place[0], start + b"-%d" % index) for index in range(len(bounds) - 1)]
    return [Range(*it) for it in zip(bounds, bounds[1:], shards)]


def status_of(step):
    try:
        step()
        return 201
    except Refused as refused:
        return refused.status


def set_ranges(nodes, device, place, ranges):
    container = nodes.place(device, *place)
    if container.is_absent():
        raise Refused(404)
    if container.split:
        raise Refused(409)
    nodes.journal(device, "container", nodes.ring.hash(*place), 1)
    container.split = Split(ranges)
    nodes.tell(b"ranges", device, path_of(place))


def are_created(nodes, messages, shards, when):
    """Creates each shard at each of its devices, up to the first creation that isn't acknowledged."""
    for shard, to in [(shard, to) for shard in shards for to in nodes.replicas(shard)]:
        status = messages.send(lambda shard=shard, to=to: status_of(lambda: create(nodes, to, shard, when)), False)
        messages.keep(status)
        if status != 201:
            return False
    return True


def create_shards(nodes, messages, device, place, per_shard, when):
    """Cuts a container that has no ranges, and sends its ranges to its other devices. Whether all of them have ranges."""
    container, devices = nodes.place(device, *place), nodes.replicas(place)
    if container.is_absent():
        messages.kept, messages.left = 404, 1
        return False
    messages.left = len(devices)
    if not container.split:
        ranges = cut(container, place, per_shard, when)
        if not are_created(nodes, messages, [it.shard for it in ranges], when):
            return False
        status = status_of(lambda: set_ranges(nodes, device, place, ranges))
        messages.keep(status)
        if status != 201:
            return False
    messages.left -= 1
    for to in [it for it in devices if it != device]:
        status = messages.send(lambda to=to: status_of(lambda: set_ranges(nodes, to, place, container.split.ranges)), False)
        messages.left -= status in (201, 409)
        messages.keep(None if status == 409 else status)
    return messages.left == 0


def acknowledge(nodes, device, place, key, number):
    """Keeps up to which number a device of a shard has the rows of a range."""
    points = nodes.place(device, *place).split.points
    if points.get(key, -1) < number:
        nodes.journal(device, "container", nodes.ring.hash(*place), 1)
        points[key] = number
        nodes.tell(b"ack", device, path_of(place))


def is_closed(nodes, messages, device, place, devices):
    """Closes the first open range, if each of these devices of its shard has all of its rows."""
    container = nodes.place(device, *place)
    split = container.split
    points = [split.points.get((split.cursor, it)) for it in devices]
    greatest = max((number for (index, _), number in split.points.items() if index == split.cursor), default=0)
    if any(it is None or it < greatest for it in points):
        messages.keep(409)
        return False
    late = [container.numbers[it.name] for it in container.rows_above(greatest) if split.ranges[split.cursor].has(it.name)]
    if late:
        messages.later = late[0]
        return False
    status = status_of(lambda: nodes.journal(device, "container", nodes.ring.hash(*place), 1))
    messages.keep(status)
    if status == 201:
        split.cursor += 1
        nodes.tell(b"close", device, path_of(place))
    return status == 201


def is_emptied(nodes, messages, device, place):
    """Takes the rows of a container away whose ranges are all closed."""
    container = nodes.place(device, *place)
    if container.split.is_emptied:
        return True
    status = status_of(lambda: nodes.journal(device, "container", nodes.ring.hash(*place), 1))
    messages.keep(status)
    if status == 201:
        container.rows, container.numbers, container.split.is_emptied = {}, {}, True
        nodes.tell(b"empty", device, path_of(place))
    return status == 201


def cleave(nodes, messages, device, place):
    """Gives the rows of the first open range to each device of its shard, and closes it; where none is open, takes the rows away. Whether it did."""
    container = nodes.place(device, *place)
    split = container.split
    if container.is_absent() or not split:
        messages.kept, messages.left = 404, 1
        return False
    if split.cursor == len(split.ranges):
        messages.left = int(not is_emptied(nodes, messages, device, place))
        return messages.left == 0
    index, found, top = split.cursor, split.ranges[split.cursor], container.top
    devices = nodes.replicas(found.shard)
    least = min(split.points.get((index, it), 0) for it in devices)
    rows = [it for it in container.rows_above(least) if found.has(it.name)]
    for to in devices:
        status = messages.send(lambda to=to: status_of(lambda: merge_rows(nodes, to, found.shard, rows)), False)
        if status == 201:
            status = status_of(lambda to=to: acknowledge(nodes, device, place, (index, to), top))
        messages.keep(409 if status == 301 else status)
    done = is_closed(nodes, messages, device, place, devices)
    messages.left = len(split.ranges) - split.cursor
    return done
