"""Control requests, and passes with messages that are lost or come twice."""
from .common import TEXT_TYPE, Redirected, Refused, is_digits, plain_number
from .containers import merge_rows
from .nodes import State
from .objects import time_of
from .requests import reply
from .rings import is_bad_name
from .shards import cleave, create_shards, shards_text


class Messages:
    """The messages of a pass, counted from 1, of which some are lost, unheard or come twice."""

    def __init__(self, request):
        names = {"lose": b"x-swc-lose", "unheard": b"x-swc-lose-reply", "repeat": b"x-swc-repeat"}
        values = {key: request.last(name) for key, name in names.items()}
        if any(it is not None and (not is_digits(it, 1, 9) or int(it) == 0) for it in values.values()):
            raise Refused(400)
        self.named = {key: int(it) for key, it in values.items() if it is not None}
        self.count = self.lost = self.asked = self.sent = self.left = 0
        self.kept = self.later = None

    def keep(self, status):
        """The first answer that hindered the pass is told."""
        self.kept = self.kept or (status if status in (404, 409, 503, 507) else None)

    def send(self, step, asks):
        """What the message was answered, or none where that is lost."""
        self.count += 1
        self.asked, self.sent = self.asked + asks, self.sent + (not asks)
        fate = next((key for key in ("lose", "unheard", "repeat") if self.named.get(key) == self.count), None)
        answer = None if fate == "lose" else step()
        if fate == "repeat":
            answer = step()
        if fate in ("lose", "unheard"):
            self.lost += 1
            return None
        return answer

    def outcome(self, done):
        first = f"done={int(done)} lost={self.lost} kept={self.kept or '-'} later={self.later or '-'}"
        return f"{first} asked={self.asked} sent={self.sent} left={self.left}\n".encode()


def transfer(nodes, to, write):
    """The status of a write that a push sends: 409 is an acknowledgement too."""
    try:
        return 201 if nodes.receive(to, write) else 409
    except Refused as refused:
        return refused.status


def push(nodes, messages, source, to, part):
    ours = nodes.suffix_hashes(source, part)
    theirs = messages.send(lambda: nodes.suffix_hashes(to, part), True)
    if theirs is None:
        messages.left = 1
        return False
    for suffix in (it for it in ours if theirs.get(it) != ours[it]):
        told = messages.send(lambda suffix=suffix: {digest: nodes.state(to, digest).copy() for digest, _ in nodes.lines(to, part, suffix)}, True)
        if told is None:
            messages.left += 1
            continue
        for digest, picked in nodes.lines(source, part, suffix):
            for write in picked:
                if not told.get(digest, State()).changes(write):
                    continue
                status = messages.send(lambda write=write: transfer(nodes, to, write), False)
                messages.left += status not in (201, 409)
                messages.keep(None if status == 409 else status)
    return messages.left == 0


def row_answer(nodes, to, place, row):
    """The status of a row that a pass sends, and the shard that its name is left to."""
    try:
        merge_rows(nodes, to, place, [row])
        return 201, None
    except Redirected as redirected:
        return 301, redirected.shard
    except Refused as refused:
        return refused.status, None


def is_acknowledged(nodes, messages, to, place, row):
    """Sends a row, and sends it on where its name is left to a shard: to each device of that, whatever those before answered. Whether each took it.
    A shard leaves no name to another one."""
    status, shard = messages.send(lambda: row_answer(nodes, to, place, row), False) or (None, None)
    if status == 301 and not place[0].startswith(b"."):
        return all([is_acknowledged(nodes, messages, it, shard, row) for it in nodes.replicas(shard)])
    messages.keep(409 if status == 301 else status)
    return status == 201


def push_rows(nodes, messages, source, to, place):
    container = nodes.place(source, *place)
    if container.is_absent():
        messages.kept, messages.left = 404, 1
        return False
    top = container.top
    for row in container.rows_above(container.syncs.get(to, 0)):
        messages.left += not is_acknowledged(nodes, messages, to, place, row)
    if messages.left or container.syncs.get(to, -1) >= top:
        return messages.left == 0
    try:
        nodes.journal(source, "container", nodes.ring.hash(*place), 1)
    except Refused as refused:
        messages.kept = refused.status
        return False
    container.syncs[to] = top
    nodes.tell(b"sync", source, b"/" + b"/".join(place))
    return True


def change_record(nodes, messages, device, record, kind):
    """Whether there is room in the journal of a record's lock for a change of it, which is told then."""
    try:
        nodes.journal(device, "object", nodes.ring.hash(*record.name), 1)
    except Refused as refused:
        messages.keep(refused.status)
        return False
    nodes.tell(kind, device, b"/" + b"/".join(record.name), record.time)
    return True


def is_settled(nodes, messages, device, path, record):
    """Tells the container of a record's name, at each device that wasn't told, what stands; and drops the record where all were told, or nothing stands
    that they would have to be told. Whether nothing was missed for it."""
    place, row, is_missed = record.name[:2], nodes.base_row(device, record), False
    devices = nodes.replicas(place)
    for to in [it for it in devices if row and it not in record.done]:
        if is_acknowledged(nodes, messages, to, place, row) and change_record(nodes, messages, device, record, b"mark"):
            record.done.add(to)
        else:
            is_missed = True
    if not row or set(devices) <= record.done:
        if not change_record(nodes, messages, device, record, b"drop"):
            return False
        del nodes.records[device][path]
    return not is_missed


def update(nodes, messages, device):
    for path, record in nodes.pending(device):
        messages.left += not is_settled(nodes, messages, device, path, record)
    return messages.left == 0


def place_of(segments):
    if is_bad_name(*segments):
        raise Refused(400)
    return tuple(segments)


def cut_place_of(segments):
    """A container that may be cut and cleaved."""
    place = place_of(segments)
    if place[0].startswith(b"."):
        raise Refused(400)
    return place


def answer_split(nodes, request, segments):
    """The text that answers a request on shard ranges, or none where it is no such request."""
    words, device = (request.method, segments[1], len(segments)), nodes.ring.device(segments[2])
    if device is None:
        raise Refused(400)
    if words == (b"GET", b"shards", 5):
        return shards_text(nodes, device, place_of(segments[3:]))
    if words == (b"POST", b"cleave", 5):
        place, messages = cut_place_of(segments[3:]), Messages(request)
        return messages.outcome(cleave(nodes, messages, device, place))
    if words == (b"POST", b"ranges", 6):
        place, names, when, messages = cut_place_of(segments[3:5]), segments[5], time_of(request), Messages(request)
        if not is_digits(names, 1, 9) or int(names) == 0 or len(place[0]) > 248 or len(place[1]) > 192:
            raise Refused(400)
        return messages.outcome(create_shards(nodes, messages, device, place, int(names), when))
    return None


def answer_control(nodes, request, segments):
    words = (request.method, *segments[1:2])
    body = None
    if words == (b"GET", b"trail") and len(segments) == 2:
        body = b"".join(nodes.trail)
    elif words == (b"GET", b"files") and len(segments) == 3 and nodes.ring.device(segments[2]) is not None:
        body = nodes.files(nodes.ring.device(segments[2]))
    elif words == (b"GET", b"pending") and len(segments) == 3 and nodes.ring.device(segments[2]) is not None:
        body = nodes.pending_text(nodes.ring.device(segments[2]))
    elif words == (b"POST", b"update") and len(segments) == 3 and nodes.ring.device(segments[2]) is not None:
        messages = Messages(request)
        body = messages.outcome(update(nodes, messages, nodes.ring.device(segments[2])))
    elif words == (b"POST", b"restart") and len(segments) == 3 and nodes.ring.device(segments[2]) is not None:
        nodes.restart(nodes.ring.device(segments[2]))
        body = b""
    elif words == (b"POST", b"replicate") and len(segments) == 5:
        source, to, part = nodes.ring.device(segments[2]), nodes.ring.device(segments[3]), plain_number(segments[4])
        if None in (source, to, part) or source == to or part >= 2**nodes.ring.power:
            raise Refused(400)
        messages = Messages(request)
        body = messages.outcome(push(nodes, messages, source, to, part))
    elif words == (b"POST", b"rows") and len(segments) == 6:
        source, to, place = nodes.ring.device(segments[2]), nodes.ring.device(segments[3]), place_of(segments[4:])
        if None in (source, to) or source == to:
            raise Refused(400)
        messages = Messages(request)
        body = messages.outcome(push_rows(nodes, messages, source, to, place))
    elif len(segments) in (5, 6):
        body = answer_split(nodes, request, segments)
    if body is None:
        raise Refused(400)
    return reply(200, [(b"Content-Type", TEXT_TYPE)], body)
