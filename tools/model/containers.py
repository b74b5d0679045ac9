"""The container server, with its queries and listings."""
import re

from .common import (EMPTY_MD5, JSON_TYPE, TEXT_TYPE, Redirected, Refused, is_digits, is_utf8, json_date, json_text, percent_decoded,
                     plain_number)
from .nodes import Row
from .objects import located, stands_at, time_of
from .requests import reply


class Query:
    def __init__(self, data):
        values = {}
        for pair in filter(None, data.split(b"&")):
            name, _, value = pair.partition(b"=")
            values[percent_decoded(name.replace(b"+", b" "))] = percent_decoded(value.replace(b"+", b" "))
        self.marker, self.end_marker, self.prefix = (values.get(it, b"") for it in (b"marker", b"end_marker", b"prefix"))
        limit, self.delimiter = values.get(b"limit", b""), values.get(b"delimiter", b"")
        self.limit = int(limit) if is_digits(limit) else 10_000
        self.reverse = values.get(b"reverse", b"").lower() in (b"true", b"yes", b"on", b"t", b"y", b"1")
        kind = values.get(b"format", b"").lower()
        self.json = kind == b"json"
        if not all(map(is_utf8, (self.marker, self.end_marker, self.prefix))):
            raise Refused(400)
        if self.limit > 10_000 or len(self.delimiter) > 1 or self.delimiter > b"\x7f":
            raise Refused(412)
        if kind == b"xml":
            raise Refused(400)

    def is_within(self, name):
        low, high = (self.end_marker, self.marker) if self.reverse else (self.marker, self.end_marker)
        return (not low or name > low) and (not high or name < high) and name.startswith(self.prefix)

    def rolled_up(self, name):
        """The name up to and with the first delimiter behind the prefix, or none where there isn't one."""
        if not self.delimiter or self.delimiter not in name[len(self.prefix):]:
            return None
        return name[:name.index(self.delimiter, len(self.prefix)) + 1]

    def entries(self, rows):
        """The rows and rolled-up texts that the query asks for."""
        found = []
        for row in sorted(rows, key=lambda it: it.name, reverse=self.reverse):
            rolled = self.rolled_up(row.name)
            entry = row if rolled is None else rolled
            if self.is_within(row.name) and not (found and found[-1] == entry) and not (rolled and rolled == self.marker):
                found.append(entry)
        return found[:self.limit]


def json_entry(entry):
    if isinstance(entry, bytes):
        return {"subdir": entry.decode()}
    return {"bytes": entry.size, "content_type": entry.type.decode(), "hash": entry.etag, "last_modified": json_date(entry.time), "name": entry.name.decode()}


def row_of(request, name):
    when = time_of(request)
    if request.method == b"DELETE":
        return Row(name, when, 0, b"text/plain", EMPTY_MD5, True)
    size, kind, etag = (request.last(it) for it in (b"x-size", b"x-content-type", b"x-etag"))
    if not is_digits(size, 1, 18) or not kind or not is_utf8(kind) or not re.fullmatch(rb"[0-9a-fA-F]{32}", etag or b""):
        raise Refused(400)
    return Row(name, when, int(size), kind, etag.decode().lower(), False)


def creation_by(container, place, rows):
    """The time at which the first live row makes an absent container of a hidden account."""
    first = next((it for it in rows if not it.deleted), None)
    if first is None or not place[0].startswith(b"."):
        raise Refused(404)
    return max(first.time, container.delete_time or 0)


def changes(container, row):
    old = container.rows.get(row.name)
    return old is None or (old.time, old.deleted) < (row.time, row.deleted)


def merge_rows(nodes, device, place, rows):
    """Puts in those rows, each of another name, that count more than what stands: all in one step, or none."""
    container, path = nodes.place(device, *place), b"/" + b"/".join(place)
    made = creation_by(container, place, rows) if container.is_absent() else None
    for row in rows:
        shard = container.shard_of(row.name)
        if shard is not None:
            raise Redirected(shard, row.name)
    news = [it for it in rows if changes(container, it)]
    nodes.journal(device, "container", nodes.ring.hash(*place), (made is not None) + len(news))
    if made is not None:
        container.put_time = made
        nodes.tell(b"create", device, path, made)
    for row in news:
        container.put(row)
        nodes.tell(b"row", device, path + b"/" + row.name, row.time)


def create(nodes, device, place, when):
    """Creates a container, or raises the time of its creation. Whether it was absent."""
    container = nodes.place(device, *place)
    absent = container.is_absent()
    if absent and container.delete_time is not None and when < container.delete_time:
        raise Refused(409, stands_at(container.delete_time))
    if absent or when > container.put_time:
        nodes.journal(device, "container", nodes.ring.hash(*place), 1)
        container.put_time = when
        nodes.tell(b"create", device, b"/" + b"/".join(place), when)
    return absent


def change_container(nodes, request, device, place, digest):
    container, when, path = nodes.place(device, *place), time_of(request), b"/" + b"/".join(place)
    if request.method == b"PUT":
        return reply(201 if create(nodes, device, place, when) else 202)
    if container.is_absent():
        raise Refused(404)
    if container.split or container.live():
        raise Refused(409)
    if when <= container.put_time:
        raise Refused(409, stands_at(container.put_time))
    nodes.journal(device, "container", digest, 1)
    container.delete_time = when
    nodes.tell(b"remove", device, path, when)
    return reply(204)


def replica_of(request, count):
    """Which of the devices of each shard is asked."""
    value = request.last(b"x-swc-shard-replica")
    number = 0 if value is None else plain_number(value)
    if number is None or number >= count:
        raise Refused(400)
    return number


def present(container):
    if container.is_absent():
        raise Refused(404)
    return container


def show_container(nodes, request, device, place):
    query = Query(request.query) if request.method == b"GET" else None
    replica = replica_of(request, nodes.ring.replicas)
    container = present(nodes.place(device, *place))
    ranges = container.served()
    shards = [present(nodes.place(nodes.replicas(it.shard)[replica], *it.shard)) for it in ranges]
    told = container.told(shards)
    if query is None:
        return reply(204, told + [(b"X-Swc-Hash", container.hash())])
    left = [row for found, shard in zip(ranges, shards) for row in shard.live() if found.has(row.name)]
    entries = query.entries(container.live() + left)
    if query.json:
        return reply(200, [(b"Content-Type", JSON_TYPE)] + told, json_text([json_entry(it) for it in entries]))
    text = b"".join((it if isinstance(it, bytes) else it.name) + b"\n" for it in entries)
    return reply(200, [(b"Content-Type", TEXT_TYPE)] + told, text) if text else reply(204, told)


def answer_container(nodes, request, segments):
    is_row = len(segments) > 4
    if request.method not in ((b"PUT", b"DELETE") if is_row else (b"PUT", b"DELETE", b"GET", b"HEAD")):
        raise Refused(405)
    place, obj = (segments[2], segments[3]), b"/".join(segments[4:]) if is_row else None
    device, digest = located(nodes.ring, segments, (*place, obj), place)
    if device not in nodes.ring.container[nodes.ring.partition(digest)]:
        raise Refused(404)
    if is_row:
        merge_rows(nodes, device, place, [row_of(request, obj)])
        return reply(201 if request.method == b"PUT" else 204)
    if request.method in (b"PUT", b"DELETE"):
        return change_container(nodes, request, device, place, digest)
    return show_container(nodes, request, device, place)
