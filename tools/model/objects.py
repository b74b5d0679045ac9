"""The object server, and requests for replicas."""
import hashlib
import re

from .common import ITEM_PREFIX, JSON_TYPE, KEPT_HEADS, Refused, http_date, is_digits, is_utf8, json_text, normal, plain_number, read_time
from .nodes import Write
from .requests import reply
from .rings import is_bad_name


def time_of(request):
    found = read_time(request.last(b"x-timestamp") or b"")
    if found is None:
        raise Refused(400)
    return found


def expiry_of(request, when, name):
    value = request.last(b"x-delete-at")
    if value is None:
        return None
    if not is_digits(value, 1, 10) or int(value) * 100_000 <= when or sum(map(len, name)) > 2035:
        raise Refused(400)
    return int(value)


def items_of(request):
    items = {name: value for name, value in request.fields if name in KEPT_HEADS or name.startswith(ITEM_PREFIX)}
    users = [(name[len(ITEM_PREFIX):], value) for name, value in items.items() if name.startswith(ITEM_PREFIX)]
    if len(users) > 90 or sum(len(name) + len(value) for name, value in users) > 4096:
        raise Refused(400)
    if any(not name or len(name) > 128 or len(value) > 256 for name, value in users):
        raise Refused(400)
    return items


def located(ring, segments, name, table_names):
    """The device and partition of a target, with the refusals that all servers of names have."""
    if is_bad_name(*name):
        raise Refused(400)
    device, digest = ring.device(segments[0]), ring.hash(*table_names)
    if device is None:
        raise Refused(404)
    if segments[1] != b"%d" % ring.partition(digest):
        raise Refused(400)
    return device, digest


def content_of(request):
    """The type and content of a PUT, whose ETag is tested last."""
    if not request.framed:
        raise Refused(411)
    if request.body is None:
        raise Refused(413)
    kind = request.last(b"content-type")
    if not kind or not is_utf8(kind):
        raise Refused(400)
    return request.body, kind, hashlib.md5(request.body).hexdigest().encode()


def requested_write(request, name):
    """The write that a PUT, POST or DELETE of an object asks for, or its first refusal."""
    method, when = request.method, time_of(request)
    if method == b"DELETE":
        return Write("delete", name, when)
    content = content_of(request) if method == b"PUT" else None
    heads = (expiry_of(request, when, name), items_of(request))
    if method == b"POST":
        return Write("meta", name, when, heads)
    etag = request.last(b"etag")
    if etag is not None and etag.strip(b'"').lower() != content[2]:
        raise Refused(422)
    return Write("put", name, when, heads, content)


def stands_at(when):
    return (b"X-Backend-Timestamp", normal(when))


def test_write(write, state, none_match, second):
    """Refuses a client's write that what stands doesn't allow. A deletion may name the second at which the object has to expire."""
    if second is not None:
        if not state.base:
            raise Refused(404)
        if write.time <= state.base.time:
            raise Refused(409, stands_at(state.base.time))
        if not state.object() or state.heads()[0] != second:
            raise Refused(412)
    elif write.kind == "meta":
        if not state.object():
            raise Refused(404, *([stands_at(state.base.time)] if state.base else []))
        if write.time <= state.time():
            raise Refused(409, stands_at(state.time()))
    elif write.kind == "put" or state.object():
        if none_match and state.object():
            raise Refused(412)
        if state.base and write.time <= state.base.time:
            raise Refused(409, stands_at(state.base.time))
    elif state.base and state.base.time >= write.time:
        raise Refused(404, stands_at(state.base.time))


def answer_write(nodes, request, device, name):
    write = requested_write(request, name)
    state = nodes.state(device, nodes.ring.hash(*name))
    taken_over = request.last(b"x-backend-replication") in (b"True", b"true")
    named = request.last(b"x-if-delete-at") if write.kind == "delete" and not taken_over else None
    if named is not None and not re.fullmatch(rb"[0-9]{1,10}", named):
        raise Refused(400)
    status = {b"PUT": 201, b"POST": 202, b"DELETE": 204}[request.method]
    if taken_over:
        if not state.changes(write):
            raise Refused(409, stands_at(state.time() if write.kind == "meta" else state.base.time))
        nodes.enter(device, write, b"receive")
    else:
        none_match = request.method == b"PUT" and request.last(b"if-none-match") == b"*"
        test_write(write, state, none_match, None if named is None else int(named))
        if write.kind == "delete" and not state.object():
            status = 404
        nodes.enter(device, write, request.method.lower())
    return reply(status, [(b"ETag", write.content[2])] if status == 201 else [])


def answer_read(state, is_head, now):
    if not state.object():
        return reply(404, [stands_at(state.base.time)] if state.base else [])
    expiry, items = state.heads()
    if expiry is not None and expiry <= now:
        return reply(404)
    body, kind, etag = state.base.content
    shown = normal(state.time())
    fields = [(b"Content-Type", kind), (b"ETag", etag), (b"Last-Modified", http_date(state.time())), (b"X-Timestamp", shown), (b"X-Backend-Timestamp", shown)]
    fields += [(b"X-Delete-At", b"%010d" % expiry)] if expiry is not None else []
    return reply(200, fields + sorted(items.items()), b"" if is_head else body, len(body))


def answer_object(nodes, request, segments, now):
    if request.method not in (b"PUT", b"GET", b"HEAD", b"POST", b"DELETE"):
        raise Refused(405)
    name = (segments[2], segments[3], b"/".join(segments[4:]))
    device, digest = located(nodes.ring, segments, name, name)
    if request.method in (b"GET", b"HEAD"):
        return answer_read(nodes.state(device, digest), request.method == b"HEAD", now)
    return answer_write(nodes, request, device, name)


def answer_replicas(nodes, segments):
    device, part = nodes.ring.device(segments[0]), plain_number(segments[1])
    if device is None:
        raise Refused(404)
    if part is None or part >= 2**nodes.ring.power:
        raise Refused(400)
    if len(segments) == 2:
        found = nodes.suffix_hashes(device, part)
    else:
        if not re.fullmatch(rb"[0-9a-f]{3}(-[0-9a-f]{3})*", segments[2]):
            raise Refused(400)
        lines = [it for suffix in set(segments[2].decode().split("-")) for it in nodes.lines(device, part, suffix)]
        found = {digest.hex(): [it.file() for it in picked] for digest, picked in sorted(lines, key=lambda it: it[0])}
    return reply(200, [(b"Content-Type", JSON_TYPE)], json_text(found))
