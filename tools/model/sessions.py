"""Which server answers, sessions, connections and commands."""
import time

from .common import LINES, BadInput, BadRing, Refused, is_digits, is_utf8
from .containers import answer_container
from .control import answer_control
from .nodes import Nodes
from .objects import answer_object, answer_replicas
from .requests import next_request, reply
from .rings import Ring, is_bad_name, suffix_of


def answer(nodes, request, now, serves=False):
    """The reply to a request. On a connection of `serve` no control request is answered."""
    segments = request.segments()
    try:
        if segments[0] == b".swc":
            return reply(404) if serves else answer_control(nodes, request, segments)
        if len(segments) in (2, 3) and request.method == b"REPLICATE":
            return answer_replicas(nodes, segments)
        is_row = len(segments) > 4 and request.last(b"x-swc-server") == b"container"
        if len(segments) < 4:
            raise Refused(400)
        if len(segments) == 4 or is_row:
            return answer_container(nodes, request, segments)
        return answer_object(nodes, request, segments, now)
    except Refused as refused:
        return reply(refused.status, refused.fields)


def session(nodes, data, serves=False):
    """What is written to an input, its status, and how many requests it had."""
    written, at, count = [], 0, 0
    try:
        while found := next_request(data, at):
            request, told, at = found
            count += 1
            written += [told, answer(nodes, request, int(time.time()), serves)]
            if serves and (request.last(b"connection") or b"").lower() == b"close":
                break
    except BadInput as bad:
        return b"".join(written) + bad.told + reply(400), 8, count
    return b"".join(written), 0, count


def where_text(ring, names):
    digest = ring.hash(*names)
    part, tables = ring.partition(digest), {2: ring.container, 3: ring.object}
    devices = b" ".join(ring.devices[it] for it in tables[len(names)][part]) if len(names) in tables else b"-"
    return b"hash %s\npartition %d\nsuffix %s\ndevices %s\n" % (digest.hex().encode(), part, suffix_of(digest).encode(), devices)


def read_ring(path):
    try:
        with open(path, "rb") as file:
            return file.read()
    except OSError:
        return None


SERVE_OPTIONS = {b"--port": range(1, 65_536), b"--workers": [1], b"--connections": range(1, 65_537), b"--passes": [0]}


def are_words(words):
    if not words or not all(map(is_utf8, words)) or any(it.startswith(b"-") for it in words[1:2]):
        return False
    if words[0] == b"serve":
        options = dict(zip(words[2::2], words[3::2]))
        values = [is_digits(options.get(name), 1, 20) and int(options[name]) in allowed for name, allowed in SERVE_OPTIONS.items()]
        return len(words) == 10 and len(options) == 4 and all(values)
    return len(words) in {b"run": (2,), b"where": (3, 4, 5)}.get(words[0], ()) and not any(it.startswith(b"-") for it in words)


def command(words, data):
    """Both outputs and the status of a command line. Of one that listens, which its ring decides, there is no account here."""
    def ends(status, out=b"", line=None):
        return out, (f"sw: {line or LINES[status]}\n".encode() if status else b""), status

    if not are_words(words):
        return ends(2)
    text = read_ring(words[1])
    if text is None:
        return ends(5)
    try:
        ring = Ring(text)
    except BadRing as bad:
        return ends(3, line=f"bad ring {bad.cause}")
    if words[0] == b"serve":
        raise NotImplementedError("it would listen")
    if words[0] == b"where":
        return ends(2) if is_bad_name(*words[2:]) else ends(0, where_text(ring, words[2:]))
    out, status, _ = session(Nodes(ring), data)
    return ends(status, out)
