"""Requests as they are cut from an input, and the bytes of replies."""
import re

from .common import BODY_LIMIT, FIELD_LIMIT, HEAD_LIMIT, REASONS, REQUEST_LIMIT, SKIP_LIMIT, BadInput, is_digits, is_utf8, percent_decoded


TOKEN = rb"[!#$%&'*+\-.^_`|~0-9A-Za-z]+"
REQUEST_LINE = re.compile(rb"(" + TOKEN + rb") ([\x21-\x7e\x80-\xff]+) HTTP/1\.1\r?\n")
FIELD_LINE = re.compile(rb"(" + TOKEN + rb"):([\t\x20-\x7e\x80-\xff]*)\r?\n")
LINE_END = re.compile(rb"\r?\n")
CHUNK_LINE = re.compile(rb"([0-9A-Fa-f]{1,16})[ \t]*(?:;[^\r\n]*)?\r\n")


class Request:
    def __init__(self, method, target, fields):
        self.method, self.fields = method, fields
        self.path, _, self.query = target.partition(b"?")
        self.framed, self.body = False, b""

    def last(self, name):
        """The value of the last field of this name, or none."""
        return next((value for key, value in reversed(self.fields) if key == name), None)

    def all(self, name):
        return [value for key, value in self.fields if key == name]

    def segments(self):
        return [percent_decoded(it) for it in self.path[1:].split(b"/")]


def read_fields(data, at, begin):
    """The fields from a place on, and the place behind their empty line. `begin` is where the text began that they are within."""
    fields = []
    while not (end := LINE_END.match(data, at)):
        found = FIELD_LINE.match(data, at)
        if not found or len(fields) == FIELD_LIMIT:
            raise BadInput()
        fields.append((found[1].lower(), found[2].strip(b" \t")))
        at = found.end()
    if end.end() - begin > HEAD_LIMIT:
        raise BadInput()
    return fields, end.end()


def read_head(data, at):
    found = REQUEST_LINE.match(data, at)
    if not found or not found[2].startswith(b"/") or not is_utf8(found[2]):
        raise BadInput()
    fields, end = read_fields(data, found.end(), at)
    return Request(found[1], found[2], fields), end


def framing(request):
    """The length of the body, or "chunked", or none where nothing says it."""
    lengths, codings = set(request.all(b"content-length")), request.all(b"transfer-encoding")
    if len(lengths) > 1 or len(codings) > 1 or (lengths and codings):
        raise BadInput()
    if codings and codings[0].lower() != b"chunked" or any(not is_digits(it, 1, 18) for it in lengths):
        raise BadInput()
    return "chunked" if codings else int(lengths.pop()) if lengths else None


def read_chunks(data, at):
    body = bytearray()
    while True:
        line = CHUNK_LINE.match(data, at)
        if not line:
            raise BadInput()
        size, at = int(line[1], 16), line.end()
        if size == 0:
            return bytes(body), read_fields(data, at, at)[1]
        if data[at + size:at + size + 2] != b"\r\n":
            raise BadInput()
        body += data[at:at + size]
        at += size + 2


def next_request(data, at):
    """The next request, what is written before its body is read, and the place behind it; or none where only line ends are left."""
    begin = at
    while at < len(data) and data[at] in b"\r\n":
        at += 1
    if at - begin > SKIP_LIMIT:
        raise BadInput()
    if at == len(data):
        return None
    begin = at
    request, at = read_head(data, at)
    length = framing(request)
    request.framed = length is not None
    goes_on = request.framed and (request.last(b"expect") or b"").lower() == b"100-continue"
    told = b"HTTP/1.1 100 Continue\r\n\r\n" if goes_on else b""
    try:
        if length == "chunked":
            body, at = read_chunks(data, at)
        else:
            body, at = data[at:at + (length or 0)], at + (length or 0)
        if at > len(data) or at - begin > REQUEST_LIMIT:
            raise BadInput()
    except BadInput:
        raise BadInput(told) from None
    request.body = body if len(body) <= BODY_LIMIT else None
    return request, told, at


def reply(status, fields=(), body=b"", head_of=None):
    """The bytes of a reply. Of a reply to HEAD `head_of` is the length that it tells."""
    lines = [b"HTTP/1.1 %d %s" % (status, REASONS[status].encode())] + [b"%s: %s" % it for it in fields]
    if status != 204:
        lines.append(b"Content-Length: %d" % (len(body) if head_of is None else head_of))
    return b"".join(it + b"\r\n" for it in lines) + b"\r\n" + body
