"""Limits, refusals, times and other texts."""
import hashlib
import json
import re
from datetime import datetime, timedelta, timezone

BODY_LIMIT, HEAD_LIMIT, FIELD_LIMIT, SKIP_LIMIT, REQUEST_LIMIT = 5_242_880, 65_536, 128, 65_536, 1_073_741_824
ENTRY_LIMIT, WEIGHT_LIMIT = 262_144, 33_554_432
SERVE_WEIGHT_LIMIT = ENTRY_LIMIT * BODY_LIMIT
GREATEST_TIME, GREATEST_U64 = 999_999_999_999_999, 2**64 - 1
EMPTY_MD5 = hashlib.md5(b"").hexdigest()
TEXT_TYPE, JSON_TYPE = b"text/plain; charset=utf-8", b"application/json; charset=utf-8"
REASONS = {200: "OK", 201: "Created", 202: "Accepted", 204: "No Content", 301: "Moved Permanently", 400: "Bad Request", 404: "Not Found",
           405: "Method Not Allowed", 409: "Conflict", 411: "Length Required", 412: "Precondition Failed", 413: "Payload Too Large",
           422: "Unprocessable Entity", 503: "Service Unavailable"}
KEPT_HEADS = {b"cache-control", b"content-disposition", b"content-encoding", b"content-language", b"expires", b"x-robots-tag"}
ITEM_PREFIX = b"x-object-meta-"
LINES = {1: "read fault", 2: "usage", 4: "write fault", 5: "store fault", 7: "session too long", 8: "bad input"}


class Refused(Exception):
    """A reply that comes in place of a step, with its status and fields."""

    def __init__(self, status, *fields):
        super().__init__(status)
        self.status, self.fields = status, fields


class Redirected(Refused):
    """The reply to a row whose name is left to a shard."""

    def __init__(self, shard, name):
        super().__init__(301, (b"Location", escaped(b"/" + b"/".join((*shard, name)))))
        self.shard = shard


class BadInput(Exception):
    """The rest of the input is no request. What was written for it before stands in front of the 400."""

    def __init__(self, told=b""):
        super().__init__()
        self.told = told


class BadRing(Exception):
    def __init__(self, cause):
        super().__init__(cause)
        self.cause = cause


def is_utf8(data):
    try:
        data.decode("utf-8")
    except UnicodeDecodeError:
        return False
    return True


def percent_decoded(data):
    return re.sub(rb"%([0-9A-Fa-f]{2})", lambda found: bytes([int(found[1], 16)]), data)


def escaped(data):
    return b"".join(bytes([it]) if re.match(rb"[A-Za-z0-9\-._~/]", bytes([it])) else b"%%%02X" % it for it in data)


def is_digits(data, least=1, most=None):
    return data is not None and re.fullmatch(rb"[0-9]+", data) is not None and least <= len(data) and (most is None or len(data) <= most)


def plain_number(data):
    """The number of decimal digits without leading zeros, else none."""
    return int(data) if re.fullmatch(rb"0|[1-9][0-9]*", data) else None


def read_time(data):
    found = re.fullmatch(rb"([0-9]{1,10})(?:\.([0-9]{1,5}))?", data)
    return int(found[1]) * 100_000 + int((found[2] or b"").ljust(5, b"0")) if found else None


def normal(units):
    return b"%010d.%05d" % divmod(units, 100_000)


def http_date(units):
    """The time as a date, rounded up to a whole second."""
    moment = datetime(1970, 1, 1, tzinfo=timezone.utc) + timedelta(seconds=-(-units // 100_000))
    days, months = "Mon Tue Wed Thu Fri Sat Sun".split(), "Jan Feb Mar Apr May Jun Jul Aug Sep Oct Nov Dec".split()
    return (f"{days[moment.weekday()]}, {moment.day:02} {months[moment.month - 1]} {moment.year} "
            f"{moment.hour:02}:{moment.minute:02}:{moment.second:02} GMT").encode()


def json_date(units):
    moment = datetime(1970, 1, 1) + timedelta(microseconds=units * 10)
    return moment.strftime("%Y-%m-%dT%H:%M:%S.") + f"{units % 100_000 * 10:06}"


def json_text(value):
    return json.dumps(value, ensure_ascii=False, separators=(",", ":")).encode("utf-8")
