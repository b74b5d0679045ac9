"""Draws inputs from a seed. Names, times and queries come from small lists, so that they meet; each is now and then of a kind that is refused."""
import copy
import hashlib
import json
import re

from .common import escaped, normal, percent_decoded, read_time
from .rings import Ring, suffix_of

ACCOUNTS = [b"a", b"a", b"a", b"b", b".a", "\u00e9".encode()]
CONTAINERS = [b"c", b"c", b"c", b"d", b"c d", b"."]
OBJECTS = [b"o", b"o", b"o", b"p", b"p/a", b"p/b", b"p/a/x", b"p0", "p/\U0010ffff".encode(), b"pp", b"p//", b"q", b"q/", b"/", b"//", b"%", b"%41", b"o?x",
           b"o#", b'"', b"\\", b"a b", b"o\x01", b"o\x7f", b"\n", "\u00fc".encode(), "\uffff".encode(), "\U00010000".encode(), b"x" * 1024]
ROLLED = [b"o", b"p", b"p/", b"p/a", b"p/a/x", b"p/b", b"p/b/x", b"p//", b"p0", b"pp", b"q/", b"q/a"]
BAD_NAMES = [b"", b"z\0", b"\xff", b"\xc3", b"a/b", b"y" * 256, b"y" * 257, b"y" * 1025, b"y" * 2048, b"y" * 2049]
TIMES = [b"5", b"5", b"5.0", b"6", b"6.00000", b"7", b"7.5", b"8", b"9", b"00009", b"5.00001", b"4.99999", b"0", b"0.00001", b"9999999999.99999",
         b"0000000007.50000"]
BAD_TIMES = [b"", b"10000000000", b"1.123456", b"5.", b".5", b"-1", b"+5", b"5_1", b"1e3", b"5,0", b"0x5", b"00000000005", b"5 5", "\u0665".encode(),
             b"5.0.0"]
METHODS = [b"PATCH", b"OPTIONS", b"get", b"Put", b"REPLICATE", b"COPY", b"P", b"!#$%&'*+-.^_`|~"]
TYPES = [b"text/plain"] * 6 + [b"image/jpeg; q=1", "t/\u00e9".encode(), b'a"\\b', b"a\tb"]
BAD_TYPES = [b"", b"\xff", b"t/\xc3"]
DIGESTS = [b"900150983cd24fb0d6963f7d28e17f72", b"900150983CD24FB0D6963F7D28E17F7A"]
BAD_DIGESTS = [b"", b"9" * 31, b"9" * 33, b"g" * 32, b'"' + b"9" * 32 + b'"']
EXPIRIES = [b"9", b"10", b"0000000010", b"1401230000", b"4000000000", b"9999999999", b"8"]
BAD_EXPIRIES = [b"0", b"5", b"", b"x", b"99999999999", b"-1", b"10.0"]
ITEM_NAMES = [b"Color", b"color", b"Size", b"a-b", b"!", b"x" * 128]
ITEM_VALUES = [b"red", b"", b"blue", b"\xff", b"a\tb", b"a  b", b"v" * 256]
SPARE = [(b"Host", b"h"), (b"X-Container-Host", b"1.2.3.4:6201"), (b"Range", b"bytes=0-0"), (b"If-Match", b"x"), (b"Connection", b"close"),
         (b"X-Delete-After", b"5"), (b"X-Delete-At-Host", b"h"), (b"X-Swc-Lose", b"x"), (b"Accept", b"application/json"), (b"X-Timestamp-", b"1"),
         (b"Content-MD5", b"x")]
MESSAGES = [b"1", b"2", b"3", b"4", b"5", b"02", b"999999999"]
BAD_REPLICAS = [b"00", b"", b"x", b"-1", b"9" * 30, b"01", b"+0", b"0.0", b"0,1"]
BAD_MESSAGES = [b"0", b"", b"x", b"1234567890", b"000", b"+1"]
SHARD_TIMES = [b"6", b"6", b"7.5", b"20", b"0", b"9999999999.99999"]
SHARD_NAMES = [b"1", b"1", b"2", b"2", b"2", b"3", b"01", b"999999999"]
BAD_SHARD_NAMES = [b"0", b"00", b"", b"x", b"-1", b"+1", b"1234567890", b"1.0", b"1/2", b"2%20"]
KEPT = [b"Content-Encoding", b"Content-Disposition", b"Content-Language", b"Cache-Control", b"Expires", b"X-Robots-Tag"]
QUERY_TEXTS = [b"", b"o", b"p", b"p/", b"p/a", b"p0", "p/\U0010ffff".encode(), b"pp", b"p//", b"q", b"q/", b"/", b"a", b"x", "\u00fc".encode(),
               "\uffff".encode(), b"\xff", b"\xc3", b"%", b"\"", b" ", b"\x7f"]
LIMITS = [b"0", b"1", b"2", b"3", b"10000", b"10001", b"", b"x", b"-1", b"+1", b"01", b"0" * 40 + b"2", b"9" * 40, b"1.0", b" 1", b"18446744073709551617"]
DELIMITERS = [b"/", b"/", b"/", b"/", b"/", b"/", b"a", b"p", b"", b"//", "\u00fc".encode(), b"\xff", b"\0", b"\x7f", b" ", b"%", b"0"]
SWITCHES = [b"true", b"TRUE", b"yes", b"On", b"t", b"Y", b"1", b"0", b"no", b"", b"truE ", b"2"]
FORMATS = [b"json", b"JSON", b"Json", b"xml", b"XML", b"plain", b"", b"csv", b"json "]
BAD_TAILS = [b"GET /sda HTTP/1.0\r\n\r\n", b"GET * HTTP/1.1\r\n\r\n", b"GET sda HTTP/1.1\r\n\r\n", b"GET  / HTTP/1.1\r\n\r\n", b"GET / HTTP/1.1 \r\n\r\n",
             b"GET /\r\n\r\n", b" GET / HTTP/1.1\r\n\r\n", b"GET / HTTP/1.1\r\nA : b\r\n\r\n", b"GET / HTTP/1.1\r\nA: b\r\n c\r\n\r\n",
             b"GET / HTTP/1.1\r\nA: b\rc\r\n\r\n", b"GET / HTTP/1.1\r\n: b\r\n\r\n", b"GET / HTTP/1.1\r\nA\r\n\r\n", b"GET /\xff HTTP/1.1\r\n\r\n",
             b"GET /\x7f HTTP/1.1\r\n\r\n", b"GET / HTTP/1.1\r\nA: \x7f\r\n\r\n", b"GET / HTTP/1.1\r\nA: \0\r\n\r\n", b"G(T / HTTP/1.1\r\n\r\n",
             b"GET / http/1.1\r\n\r\n", b"GET / HTTP/2.0\r\n\r\n", b"GET / HTTP/1.1\r\r\n\r\n", b"\0", b"x", b"\r\nG", b"GET http://h/sda HTTP/1.1\r\n\r\n",
             b"GET / HTTP/1.1\r\n\tA: b\r\n\r\n", b"GET /\tHTTP/1.1\r\n\r\n"]
BAD_FRAMES = [[(b"Content-Length", b"3"), (b"Content-Length", b"03")], [(b"Content-Length", b"3"), (b"Transfer-Encoding", b"chunked")],
              [(b"Content-Length", b"")], [(b"Content-Length", b"+3")], [(b"Content-Length", b"3,3")], [(b"Content-Length", b"1" * 19)],
              [(b"Content-Length", b"9" * 18)], [(b"Transfer-Encoding", b"gzip")], [(b"Transfer-Encoding", b"gzip, chunked")],
              [(b"Transfer-Encoding", b"chunked")] * 2, [(b"Transfer-Encoding", b"")], [(b"Content-Length", b"0x3")], [(b"Content-Length", b"-0")],
              [(b"Content-Length", b"3 3")], [(b"Transfer-Encoding", b"chunked;a=b")]]
BAD_CHUNKS = [b"\r\n", b"g\r\nabc\r\n0\r\n\r\n", b"3\nabc\r\n0\r\n\r\n", b"3\r\nabc\n0\r\n\r\n", b"3\r\nabcd\r\n0\r\n\r\n", b" 3\r\nabc\r\n0\r\n\r\n",
              b"3 x\r\nabc\r\n0\r\n\r\n", b";a\r\n", b"-3\r\nabc\r\n", b"00000000000000003\r\nabc\r\n0\r\n\r\n", b"ffffffffffffffff\r\nabc",
              b"3;a\rb\r\nabc\r\n0\r\n\r\n", b"0\r\nA b\r\n\r\n", b"0\r\n", b"0\r\nA: b\r\n", b"3\r\nabc\r\n", b"0x3\r\nabc\r\n0\r\n\r\n",
              b"4000001\r\nabc\r\n0\r\n\r\n", b"3\r\nabc\r\n0\r\n\r", b"3\r\nabc0\r\n\r\n"]


# How often requests are for objects, for containers and rows, for replicas, for control, odd ones, and for shards: scripts of all, of objects, of rows, of
# pushes, of containers that are split.
SPLITTING = [18, 26, 1, 22, 0.2, 33]
WEIGHTS = [[50, 28, 6, 15, 0.6, 2], [80, 5, 5, 9, 1, 0], [5, 90, 2, 3, 0.3, 1], [45, 5, 6, 45, 0.3, 1], SPLITTING, SPLITTING]
# The same of what `serve` is asked, which makes no push.
SERVE_WEIGHTS = [[40, 28, 6, 2, 0.5, 1], [80, 5, 6, 2, 1, 0], [5, 90, 2, 2, 0.3, 0]]


def plain(line, *fields):
    """The head of a request whose spelling isn't drawn."""
    return b"".join(it + b"\n" for it in (line + b" HTTP/1.1", *fields, b""))


class Draw:
    """One script: a ring, and the pieces of an input."""

    def __init__(self, random, serves=False):
        self.random, self.serves, self.writes = random, serves, 0
        self.ring_text = json.dumps(self.ring_value(), ensure_ascii=self.chance(50)).encode()
        self.ring = Ring(self.ring_text)
        self.accounts = [self.one(ACCOUNTS) for _ in range(self.one([1, 1, 2]))]
        self.containers = [self.one(CONTAINERS) for _ in range(self.one([1, 1, 2]))]
        self.objects = [self.one(OBJECTS) for _ in range(self.one([1, 2, 3, 5, 8, 20]))]
        if self.chance(25):
            self.objects += [b"p/a", b"p/b", b"p/a/x", b"p/", b"q/", b"q/a", b"p0", b"a b"]
        self.weights = self.one(SERVE_WEIGHTS if serves else WEIGHTS)
        self.times = self.random.sample(TIMES, self.one([3, 5, len(TIMES)]))
        self.devices = self.random.sample(self.ring.devices, min(2, len(self.ring.devices)))
        self.cuts, self.splits = [], self.weights is SPLITTING
        if self.splits:
            self.accounts, self.containers = [self.one([b"a", b"a", "\u00e9".encode()])], self.containers[:1]
            self.objects = self.random.sample(sorted(set(OBJECTS)), self.one([2, 4, 5, 5, 6, 8])) if self.chance(65) else self.random.sample(ROLLED, 7)
            self.devices = self.keepers(b"%d" % self.ring.partition(self.ring.hash(self.accounts[0], self.containers[0])))

    def one(self, items):
        return self.random.choice(items)

    def chance(self, percent):
        return self.random.random() * 100 < percent

    def mostly(self, good, bad, percent=95):
        return self.one(good) if self.chance(percent) else self.one(bad)

    def ring_value(self):
        devices = self.random.sample(["sda", "sdb", "sdc", "d4", "0", "x" * 32], self.one([1, 2, 2, 3, 4]))
        power, replicas = self.one([1, 2, 2, 3, 4, 4]), min(len(devices), self.one([1, 2, 2, 3]))
        table = [[self.random.sample(range(len(devices)), replicas) for _ in range(2**power)] for _ in range(2)]
        return {"devices": devices, "part_power": power, "lock_bits": self.random.randint(0, min(4, power)), "replicas": replicas,
                "hash_prefix": self.one(["", "", "pre", "\u00e9\"\\"]), "hash_suffix": self.one(["endcap", "", "/x"]), "object": table[0],
                "container": table[1]}

    # what a target is made of

    def spelled(self, name, keep=b""):
        """The bytes of a name as a target may write them."""
        if self.chance(0.1):
            return name
        often, raw = self.one([0, 0, 10, 50]), self.chance(50) and self.utf8(name)
        parts = []
        for it in name:
            stands = it in keep or (0x20 < it < 0x7f and it not in b"/%?" and not self.chance(often)) or (it > 0x7f and raw)
            parts.append(bytes([it]) if stands else self.one([b"%%%02X", b"%%%02x"]) % it)
        return b"".join(parts)

    @staticmethod
    def utf8(name):
        return name.decode("utf-8", "replace").encode() == name

    def account(self):
        return self.mostly(self.accounts, BAD_NAMES + ACCOUNTS, 98)

    def container(self):
        return self.mostly(self.containers, BAD_NAMES + CONTAINERS, 98)

    def object(self):
        return self.mostly(self.objects, BAD_NAMES + OBJECTS, 97)

    def device(self):
        return self.spelled(self.mostly(self.devices, self.ring.devices + [b"sdx", b"", b"SDA", b"sd a", b"\xff"], 95))

    def part(self, segments, obj=None):
        """The partition of what the segments name, mostly."""
        names = [percent_decoded(it) for it in segments] + ([b"/".join(percent_decoded(it) for it in obj.split(b"/"))] if obj is not None else [])
        number = self.ring.partition(self.ring.hash(*names))
        if self.chance(98):
            return b"%d" % number
        return self.one([b"0%d" % number, b"+%d" % number, b"", b"%d" % (number + 1), b"%%3%d" % (number % 10), b"x", b"65536", b"-0", b"%d " % number,
                         b"%d%%20" % number])

    # fields, heads, bodies

    def cased(self, name):
        return self.one([name, name, name.lower(), name.upper()])

    def spaced(self, value):
        return self.one([b" ", b" ", b" ", b"", b"\t", b"  "]) + value + self.one([b"", b"", b"", b" ", b"\t "])

    def head(self, method, target, fields):
        fields = list(fields)
        for name, value in self.random.sample(SPARE, self.one([0, 0, 0, 0, 1, 2])):
            fields.append((name, value))
        if fields and self.chance(6):
            name, value = self.one(fields)
            if name not in (b"Content-Length", b"Transfer-Encoding"):
                fields.insert(self.random.randint(0, len(fields)), (name, self.one([b"", b"x", value, b"6", b"*", b"true"])))
        if self.chance(50):
            self.random.shuffle(fields)
        end = self.one([b"\r\n", b"\r\n", b"\n"])
        lines = [method + b" " + target.replace(b" ", b"%20").replace(b"\n",
                                                                      b"%0A") + b" HTTP/1.1"] + [self.cased(name) + b":" + self.spaced(value) for name,
                                                                                                 value in fields]
        return b"".join(it + end for it in lines) + end

    def chunked(self, body):
        text, at = b"", 0
        while at < len(body):
            size = self.random.randint(1, len(body) - at)
            digits = self.one([b"%x", b"%X", b"00%x", b"%016x"]) % size
            text += digits + self.one([b"", b"", b" ", b"\t ", b";", b";a=b", b" ; \xff\0\"", b";;"]) + b"\r\n" + body[at:at + size] + b"\r\n"
            at += size
        return text + self.one([b"0", b"000", b"0;x"]) + b"\r\n" + self.one([b"", b"", b"A: b\r\n", b"Content-Length: 9\r\nX-Timestamp: 1\r\n",
                                                                             b"A:\n"]) + self.one([b"\r\n", b"\n"])

    def body(self):
        """A body, with fields that frame it and the bytes that come."""
        body = self.one([b"abc", b"abc", b"", b"abcde", b"GET / HTTP/1.1\r\n\r\n", b"\0\xff\r\n"])
        if self.chance(75):
            length = b"%d" % len(body)
            return body, [(b"Content-Length", self.one([length, length, b"00" + length]))] * self.one([1, 1, 1, 2]), body
        return body, [(b"Transfer-Encoding", self.one([b"chunked", b"Chunked", b"CHUNKED"]))], self.chunked(body)

    def large_requests(self):
        """Bodies at their limit and over it, and as many of one lock's as fill its journal, and a push of these."""
        body, found, when = b"L" * 5242880, [], 5
        for _ in range(self.one([2, 9])):
            when += 1
            sent = self.mostly([body], [body + b"L", body[:-1], b"abc"], 80)
            framed = (b"Content-Length: %d\r\n\r\n" % len(sent) + sent) if self.chance(70) else b"Transfer-Encoding: chunked\r\n\r\n" + self.chunked(sent)
            start = b"PUT /%s/%d/a/c/o HTTP/1.1\r\nX-Timestamp: %d\r\nContent-Type: t\r\n"
            found.append(start % (self.devices[0], self.ring.partition(self.ring.hash(b"a", b"c", b"o")), when) + framed)
        return found + [self.control_request() for _ in range(8)] + [self.request() for _ in range(20)]

    def expectation(self):
        return [(b"Expect", self.one([b"100-continue", b"100-Continue", b"100-CONTINUE", b"200-ok", b"", b"100-continue, x"]))] if self.chance(6) else []

    def when(self):
        """A time, in half of the requests one that goes on with them, so that long scripts keep changing what stands."""
        self.writes += 1
        near = b"%d" % (10 + self.writes // 6 + self.random.randint(-2, 1))
        return [(b"X-Timestamp", self.mostly(self.times + [near] * len(self.times), BAD_TIMES, 98))] if self.chance(99) else []

    def heads(self):
        fields = [(b"X-Delete-At", self.mostly(EXPIRIES, BAD_EXPIRIES, 75))] if self.chance(12) else []
        for _ in range(self.one([0, 0, 1, 2, 3])):
            name, value = self.mostly(ITEM_NAMES, [b"", b"x" * 129], 97), self.mostly(ITEM_VALUES, [b"v" * 257], 98)
            fields.append((b"X-Object-Meta-" + name, value))
        if self.chance(1.5):
            fields += [(b"X-Object-Meta-%d" % it, b"") for it in range(self.one([89, 90, 91]))]
        if self.chance(1.5):
            fields += [(b"X-Object-Meta-%02d" % it, b"v" * 254) for it in range(16)] + self.one([[], [(b"X-Object-Meta-x", b"")]])
        return fields + [(it, self.one(ITEM_VALUES)) for it in KEPT if self.chance(4)]

    def etag(self, body):
        right = hashlib.md5(body).hexdigest().encode()
        other = hashlib.md5(b"").hexdigest().encode()
        return [(b"ETag", self.one([right, right.upper(), b'"%s"' % right, b'""%s"' % right, b"", b'"', right[:-1], b'W/"%s"' % right, other]))]

    # requests

    def object_request(self):
        account, container, name = self.spelled(self.account()), self.spelled(self.container()), self.spelled(self.object(), b"/")
        target = b"/" + b"/".join([self.device(), self.part([account, container], name), account, container, name])
        target += self.one([b"", b"", b"", b"?x=y", b"?", b"?limit=x?"])
        method = self.mostly([b"PUT"] * 8 + [b"GET"] * 4 + [b"HEAD", b"HEAD"] + [b"POST"] * 4 + [b"DELETE"] * 4, METHODS, 97)
        body, framed, come = b"", [], b""
        if (method == b"PUT" and self.chance(97)) or self.chance(6):
            body, framed, come = self.body()
        fields = framed + self.expectation()
        if method not in (b"GET", b"HEAD") or self.chance(5):
            fields += self.when()
        if method in (b"PUT", b"POST"):
            fields += self.heads()
        if method == b"PUT" or self.chance(4):
            fields += [(b"Content-Type", self.mostly(TYPES, BAD_TYPES, 97))] if self.chance(98) else []
            fields += self.etag(body) if self.chance(10) else []
            fields += [(b"If-None-Match", self.one([b"*", b"*", b'"*"', b"x", b""]))] if self.chance(10) else []
        if self.chance(25):
            fields.append((b"X-Backend-Replication", self.one([b"True", b"true", b"True", b"true", b"True", b"TRUE", b"false", b"1", b""])))
        if method == b"DELETE" and self.chance(12):
            fields.append((b"X-If-Delete-At", self.mostly(EXPIRIES, BAD_EXPIRIES, 85)))
        if self.chance(2):
            fields.append((b"X-Swc-Server", self.one([b"container", b"Container", b"object", b""])))
        return self.head(method, target, fields) + come

    def query_byte(self, byte):
        stands = 0x21 <= byte < 0x7f and byte not in b"&%#+="
        return self.one([b"%%%02X" % byte, b"%%%02x" % byte] + [bytes([byte])] * stands)

    def query(self):
        kinds = {b"limit": LIMITS, b"marker": QUERY_TEXTS + self.objects, b"end_marker": QUERY_TEXTS + self.objects, b"prefix": QUERY_TEXTS,
                 b"delimiter": DELIMITERS, b"reverse": SWITCHES, b"format": FORMATS, b"path": [b"x"], b"Limit": [b"1"]}
        pairs = []
        for _ in range(self.one([0, 1, 1, 2, 2, 3, 4])):
            name = self.one([*kinds, b"delimiter", b"marker", b"prefix"])
            value = b"".join(self.query_byte(it) for it in self.one(kinds[name])).replace(b"%20", self.one([b"+", b"%20"]))
            spelled = self.one([name, name, name, name.replace(b"i", b"%69"), name.replace(b"e", b"%65")])
            pairs.append(spelled + self.one([b"=", b"=", b"=", b"=", b"==", b""]) + value)
        return b"?" + self.one([b"&", b"&", b"&&"]).join(pairs) + self.one([b"", b"", b"&", b"?", b"%", b"%4"]) if pairs or self.chance(10) else b""

    def container_request(self):
        return self.request_at(self.account(), self.container())

    def keepers(self, part):
        """The devices that keep the containers of a partition."""
        return [self.ring.devices[it] for it in (self.ring.container[int(part)] if part.isdigit() and int(part) < len(self.ring.container) else [0])]

    def request_at(self, account, container):
        account, container = self.spelled(account), self.spelled(container)
        part = self.part([account, container])
        device = self.one(self.keepers(part)) if self.chance(93) else self.device()
        target, fields = b"/" + b"/".join([device, part, account, container]), self.expectation()
        is_row = self.chance(50)
        if is_row:
            method = self.mostly([b"PUT", b"PUT", b"PUT", b"DELETE"], METHODS + [b"GET", b"HEAD", b"POST"], 97)
            target += b"/" + self.spelled(self.object(), b"/")
            fields += [(b"X-Swc-Server", b"container")]
            drawn = [(b"X-Size", self.mostly([b"3", b"0", b"007", b"9" * 18], [b"", b"x", b"-1", b"1" * 19, b"3.0"], 97)),
                     (b"X-Content-Type", self.mostly(TYPES, BAD_TYPES, 98)),
                     (b"X-Etag", self.mostly(DIGESTS, BAD_DIGESTS, 98))]
            fields += [it for it in drawn if self.chance(99)] if method != b"DELETE" or self.chance(20) else []
        else:
            method = self.mostly([b"PUT"] * 3 + [b"DELETE"] * 2 + [b"GET"] * 6 + [b"HEAD"] * 2, METHODS + [b"POST"], 97)
            target += self.query() if method == b"GET" or self.chance(10) else b""
            fields += self.replica() if self.chance(30 if self.splits else 6) else []
        if method in (b"PUT", b"DELETE") or self.chance(5):
            fields += self.when()
        come = b""
        if self.chance(5):
            _, framed, come = self.body()
            fields += framed
        return self.head(method, target, fields) + come

    def replica(self):
        """The field that says which of the devices of each shard is asked."""
        known = [b"%d" % it for it in range(self.ring.replicas)]
        return [(b"X-Swc-Shard-Replica", self.mostly(known, BAD_REPLICAS + [b"%d" % self.ring.replicas], 85 if self.splits else 40))]

    def page_query(self):
        """A query that mostly nothing refuses: a page that begins or ends at names, at what they roll up to, and right behind them."""
        near = [*self.objects, *(it[:at + 1] for it in self.objects for at, byte in enumerate(it) if byte in b"/p")]
        rolled = [it[:at + 1] for it in self.objects for at, byte in enumerate(it) if byte == 0x2f]
        texts = near + 2 * rolled + [it + b"\0" for it in near] + [it + "\U0010ffff".encode() for it in near] + list(filter(self.utf8, QUERY_TEXTS))
        kinds = {b"limit": ([b"0"] + [b"1", b"2", b"3"] * 3 + [b"4", b"5", b"10000", b"10001"], 45), b"marker": (texts, 40), b"end_marker": (texts, 20),
                 b"prefix": (near + [b"p", b"p/", b"q/", b"o", b"/"], 20), b"delimiter": ([b"/"] * 6 + [b"p", b"a", b"o", b"\x7f", b"\0"], 50),
                 b"reverse": ([b"true", b"on", b"1", b"0"], 35), b"format": ([b"json"], 35)}
        pairs = [name + b"=" + b"".join(map(self.query_byte, self.one(those))) for name, (those, percent) in kinds.items() if self.chance(percent)]
        return b"?" + b"&".join(pairs) if pairs else b""

    def looks(self, place):
        """Looks at a container that may be split: at what is told of it, and at pages of it."""
        part, found = b"%d" % self.ring.partition(self.ring.hash(*place)), []
        for _ in range(self.one([1, 2, 3, 5])):
            method, device = self.one([b"GET"] * 5 + [b"HEAD"]), self.one(self.keepers(part))
            target = b"/" + b"/".join([device, part, *map(self.spelled, place)]) + (self.page_query() if method == b"GET" else b"")
            found.append(self.head(method, target, self.replica() if self.chance(60) else []))
        return b"".join(found)

    def used_part(self):
        """The partition of an object that is drawn from."""
        return b"%d" % self.ring.partition(self.ring.hash(self.one(self.accounts), self.one(self.containers), self.one(self.objects)))

    def replicas_request(self):
        part = self.mostly([self.used_part()], [b"0", b"1", b"00", b"16", b"x", b"", b"-1", b"%30", b"99999999999999999999"], 92)
        target = b"/" + self.device() + b"/" + part
        if self.chance(60):
            names = [(account, container, name) for account in self.accounts for container in self.containers for name in self.objects]
            known = [suffix_of(self.ring.hash(*it)).encode() for it in names]
            suffixes = [self.one(known + [b"000", b"fff"]) for _ in range(self.one([1, 2, 3, 20]))]
            bad = [b"", b"-", b"00", b"A83", b"a83-", b"-a83", b"a83--a83", b"a83,a84", b"xyz", b"%61%38%33", b"a83/a83"]
            target += b"/" + self.mostly([b"-".join(suffixes)], bad, 90)
        return self.head(self.mostly([b"REPLICATE"], [b"GET", b"PUT", b"replicate"], 96), target + self.one([b"", b"", b"", b"?x"]), self.expectation())

    def control_request(self):
        device, fields = self.device(), []
        kind = self.one(["replicate"] * (1 if self.splits else 6) + ["rows"] * 6 + ["update"] * 6 + ["trail", "files", "pending", "restart", "other"])
        if kind in ("replicate", "rows", "update"):
            other = self.one(self.devices + [self.device()])
            part = self.mostly([self.used_part()], [b"00", b"16", b"x", b"", b"%31", b"0", b"1"], 92)
            if kind == "rows":
                names = self.shard_place() if self.cuts and self.chance(15) else [self.one(self.accounts), self.one(self.containers)]
                part = self.mostly([b"/".join(map(escaped, names))], [b"a", b"/c", b"a/", b"a/c/o", b"a%2Fc", b"a/%00", b"a/%2F", b"%FF/c"], 94)
            method, target = b"POST", b"/.swc/" + kind.encode() + b"/" + device + (b"/" + other + b"/" + part if kind != "update" else b"")
            fields = self.fates(18 if self.splits else 25)
        elif kind == "other":
            others = [b"", b"/", b"/trail/", b"/files", b"/files/%s/x" % device, b"/x", b"/pending/%s" % device, b"/trail", b"/tra%69l?x",
                      b"/restart/%s" % device, b"/files/%s" % device, b"/replicate/%s" % device,
                      b"/rows/%s" % device, b"/pending", b"/pending/%s/x" % device, b"/update", b"/update/%s" % device, b"/update/%s/%s" % (device, device),
                      b"/shards", b"/shards/%s/a" % device, b"/shards/%s/a/c" % device, b"/shards/%s/a/c/1" % device, b"/ranges/%s/a/c" % device,
                      b"/ranges/%s/a/c/1" % device, b"/cleave/%s/a" % device, b"/cleave/%s/a/c" % device, b"/cleave/%s/a/c/1" % device]
            method, target = self.one([b"GET", b"POST", b"PUT", b"HEAD"]), self.one([b"/.swc", b"/.swc", b"/%2Eswc"]) + self.one(others)
        else:
            method = self.mostly([b"POST" if kind == "restart" else b"GET"], [b"PUT", b"HEAD"], 96)
            target = b"/.swc/" + kind.encode() + (b"" if kind == "trail" else b"/" + device)
        return self.head(method, target, fields + self.expectation())

    def fates(self, percent):
        """Fields that name a message which fails or comes twice."""
        number, fields = self.one(MESSAGES), []
        for name in (b"X-Swc-Lose", b"X-Swc-Lose-Reply", b"X-Swc-Repeat"):
            if self.chance(percent):
                fields.append((name, self.mostly([number], MESSAGES + BAD_MESSAGES, 80)))
        return fields

    def cut_place(self):
        """A container that is to be split."""
        shown = [it for it in self.accounts if not it.startswith(b".")] or self.accounts
        return [self.mostly(shown, ACCOUNTS + BAD_NAMES, 97), self.mostly(self.containers, CONTAINERS + BAD_NAMES, 97)]

    def shard_place(self):
        """A shard that there may be."""
        return self.shard_of(self.one(self.cuts), self.one([0, 0, 0, 1, 1, 2, 3]))

    @staticmethod
    def shard_of(cut, index):
        account, container, when = cut
        return [b".shards_" + account, b"%s-%s-%s-%d" % (container, hashlib.md5(container).hexdigest().encode(), normal(when), index)]

    def without_a_shard(self, place):
        """A shard is deleted at one of its devices, with all of its rows."""
        part = b"%d" % self.ring.partition(self.ring.hash(*place))
        path = b"/".join([b"DELETE ", self.one(self.keepers(part)), part, *map(escaped, place)])
        rows = [plain(path + b"/" + escaped(it), b"X-Timestamp: 300", b"X-Swc-Server: container") for it in self.objects]
        return b"".join(rows) + plain(path, b"X-Timestamp: " + self.one([b"8", b"21", b"400"]))

    def row(self, method, device, place, name, *fields):
        part = b"%d" % self.ring.partition(self.ring.hash(*place))
        return plain(b"/".join([method + b" ", device, part, *map(escaped, (*place, name))]), b"X-Swc-Server: container", *fields)

    def told_deletions(self, place):
        """Names are deleted, which an update and a push of rows tell."""
        found = []
        for name in self.random.sample(self.objects, min(len(self.objects), self.one([0, 1, 2]))):
            device, to, when = self.one(self.devices), self.one(self.devices), b"X-Timestamp: " + self.one([b"9", b"500"])
            part = b"%d" % self.ring.partition(self.ring.hash(*place, name))
            found.append(plain(b"/".join([b"DELETE ", device, part, *map(escaped, (*place, name))]), when) + plain(b"POST /.swc/update/" + device))
            found.append(self.row(b"DELETE", device, place, name, when))
            found.append(plain(b"/".join([b"POST /.swc/rows", device, to, *map(escaped, place)])))
        return b"".join(found)

    def cleaving(self, place, *fields):
        device = self.keepers(b"%d" % self.ring.partition(self.ring.hash(*place)))[0]
        return plain(b"/".join([b"POST /.swc/cleave", device, *map(escaped, place)]), *fields)

    def torn_cleavings(self, place):
        """Of a cleaving one device of the shard hears nothing, and of the next, behind a further row, maybe the other one."""
        device = self.keepers(b"%d" % self.ring.partition(self.ring.hash(*place)))[0]
        torn = [self.cleaving(place, self.one([b"X-Swc-Lose", b"X-Swc-Lose-Reply"]) + b": %d" % self.one([1, 2])) for _ in range(2)]
        when = b"X-Timestamp: %d" % self.random.randint(30, 40)
        told = (when, b"X-Size: 4", b"X-Content-Type: u", b"X-Etag: " + DIGESTS[0])
        row = self.row(self.one([b"PUT", b"PUT", b"DELETE"]), device, place, self.one(self.objects), *told)
        return torn[0] + row + torn[1] + self.one([b"", self.cleaving(place)])

    def stale_shard(self, place):
        """A creation of shards doesn't come to its end, and one of them is deleted before the next."""
        device = self.keepers(b"%d" % self.ring.partition(self.ring.hash(*place)))[0]
        asked = b"/".join([b"POST /.swc/ranges", device, *map(escaped, place), b"1"])
        self.cuts.append((*place, 600_000))
        lost = plain(asked, b"X-Timestamp: 6", b"X-Swc-Lose: %d" % self.one([2, 3, 4]))
        return lost + self.without_a_shard(self.shard_of(self.cuts[-1], 0)) + plain(asked, b"X-Timestamp: " + self.one([b"6", b"6", b"9"]))

    def split_request(self, kind):
        place = self.shard_place() if self.cuts and self.chance(4) else self.cut_place()
        if kind == "ranges" and self.chance(5):
            place = [self.one([b"a", b"y" * 248, b"y" * 249]), self.one([b"c", b"y" * 192, b"y" * 193])]
        known = self.keepers(b"%d" % self.ring.partition(self.ring.hash(*place)))
        device = self.mostly(known[:1] * 2 + known, [self.device()], 95)
        target, fields = b"/.swc/" + kind.encode() + b"/" + b"/".join([device, *map(self.spelled, place)]), self.fates(12)
        if kind == "ranges":
            target += b"/" + self.mostly(SHARD_NAMES, BAD_SHARD_NAMES, 94)
            when = self.mostly(SHARD_TIMES, BAD_TIMES, 96)
            fields += [(b"X-Timestamp", when)] if self.chance(98) else []
            self.cuts += [(*place, read_time(when))] if read_time(when) is not None else []
        method = self.mostly([b"GET" if kind == "shards" else b"POST"], [b"GET", b"POST", b"PUT", b"HEAD"], 97)
        return self.head(method, target + self.one([b"", b"", b"", b"?x", b"/"] if self.chance(10) else [b""]), fields + self.expectation())

    def shard_request(self):
        """A request that splits a container, or is of a shard or looks over them; or several that are rarely drawn one after the other."""
        behind = ["shard"] * 8 + ["gone"] * 2 + ["told", "torn", "torn"] + ["looks"] * 14 if self.cuts else ["ranges"] * 120
        kind = self.one(["ranges"] * 4 + ["cleave"] * 20 + ["shards"] * 4 + behind)
        if kind in ("ranges", "cleave", "shards"):
            return self.split_request(kind)
        if kind == "shard":
            return self.request_at(*self.shard_place())
        place = [self.accounts[0], self.containers[0]]
        if kind == "looks":
            return self.looks(place)
        if kind == "gone":
            return self.without_a_shard(self.shard_place()) + self.one([self.cleaving, self.told_deletions, self.looks])(place)
        return (self.told_deletions if kind == "told" else self.torn_cleavings)(place)

    def odd_request(self):
        """Heads at their limits, and targets of no server."""
        kind = self.one(["path", "path", "expiry", "expiry", "fields", "head", "skip", "trailer", "trailer-fields"])
        if kind == "path":
            targets = [b"/", b"//", b"/sda", b"/sda/0", b"/sda/0/a", b"/?/.swc/trail", b"////", b"/////", b"/#", b"/.swc%2ftrail", b"/%"]
            return self.head(self.one([b"GET", b"PUT", b"REPLICATE"]), self.one(targets), [])
        if kind == "expiry":
            name = b"n" * self.one([2031, 2032, 2033])
            start = b"PUT /%s/%d/.a/c/%s HTTP/1.1\r\nX-Timestamp: 5\r\n" % (self.devices[0], self.ring.partition(self.ring.hash(b".a", b"c", name)), name)
            return start + b"X-Delete-At: 4000000000\r\nContent-Type: t\r\nContent-Length: 0\r\n\r\n"
        if kind == "fields":
            return b"GET /x HTTP/1.1\r\n" + b"A: b\r\n" * self.one([127, 128, 128, 129]) + b"\r\n"
        if kind == "head":
            start, size = b"GET /x HTTP/1.1\r\nA: ", self.one([65535, 65536, 65536, 65537])
            return start + b"b" * (size - len(start) - 4) + b"\r\n\r\n"
        if kind == "skip":
            return b"".join(self.one([b"\r", b"\n", b"\r\n"]) for _ in range(40)) + b"\n" * self.one([65400, 65700, 9]) + b"GET /y HTTP/1.1\r\n\r\n"
        start = b"PUT /z HTTP/1.1\r\nTransfer-Encoding: chunked\r\nExpect: 100-continue\r\n\r\n0\r\n"
        if kind == "trailer":
            return start + b"A: " + b"b" * (self.one([65535, 65536, 65536, 65537]) - 7) + b"\r\n\r\n"
        return start + b"A: b\r\n" * self.one([127, 128, 128, 129]) + b"\r\n"

    def request(self):
        kinds = [self.object_request, self.container_request, self.replicas_request, self.control_request, self.odd_request, self.shard_request]
        draw = self.random.choices(kinds, self.weights)[0]
        skipped = self.one([b"\r\n", b"\n", b"\r", b"\r\n\r\n"]) if self.chance(8) else b""
        return skipped + draw()

    def bad_tail(self):
        """The end of an input that is mostly no request."""
        kind, good = self.one(["cut", "change", "tail", "frame", "chunk", "drop"]), self.request()
        at = self.random.randint(0, max(0, len(good) - 1))
        if kind == "cut":
            return good[:at]
        if kind == "change":
            return good[:at] + self.one([b"\0", b"\r", b"\n", b" ", b":", b"\xff", b"%", b"\x7f", b"\t"]) + good[at + self.one([0, 1]):]
        if kind == "drop":
            return good[:at] + good[at + 1:]
        if kind == "tail":
            return self.one(BAD_TAILS)
        expect = self.one([[], [(b"Expect", b"100-continue")]])
        target = b"/%s/0/a/c/o" % self.ring.devices[0]
        if kind == "frame":
            return self.head(b"PUT", target, self.one(BAD_FRAMES) + expect) + self.one([b"", b"abc"])
        return self.head(b"PUT", target, [(b"Transfer-Encoding", b"chunked")] + expect) + self.one(BAD_CHUNKS)

    def beginning(self):
        """The containers that are drawn from, at each device of their rows, so that most of what follows finds one."""
        found, often = [], (98, 95) if self.splits else (80, 90)
        for names in [(account, container) for account in self.accounts for container in self.containers if self.chance(often[0])]:
            part = self.ring.partition(self.ring.hash(*names))
            path = b"".join(b"/" + b"".join(b"%%%02X" % it for it in name) for name in names)
            devices = [self.ring.devices[it] for it in self.ring.container[part] if self.chance(often[1])]
            found += [b"PUT /%s/%d%s HTTP/1.1\nX-Timestamp: 1\n\n" % (it, part, path) for it in devices]
            for name in self.objects if self.splits and self.chance(92) else []:
                told = (b"X-Timestamp: " + self.one([b"5", b"5", b"6", b"9", b"25"]), b"X-Size: 3", b"X-Content-Type: t", b"X-Etag: " + DIGESTS[0])
                method = self.mostly([b"PUT"], [b"DELETE"], 90)
                found += [self.row(method, it, names, name, *told) for it in self.one([devices, devices, devices[:1]])]
        return found

    def ending(self):
        """What is told in the end of all that stands."""
        found = [b"GET /.swc/trail HTTP/1.1\r\n\r\n"]
        found += [b"GET /.swc/%s/%s HTTP/1.1\r\n\r\n" % (kind, it) for kind in (b"files", b"pending") for it in self.ring.devices]
        cuts = self.cuts[:3] if self.splits else []
        for place in dict.fromkeys(it[:2] for it in cuts):
            part, path = b"%d" % self.ring.partition(self.ring.hash(*place)), b"/".join(map(escaped, place))
            found += [b"GET /.swc/shards/%s/%s HTTP/1.1\r\n\r\n" % (it, path) for it in self.ring.devices]
            found += [b"%s /%s/%s/%s%s HTTP/1.1\r\nX-Swc-Shard-Replica: %d\r\n\r\n" % (look, it, part, path, query, replica) for it in self.keepers(part)
                      for replica in range(self.ring.replicas) for look, query in ((b"HEAD", b""), (b"GET", b"?format=json"))]
        for place in dict.fromkeys(tuple(self.shard_of(cut, index)) for cut in cuts for index in range(3)):
            part, path = b"%d" % self.ring.partition(self.ring.hash(*place)), b"/".join(map(escaped, place))
            found += [b"GET /%s/%s/%s?format=json HTTP/1.1\r\n\r\n" % (it, part, path) for it in self.keepers(part)]
        return found

    def pieces(self, count):
        found = [] if self.serves else self.beginning()
        if self.splits and self.chance(80):
            found.append(self.stale_shard([self.accounts[0], self.containers[0]]) if self.chance(12) else self.split_request("ranges"))
        found += [self.request() for _ in range(count)]
        return found + ([] if self.serves else self.ending()) + ([self.bad_tail()] if self.chance(40) else [self.one([b"", b"", b"\r\n", b"\r"])])


ODD_VALUES = [0, 1, 2, 3, 4, 5, 16, 17, 2**32, 2**64 - 1, 2**64, 10**400, -1, 1.0, 1e5, "1", "", "x", None, True, [], {}, [[]], [[0]], "sda", "\u00e9",
              ["sda"], ["sda", "sda"], ["a"] * 9, "a" * 32, "a" * 33, 6, 15]
ODD_NUMBERS = ["01", "1.", "+1", "-0", "1e5", "1E400", "-1e999", "1.0", "NaN", "Infinity", "0x1", "1" * 309, "1" * 400, "1e-999", "-",
               "18446744073709551616", "9" * 19]
ODD_MEMBERS = ['"lock_bits": 1}', '"part_power": 1e999}', '"hash_suffix": "\\ud800"}', '"object": 1, "object": []}', '"hash_prefix": "\\ud83d\\ude00"}',
               '"replicas": -0}']
ODD_BYTES = [b"", b"\xff", b"\0", b"\n", b"\t", b",", b"]", b"}", b'"', b"\\", b"\xef\xbb\xbf", b"/", b"\x0b", b"\xc2\xa0"]


def changed_value(draw, value):
    """Changes one place of a ring's value, at whatever depth."""
    at = value
    while True:
        key = draw.one(list(at)) if isinstance(at, dict) else draw.random.randrange(len(at))
        if not (isinstance(at[key], (list, dict)) and at[key] and draw.chance(70)):
            break
        at = at[key]
    what = draw.one(["set", "set", "drop", "double", "add"])
    if what == "set":
        at[key] = copy.deepcopy(draw.one(ODD_VALUES))
    elif what == "drop":
        del at[key]
    elif isinstance(at, list):
        at.append(copy.deepcopy(at[key]))
    else:
        at["x" if what == "add" else "devices"] = copy.deepcopy(draw.one(ODD_VALUES))


def changed_text(draw, text):
    if draw.chance(10):
        text = text[:-1] + ", " + draw.one(ODD_MEMBERS)
    if draw.chance(10):
        spelled = draw.one([lambda it: "\\u%04x" % ord(it), lambda it: "\\u%04X" % ord(it), lambda it: "\\" + it, lambda it: "\\u00" + it,
                            lambda it: it + "\\/"])
        text = re.sub("[a-z]", lambda found: spelled(found[0]) if draw.chance(3) else found[0], text)
    if draw.chance(8):
        deep = draw.one([1, 125, 126, 127, 128])
        text = re.sub(r'"endcap"|"/x"|""', lambda found: draw.one([found[0], "[" * deep + "]" * deep]), text, count=1)
    return re.sub(r": ?\d+", ": " + draw.one(ODD_NUMBERS), text, count=1) if draw.chance(12) else text


def changed_ring(random):
    """The text of a ring in which something is changed: mostly one that is refused."""
    draw = Draw(random)
    value = json.loads(draw.ring_text)
    if draw.chance(12):
        value[draw.one(["object", "container"])] = [draw.one([[0, 0], [1, 1], [0], [0, 1, 2, 3], [0, 1]])] * len(value["object"])
        value["replicas"] = draw.one([1, 2, 2, 4])
    if draw.chance(8):
        name, edges = draw.one([("lock_bits", [4, 5]), ("part_power", [0, 15, 16, 17]), ("replicas", [0, 3, 4])])
        value[name] = draw.one(edges)
        value["part_power"] = draw.one([0, 3, 4, 5]) if name == "lock_bits" else value["part_power"]
    if draw.chance(4):
        value["devices"] = ["d%d" % it for it in range(draw.one([7, 8, 9]))]
    for _ in range(draw.one([0, 1, 1, 1, 2])):
        if value:
            changed_value(draw, value)
    text = changed_text(draw, json.dumps(value, indent=draw.one([None, None, 1]), ensure_ascii=draw.chance(50)))
    data = text.encode("utf-8", "surrogatepass")
    if draw.chance(10):
        at = random.randrange(len(data))
        data = data[:at] + draw.one(ODD_BYTES) + data[at + draw.one([0, 1]):]
    before, behind = draw.mostly([b"", b" \r\n\t"], [b"\xef\xbb\xbf", b"\x0c"], 96), draw.mostly([b"", b"\n"], [b" x", b"\0", b","], 96)
    return before + data + behind


PORTS = [b"1", b"80", b"65535", b"65536", b"0", b"00000000000000000080", b"000000000000000000080", b"99999999999999999999", b"x", b"", b"+1"]
COUNTS = [b"1", b"001", b"65536", b"65537", b"0"]


def serve_words(draw):
    """Words of `serve` with a ring that isn't there or is bad, so that it never listens."""
    values = {b"--port": PORTS, b"--workers": [b"1", b"1", b"01", b"2", b"0"], b"--connections": COUNTS, b"--passes": [b"0", b"0", b"00", b"1", b"65537"]}
    options = [(name, draw.mostly(those[:2], those, 75)) for name, those in values.items()]
    draw.random.shuffle(options)
    if draw.chance(15):
        options[draw.random.randrange(4)] = draw.one(options + [(b"--help", b"1"), (b"-p", b"80"), (b"--Port", b"80"), (b"--por", b"80"),
                                                                (b"--port=80", b"1")])
    return [b"serve", draw.one([b"none", b"ring", b"", b"-x"])] + [it for pair in options for it in pair]


def drawn_words(random):
    """Words of a command line, mostly nearly good. The ring lies in `ring`."""
    draw = Draw(random)
    if draw.chance(25):
        words = serve_words(draw)
        draw.ring_text = draw.one([b"{", b"{}", b"[]", b""])
    elif draw.chance(75):
        names = [draw.mostly([draw.account()], BAD_NAMES, 85), draw.mostly([draw.container()], BAD_NAMES, 85),
                 draw.mostly([draw.object()], BAD_NAMES + OBJECTS, 80)]
        words = [b"where", b"ring"] + names[:draw.one([1, 2, 3])]
    else:
        words = draw.one([[], [b"run"], [b"run", b"ring"], [b"run", b"ring", b"x"], [b"where"], [b"where", b"ring"],
                          [b"where", b"ring", b"a", b"c", b"o", b"x"], [b"run", b"none"], [b"run", b""],
                          [b"run", b"."], [b"Run", b"ring"], [b"serve", b"ring"], [b"help"], [b"--help"], [b""], [b"where", b"none", b""],
                          [b"load", b"ring"], [b"where", b"none", b"-a"]])
    if draw.chance(15) and words:
        at = random.randrange(len(words))
        words = words[:at] + [draw.one([b"-", b"--", b"-x", b"--help", b"", b"\xff", b"a/b", b"ring"])] + words[at + draw.one([0, 1]):]
    return draw.ring_text, [it.replace(b"\0", b"0") for it in words]
