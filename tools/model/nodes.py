"""What stands at the devices: objects, records of updates, containers with their rows, journals, and the trail."""
import hashlib

from .common import EMPTY_MD5, ENTRY_LIMIT, GREATEST_U64, WEIGHT_LIMIT, Refused, escaped, normal
from .rings import suffix_of


class Write:
    """A put, a deletion or a meta. Content is (body, type, ETag), heads are (second of expiry or none, items by name)."""

    def __init__(self, kind, name, when, heads=(None, {}), content=None):
        self.kind, self.name, self.time, self.heads, self.content = kind, name, when, heads, content

    def file(self):
        return (normal(self.time) + {"put": b".data", "delete": b".ts", "meta": b".meta"}[self.kind]).decode()


class State:
    """What is left of the writes of a name: the base, which is a put or a deletion, and a meta that is later."""

    def __init__(self):
        self.base = self.meta = None

    def copy(self):
        other = State()
        other.base, other.meta = self.base, self.meta
        return other

    def changes(self, write):
        rank = (write.time, write.kind == "delete")
        if write.kind == "meta":
            return all(it is None or write.time > it.time for it in (self.base, self.meta))
        return self.base is None or rank > (self.base.time, self.base.kind == "delete")

    def join(self, write):
        if write.kind == "meta":
            self.meta = write
            return
        self.base = write
        if self.meta and self.meta.time <= write.time:
            self.meta = None

    def object(self):
        return self.base if self.base and self.base.kind == "put" else None

    def tombstone(self):
        return self.base if self.base and self.base.kind == "delete" else None

    def time(self):
        return max(it.time for it in (self.base, self.meta) if it)

    def heads(self):
        return (self.meta or self.base).heads

    def picked(self):
        return [it for it in (self.base, self.meta) if it]


class Row:
    def __init__(self, name, created_at, size, kind, etag, deleted):
        self.name, self.time, self.size, self.type, self.etag, self.deleted = name, created_at, size, kind, etag, deleted


class Container:
    """Its times; its rows, with their numbers and the greatest one given out; up to which number other devices have them all; and how it is split."""

    def __init__(self):
        self.put_time, self.delete_time, self.rows = None, None, {}
        self.numbers, self.top, self.syncs = {}, 0, {}
        self.split = None

    def put(self, row):
        self.top += 1
        self.rows[row.name], self.numbers[row.name] = row, self.top

    def rows_above(self, number):
        return [self.rows[name] for name in sorted(self.numbers, key=self.numbers.get) if self.numbers[name] > number]

    def is_absent(self):
        return self.put_time is None or (self.delete_time is not None and self.delete_time > self.put_time)

    def served(self):
        """The ranges whose names are left to shards."""
        return self.split.ranges[:self.split.cursor] if self.split else []

    def shard_of(self, name):
        """The shard that a name is left to, or none."""
        return next((it.shard for it in self.served() if it.has(name)), None)

    def own(self):
        """The rows that aren't left to shards."""
        return [it for it in self.rows.values() if self.shard_of(it.name) is None]

    def live(self):
        return [it for it in self.own() if not it.deleted]

    def told(self, shards):
        """What HEAD and GET tell, over these shards too, each with all of its rows."""
        sizes = [it.size for part in (self, *shards) for it in part.live()]
        return [(b"X-Container-Object-Count", b"%d" % len(sizes)), (b"X-Container-Bytes-Used", b"%d" % min(sum(sizes), GREATEST_U64)),
                (b"X-Timestamp", normal(self.put_time)), (b"X-Backend-Sharding-State", self.split.told() if self.split else b"unsharded")]

    def hash(self):
        total = 0
        for it in self.own():
            total ^= int.from_bytes(hashlib.md5(it.name + b"-" + normal(it.time)).digest(), "big")
        return b"%032x" % total


class Record:
    """A write that a client asked for, and the devices of its container that were told of it."""

    def __init__(self, name, when):
        self.name, self.time, self.done = name, when, set()


class Nodes:
    """All devices of a ring, and the trail of what was entered at them."""

    def __init__(self, ring, weight_limit=WEIGHT_LIMIT):
        self.ring, self.objects, self.containers, self.trail = ring, {}, {}, []
        self.weight_limit = weight_limit
        self.journals, self.records = {}, {}

    def state(self, device, digest):
        return self.objects.setdefault((device, digest), State())

    def tell(self, kind, device, path, when=None):
        self.trail.append(b"%d %s %s %s %s\n" % (len(self.trail) + 1, kind, self.ring.devices[device], escaped(path), b"-" if when is None else normal(when)))

    def has_room(self, device, half, digest, entries, weight=0):
        old = self.journals.get((device, half, self.ring.stripe(digest)), (0, 0))
        return old[0] + entries <= ENTRY_LIMIT and old[1] + weight <= self.weight_limit

    def journal(self, device, half, digest, entries, weight=0):
        if not self.has_room(device, half, digest, entries, weight):
            raise Refused(503)
        key = (device, half, self.ring.stripe(digest))
        old = self.journals.get(key, (0, 0))
        self.journals[key] = (old[0] + entries, old[1] + weight)

    def enter(self, device, write, kind):
        digest = self.ring.hash(*write.name)
        self.journal(device, "object", digest, 1, len(write.content[0]) if write.content else 0)
        if kind in (b"put", b"delete"):
            self.records.setdefault(device, {})[self.record_path(digest, write.time)] = Record(write.name, write.time)
        self.state(device, digest).join(write)
        self.tell(kind, device, b"/" + b"/".join(write.name), write.time)

    def receive(self, device, write):
        """Whether a write that is taken over changed something."""
        state = self.state(device, self.ring.hash(*write.name))
        if not state.changes(write):
            return False
        self.enter(device, write, b"receive")
        return True

    def lines(self, device, part, suffix=None):
        """What is picked of each hash of a partition that has a file, in order of the hashes."""
        found = [(digest, state.picked()) for (at, digest), state in self.objects.items() if at == device and self.ring.partition(digest) == part]
        return sorted((it for it in found if it[1] and suffix in (None, suffix_of(it[0]))), key=lambda it: it[0])

    def suffix_hashes(self, device, part):
        texts = {}
        for digest, picked in self.lines(device, part):
            text = "".join(f"{digest.hex()}/{it.file()}\n" for it in picked)
            texts[suffix_of(digest)] = texts.get(suffix_of(digest), "") + text
        return {it: hashlib.md5(texts[it].encode()).hexdigest() for it in sorted(texts)}

    def files(self, device):
        paths = [f"objects/{self.ring.partition(digest)}/{suffix_of(digest)}/{digest.hex()}/{it.file()}"
                 for (at, digest), state in self.objects.items() if at == device for it in state.picked()]
        return "".join(f"{it}\n" for it in sorted(paths)).encode()

    @staticmethod
    def record_path(digest, when):
        return f"async_pending/{suffix_of(digest)}/{digest.hex()}-{normal(when).decode()}"

    def pending(self, device):
        """The records of a device, in order of their files' paths."""
        return sorted(self.records.get(device, {}).items())

    def pending_text(self, device):
        names = [(path, b",".join(self.ring.devices[it] for it in sorted(record.done)) or b"-") for path, record in self.pending(device)]
        return b"".join(path.encode() + b" " + done + b"\n" for path, done in names)

    def base_row(self, device, record):
        """The row that tells what stands under a record's name: none where nothing stands that is as late."""
        base = self.state(device, self.ring.hash(*record.name)).base
        if base is None or base.time < record.time:
            return None
        if base.kind == "delete":
            return Row(record.name[2], base.time, 0, b"text/plain", EMPTY_MD5, True)
        body, kind, etag = base.content
        return Row(record.name[2], base.time, len(body), kind, etag.decode(), False)

    def restart(self, device):
        self.journals = {key: it for key, it in self.journals.items() if key[0] != device}
        self.tell(b"restart", device, b"/")

    def place(self, device, account, container):
        return self.containers.setdefault((device, account, container), Container())

    def replicas(self, place):
        """The devices that keep a container, in the ring's order."""
        return self.ring.container[self.ring.partition(self.ring.hash(*place))]
