"""What the benchmarks share: a node that is started and ended, the paths of objects, and the files and databases that a node leaves on the disk."""
import atexit
import functools
import hashlib
import json
import os
import pathlib
import re
import shutil
import signal
import socket
import sqlite3
import subprocess
import sys
import tempfile

TOP = pathlib.Path(__file__).resolve().parent.parent
sys.path.insert(0, str(TOP / "tools"))
import chosen  # noqa: E402: found by the line above

RING = TOP / "examples" / "two-devices.ring.json"
FILE_NAME = re.compile(r"[0-9]{10}\.[0-9]{5}\.(data|meta|ts)")
RECORD_NAME = re.compile(r"[0-9a-f]{29}([0-9a-f]{3})-([0-9]{10}\.[0-9]{5})")


@functools.lru_cache(maxsize=None)
def program():
    """The program: the one that SW_PROGRAM names, else the one that tools/program chooses. Standard error says which."""
    return chosen.program(os.environ.get("SW_PROGRAM"))


class Ring:
    def __init__(self, path=RING):
        told = json.loads(pathlib.Path(path).read_text())
        self.prefix, self.suffix = told["hash_prefix"].encode(), told["hash_suffix"].encode()
        self.power, self.lock_bits, self.devices = told["part_power"], told["lock_bits"], told["devices"]

    def hash_of(self, name):
        """The hash path of an object, of which `name` is `account/container/object`, or of a container."""
        return hashlib.md5(self.prefix + b"/" + name.encode() + self.suffix).digest()

    def partition_of(self, name):
        return int.from_bytes(self.hash_of(name)[:4], "big") >> (32 - self.power)

    def target(self, device, name):
        return f"/{device}/{self.partition_of(name)}/{name}"

    def row_target(self, device, container, name):
        """The target of a row, whose partition is that of its container."""
        return f"{self.target(device, container)}/{name}"

    def directory(self, device, name):
        """Where the files of an object stand, below the folder of the node."""
        return self.place(device, "objects", name)

    def database(self, device, container):
        """Where the database of a container stands."""
        return f"{self.place(device, 'containers', container)}/{self.hash_of(container).hex()}.db"

    def place(self, device, half, name):
        digest = self.hash_of(name)
        stripe = digest[0] >> (8 - self.lock_bits)
        digits = digest.hex()
        return f"swc-data/{self.devices.index(device)}/{stripe:02}/{half}/{self.partition_of(name)}/{digits[-3:]}/{digits}"


class Node:
    """A node that runs in a folder. `connections` is how many it serves before it ends by itself."""

    def __init__(self, folder, connections=65536, ring=RING):
        self.port = free_port()
        words = [program(), "serve", str(ring), "--port", str(self.port), "--workers", "1", "--connections", str(connections), "--passes", "0"]
        self.process = subprocess.Popen(words, cwd=folder, stdout=subprocess.PIPE, stderr=subprocess.PIPE)
        atexit.register(self.process.kill)  # so that none is left where a script ends by a fault
        line = self.process.stdout.readline()
        if line != b"listening %d\n" % self.port:
            self.process.kill()
            sys.exit(f"the node doesn't listen: {line!r} {self.process.stderr.read()!r}")

    def second(self, folder):
        """The status of a second node that is started in the same folder meanwhile."""
        words = [program(), "serve", str(RING), "--port", str(free_port()), "--workers", "1", "--connections", "1", "--passes", "0"]
        return subprocess.run(words, cwd=folder, capture_output=True, timeout=60, check=False).returncode

    def kill(self):
        self.process.send_signal(signal.SIGKILL)
        self.process.wait()
        self.process.stdout.close()
        self.process.stderr.close()

    def processor_seconds(self):
        """The seconds that the node has spent so far, its own and the kernel's for it."""
        fields = pathlib.Path(f"/proc/{self.process.pid}/stat").read_text().rsplit(")", 1)[1].split()
        tick = os.sysconf("SC_CLK_TCK")
        return int(fields[11]) / tick, int(fields[12]) / tick

    def memory(self):
        """The most memory that was resident, in bytes."""
        return int(re.search(r"VmHWM:\s+(\d+) kB", pathlib.Path(f"/proc/{self.process.pid}/status").read_text())[1]) * 1024


def free_port():
    with socket.socket() as taken:
        taken.bind(("127.0.0.1", 0))
        return taken.getsockname()[1]


def data_file(name, time, body):
    """The text of the file of an object without metadata. The names used here need no escape."""
    head = f"SWC1 data\npath /{name}\ntime {time}\ntype text/plain\netag {hashlib.md5(body).hexdigest()}\nlength {len(body)}\n\n"
    return head.encode() + body


def fault_of(path):
    """What is wrong with a file below `objects`, or None: it is to be one of the three kinds, whole, with its own time."""
    kind = FILE_NAME.fullmatch(path.name)
    if not kind:
        return "its name isn't a write's"
    head, found, body = path.read_bytes().partition(b"\n\n")
    lines = head.decode(errors="replace").split("\n")
    if not found or lines[0] != f"SWC1 {kind[1]}":
        return "it doesn't begin as its kind does"
    told = dict(line.partition(" ")[::2] for line in lines[1:] if not line.startswith("head "))
    if told.get("time") != path.name.rsplit(".", 1)[0]:
        return "its time isn't that of its name"
    if kind[1] != "data":
        return "there is something behind its head" if body else None
    if told.get("length") != str(len(body)):
        return f"it has {len(body)} bytes of body"
    if told.get("etag") != hashlib.md5(body).hexdigest():
        return "its body isn't that of its ETag"
    return None


def files_below(folder):
    """All files below `objects` of all locks."""
    return [path for path in pathlib.Path(folder, "swc-data").glob("*/*/objects/**/*") if path.is_file()]


def records_below(folder):
    """All records of updates of all locks."""
    return [path for path in pathlib.Path(folder, "swc-data").glob("*/*/async_pending/**/*") if path.is_file()]


def record_of(path):
    """Where the record of the write stands that put this file below `objects`, or None of metadata, which has none."""
    directory, (time, _, kind) = path.parent, path.name.rpartition(".")
    return directory.parents[3] / "async_pending" / directory.parent.name / f"{directory.name}-{time}" if kind != "meta" else None


def fault_of_record(path):
    """What is wrong with a record of an update, or None: it is to be whole, with its own time, in the folder of its suffix, and no device was told yet."""
    named = RECORD_NAME.fullmatch(path.name)
    if not named:
        return "its name isn't a record's"
    if named[1] != path.parent.name:
        return "it is in the folder of another suffix"
    whole = rf"SWC1 pending\npath /[^ \n]+\ntime {re.escape(named[2])}\nqueue 0\ndone -\n\n"
    return None if re.fullmatch(whole.encode(), path.read_bytes()) else "it isn't a record of its time that no device was told of"


def databases_below(folder):
    """All databases of containers of all locks."""
    return sorted(pathlib.Path(folder, "swc-data").glob("*/*/containers/*/*/*/*.db"))


def fault_of_database(path):
    """What SQLite finds wrong with a database that a node left, or None. What was committed last stands in a file beside it (`-wal`), and whoever opens the two
    may bring them together; so copies are opened, and what the node left stays as it is."""
    with tempfile.TemporaryDirectory(prefix="sw-database-") as room:
        for it in (path, *path.parent.glob(f"{path.name}-*")):
            shutil.copy(it, room)
        try:
            database = sqlite3.connect(pathlib.Path(room, path.name))
            told = [it[0] for it in database.execute("PRAGMA integrity_check")]
            database.close()
        except sqlite3.Error as error:
            told = [str(error)]
    return None if told == ["ok"] else f"SQLite says {told[:3]}"
