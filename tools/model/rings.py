"""Rings, and where a name is kept."""
import hashlib
import json
import re

from .common import GREATEST_U64, BadRing, is_utf8


def number_of_json(text):
    """A whole number of a ring. Whatever else is a number is a float, of another kind; one that no float holds is no JSON."""
    if "." in text or "e" in text.lower() or text.startswith("-") or int(text) > GREATEST_U64:
        try:
            value = float(text)
        except OverflowError:
            value = float("inf")
        if value in (float("inf"), float("-inf")):
            raise BadRing(1)
        return value
    return int(text)


def no_constant(_):
    raise BadRing(1)


def nesting(text):
    """How deep lists and objects stand in each other. Brackets in texts don't count."""
    depth = deepest = 0
    for it in re.sub(r'"(?:[^"\\]|\\.)*"', "", text, flags=re.S):
        depth += (it in "[{") - (it in "]}")
        deepest = max(deepest, depth)
    return deepest


def has_lone_surrogate(value):
    if isinstance(value, str):
        return any("\ud800" <= it <= "\udfff" for it in value)
    if isinstance(value, dict):
        return any(has_lone_surrogate(it) for pair in value.items() for it in pair)
    return isinstance(value, list) and any(has_lone_surrogate(it) for it in value)


class Pairs(list):
    """The members of an object as they stand, so that those that are named twice are looked at as well."""


def plain_value(value):
    if isinstance(value, Pairs):
        return {key: plain_value(it) for key, it in value}
    return [plain_value(it) for it in value] if isinstance(value, list) else value


def all_texts(value):
    if isinstance(value, str):
        yield value
    elif isinstance(value, (list, tuple)):
        for it in value:
            yield from all_texts(it)


def read_json(data):
    try:
        text = data.decode("utf-8")
        if nesting(text) > 127:
            raise BadRing(1)
        found = json.loads(text, parse_int=number_of_json, parse_float=number_of_json, parse_constant=no_constant, object_pairs_hook=Pairs)
    except (ValueError, RecursionError):
        raise BadRing(1) from None
    if any(has_lone_surrogate(it) for it in all_texts(found)):
        raise BadRing(1)
    return plain_value(found)


def is_whole(value):
    return isinstance(value, int) and not isinstance(value, bool)


def is_table(value, replicas):
    return isinstance(value, list) and all(isinstance(row, list) and len(row) == replicas and all(is_whole(it) for it in row) for row in value)


class Ring:
    KEYS = {"devices", "part_power", "lock_bits", "replicas", "hash_prefix", "hash_suffix", "object", "container"}

    def __init__(self, data):
        value = read_json(data)
        self.test_kinds(value)
        self.devices = [it.encode() for it in value["devices"]]
        self.power, self.lock_bits, self.replicas = value["part_power"], value["lock_bits"], value["replicas"]
        self.prefix, self.suffix = value["hash_prefix"].encode(), value["hash_suffix"].encode()
        self.object, self.container = value["object"], value["container"]
        self.test_values()

    def test_kinds(self, value):
        if not isinstance(value, dict) or set(value) != self.KEYS:
            raise BadRing(2)
        names, power, bits, replicas = (value[it] for it in ("devices", "part_power", "lock_bits", "replicas"))
        good = isinstance(names, list) and all(isinstance(it, str) and re.fullmatch(r"[a-z0-9]{1,32}", it) for it in names)
        good = good and all(is_whole(it) for it in (power, bits, replicas))
        good = good and all(isinstance(value[it], str) for it in ("hash_prefix", "hash_suffix"))
        good = good and bits <= 4 and (power == 0 or bits <= power) and replicas != 0
        if not good or not all(is_table(value[it], replicas) for it in ("object", "container")):
            raise BadRing(2)

    def test_values(self):
        rows = self.object + self.container
        tests = [(3, not 1 <= self.power <= 16), (4, len(set(self.devices)) < len(self.devices)),
                 (5, any(it >= len(self.devices) for row in rows for it in row)),
                 (6, self.power <= 16 and any(len(it) != 2**self.power for it in (self.object, self.container))),
                 (7, any(len(set(row)) < len(row) for row in rows)), (8, len(self.devices) > 8 or self.replicas > 3)]
        for cause, holds in tests:
            if holds:
                raise BadRing(cause)

    def hash(self, *names):
        return hashlib.md5(self.prefix + b"".join(b"/" + it for it in names) + self.suffix).digest()

    def partition(self, digest):
        return int.from_bytes(digest[:4], "big") >> (32 - self.power)

    def stripe(self, digest):
        return digest[0] >> (8 - self.lock_bits)

    def device(self, name):
        return self.devices.index(name) if name in self.devices else None


def suffix_of(digest):
    return digest.hex()[-3:]


def is_bad_name(account, container=None, obj=None):
    names = [it for it in (account, container, obj) if it is not None]
    if any(not it or not is_utf8(it) or b"\0" in it for it in names) or any(b"/" in it or len(it) > 256 for it in names[:2]):
        return True
    return obj is not None and len(obj) > (2048 if account.startswith(b".") else 1024)
