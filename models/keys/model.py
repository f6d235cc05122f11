#!/usr/bin/env python3
"""An independent model of the key service, made from OPC 10000-14 8.3.2 (GetSecurityKeys), OPC 10000-6 5.2.2 and docs/KEYS.md, without
a look at the crates.

usage: model.py < crates/cases_key/stdin     (prints what crates/cases_key/stdout has to be)"""
import re, struct, sys
from dataclasses import dataclass

POLICIES = {"aes128": b"PubSub-Aes128-CTR", "aes256": b"PubSub-Aes256-CTR"}
ENCRYPTING = {"aes128": 16, "aes256": 32}
NAME = re.compile(rb"[a-z][a-z0-9_]{0,31}")


class Refused(Exception):
    """A call's refusal, by its name."""


@dataclass
class Key:
    token: int
    moment: int
    signing: bytes
    encrypting: bytes
    nonce: bytes

    def text(self):
        return f"{self.token}:{self.moment}:{self.signing.hex()}:{self.encrypting.hex()}:{self.nonce.hex()}"

    def data(self):
        return self.signing + self.encrypting + self.nonce

    def at(self, moment):
        return Key(self.token, moment, self.signing, self.encrypting, self.nonce)


@dataclass
class Answer:
    policy: str
    keys: list
    next: int
    lifetime: int

    def text(self):
        sets = " ".join(key.text() for key in self.keys)
        return f"{self.policy} first {self.keys[0].token} next {self.next} lifetime {self.lifetime}: {sets}"

    def pulled(self, clock=0):
        """The keys with the moments of a puller, whose clock stands there when it is answered."""
        return [key.at(0 if i == 0 else clock + self.next + (i - 1) * self.lifetime) for i, key in enumerate(self.keys)]

    def reply(self):
        head = string(POLICIES[self.policy]) + struct.pack("<II", self.keys[0].token, len(self.keys))
        return head + b"".join(string(key.data()) for key in self.keys) + struct.pack("<QQ", self.next, self.lifetime)


def string(data):
    """A String or a ByteString."""
    return struct.pack("<i", len(data)) + data


def request(name, start, count):
    return string(name) + struct.pack("<II", start, count)


def made_key(policy, token, moment):
    """The key that the cases have under a token."""
    low = token % 256
    return Key(token, moment, bytes([low]) * 32, bytes([(low + 1) % 256]) * ENCRYPTING[policy], bytes([(low + 2) % 256]) * 4)


class Service:
    def __init__(self, name, policy, keys):
        self.name, self.policy, self.keys = name, policy, keys
        if len(keys) < 2:
            raise Refused("TooFew")
        self.lifetime = keys[1].moment - keys[0].moment
        pairs = [(i, keys[i - 1], keys[i]) for i in range(1, len(keys))]
        for i, before, key in pairs:
            if key.token - before.token != 1:
                raise Refused(f"NotConsecutive {{ index: {i} }}")
        for i, before, key in pairs:
            if key.moment - before.moment != self.lifetime:
                raise Refused(f"Uneven {{ index: {i} }}")

    def get(self, name, start, count, now):
        if name != self.name:
            raise Refused("NotFound")
        come = [key for key in self.keys if key.moment <= now]
        current = max(come, key=lambda key: key.moment)
        wanted = current.token if start == 0 else start
        known = any(key.token == wanted for key in self.keys)
        keys = [key for key in self.keys if not known or key.token >= wanted]
        return Answer(self.policy, keys[:max(count, 1)], max(current.moment + self.lifetime - now, 0), self.lifetime)


class Bytes:
    """Bytes that are read from left to right."""

    def __init__(self, data):
        self.data = data

    def take(self, count):
        if len(self.data) < count:
            raise Refused("Short")
        taken, self.data = self.data[:count], self.data[count:]
        return taken

    def number(self, form):
        return struct.unpack("<" + form, self.take(struct.calcsize(form)))[0]

    def string(self, fault):
        length = self.number("i")
        if length < 0:
            raise Refused(fault)
        return self.take(length)

    def end(self):
        if self.data:
            raise Refused("Trailing")


def read_request(data):
    rest = Bytes(data)
    name = rest.string("BadName")
    if not NAME.fullmatch(name):
        raise Refused("BadName")
    start, count = rest.number("I"), rest.number("I")
    rest.end()
    return f"{name.decode()} {start} {count}"


def read_reply(data):
    rest = Bytes(data)
    text = rest.string("BadPolicy")
    policy = next((policy for policy, name in POLICIES.items() if name == text), None)
    if policy is None:
        raise Refused("BadPolicy")
    first, count = rest.number("I"), rest.number("I")
    if not 1 <= count <= 16 or first + count > 1 << 32:
        raise Refused("BadKeys")
    keys = []
    for token in range(first, first + count):
        if rest.number("I") != 36 + ENCRYPTING[policy]:
            raise Refused("BadKeys")
        keys.append(Key(token, 0, rest.take(32), rest.take(ENCRYPTING[policy]), rest.take(4)))
    answer = Answer(policy, keys, rest.number("Q"), rest.number("Q"))
    answer.keys = answer.pulled()
    if any(key.moment >= 1 << 64 for key in answer.keys):
        raise Refused("BadKeys")
    rest.end()
    return answer


def is_ring(keys):
    """Tokens and moments rise, the first moment is 0, and the encrypting keys have one length."""
    rises = all(before.token < key.token and before.moment < key.moment for before, key in zip(keys, keys[1:]))
    return rises and keys[0].moment == 0 and len({len(key.encrypting) for key in keys}) == 1


def in_room(data, room, most):
    return data.hex() if len(data) <= min(room, most) else "Room"


def unhex(words):
    return b"".join(bytes.fromhex(digits) * int(times or 1) for digits, _, times in (word.partition("*") for word in words if word != "-"))


class Bench:
    def __init__(self):
        self.service = None

    def line(self, line):
        call, *words = line.split(" ")
        try:
            return getattr(self, call)(*words)
        except Refused as refused:
            return str(refused)

    def serve(self, name, long, *sets):
        policy = "aes256" if long == "long" else "aes128"
        pairs = [tuple(map(int, word.split(":"))) for word in sets]
        self.service = Service(name, policy, [made_key(policy, token, moment) for token, moment in pairs])
        return "served"

    def get(self, name, start, count, now):
        return self.service.get(name, int(start), int(count), int(now)).text()

    def pull(self, name, count, now):
        return " ".join(key.text() for key in self.service.get(name, 0, int(count), int(now)).pulled())

    def reply(self, name, start, count, now, room):
        return in_room(self.service.get(name, int(start), int(count), int(now)).reply(), int(room), 2048)

    def request(self, name, start, count, room):
        return in_room(request(name.encode(), int(start), int(count)), int(room), 64)

    def read_request(self, *words):
        return read_request(unhex(words))

    def read_reply(self, *words):
        return read_reply(unhex(words)).text()

    def pull_reply(self, *words):
        keys = read_reply(unhex(words)).pulled()
        return " ".join(key.text() for key in keys) if is_ring(keys) else "no ring"

    def pull_for(self, long, clock, *words):
        answer = read_reply(unhex(words))
        keys = answer.pulled(int(clock))
        fits = (answer.policy == "aes256") == (long == "long")
        ends = any(key.moment >= 1 << 64 for key in keys)
        return " ".join(key.text() for key in keys) if fits and not ends and is_ring(keys) else "no ring"


def main():
    bench = Bench()
    for line in sys.stdin.read().splitlines():
        print(line if not line or line.startswith("#") else f"{line} -> {bench.line(line)}")


if __name__ == "__main__":
    main()
