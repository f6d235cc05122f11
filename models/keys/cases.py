#!/usr/bin/env python3
"""Prints the cases of crates/cases_key/stdin. Replies are spelled by the model."""
import struct
from model import Answer, POLICIES, made_key, request, string


class Chance:
    """Numbers by the shifts 13, 7 and 17 of 64 bits (Marsaglia, Xorshift RNGs, 2003)."""

    def __init__(self, seed):
        self.state = seed

    def bits(self):
        for shift in (13, -7, 17):
            self.state ^= (self.state << shift if shift > 0 else self.state >> -shift) % (1 << 64)
        return self.state

    def randint(self, low, high):
        return low + (self.bits() << 64 | self.bits()) % (high - low + 1)

    def choice(self, among):
        return among[self.randint(0, len(among) - 1)]


def say(text=""):
    print(text)


def ring(*pairs):
    return " ".join(f"{token}:{moment}" for token, moment in pairs)


def even(first, lifetime, count):
    return [(first + i, i * lifetime) for i in range(count)]


def answer(policy, first, count, next_, lifetime):
    return Answer(policy, [made_key(policy, first + i, 0) for i in range(count)], next_, lifetime)


def read(data):
    say(f"read_reply {data.hex() or '-'}")


def worked_rows():
    say("# serve NAME LONG SET ..: the service of the group and the ring, each set TOKEN:MOMENT; get NAME START COUNT NOW: what it answers;")
    say("# pull NAME COUNT NOW: the ring that a puller makes of the answer to start 0, written and read back; reply NAME START COUNT NOW ROOM: the answer's bytes")
    say("serve k1 short " + ring(*even(1, 1000, 3)))
    for case in ("get k1 0 2 500", "pull k1 2 500", "get k1 0 9 2500", "pull k1 9 2500", "get k1 7 1 0", "get k9 0 2 500", "reply k1 0 2 500 2048"):
        say(case)
    say("# each start: the current key, each token, and tokens that no key has; at least one key, and as many as there are")
    for start in (0, 1, 2, 3, 4, 4294967295):
        for count in (0, 1, 2, 3, 4294967295):
            say(f"get k1 {start} {count} 1000")
    say("# before and at each moment, at the end of the last lifetime and long after it")
    for now in (0, 999, 1000, 1001, 1999, 2000, 2999, 3000, 3001, 1 << 40, (1 << 64) - 1):
        say(f"get k1 0 2 {now}")
        say(f"pull k1 2 {now}")
    say("# AES-256, and 16 keys up to the last token")
    say("serve k2 long " + ring(*even(4294967280, 7, 16)))
    for case in ("get k2 0 16 0", "pull k2 16 3", "reply k2 0 16 3 2048", "get k2 4294967295 2 0"):
        say(case)
    say("# moments up to 2^64 - 1")
    say("serve k3 short " + ring((1, 0), (2, (1 << 64) - 1)))
    for now in (0, (1 << 64) - 2, (1 << 64) - 1):
        say(f"get k3 0 2 {now}")
        say(f"pull k3 2 {now}")
    say()


def refused_services():
    say("# TooFew; NotConsecutive before Uneven, each with the first index; a refused service leaves the one before")
    for pairs in ([(1, 0)], [(1, 0), (3, 5)], [(1, 0), (2, 5), (4, 10), (9, 15)], [(1, 0), (2, 5), (4, 11)], [(1, 0), (3, 5), (4, 11)]):
        say("serve k1 short " + ring(*pairs))
    for pairs in ([(1, 0), (2, 5), (3, 11)], [(1, 0), (2, 5), (3, 9), (4, 15)], [(1, 0), (2, 5), (3, 10), (4, 16)], [(7, 0), (8, 1), (9, (1 << 64) - 1)]):
        say("serve k1 short " + ring(*pairs))
    say("get k3 0 1 0")
    say("get k1 0 1 0")
    say()


def requests():
    say("# request NAME START COUNT ROOM: the bytes, or Room where they don't fit; read_request BYTES: what is asked for, or the fault")
    long_name = "abcdefghijklmnopqrstuvwxyz_01234"
    for name, start, count in (("k1", 0, 2), ("a", 4294967295, 4294967295), (long_name, 1, 16)):
        data = request(name.encode(), start, count)
        for room in (0, len(data) - 1, len(data), 64):
            say(f"request {name} {start} {count} {room}")
        say(f"read_request {data.hex()}")
    say("# Short at each place, and a byte that follows")
    data = request(b"k1", 1, 2)
    for cut in range(len(data)):
        say(f"read_request {data[:cut].hex() or '-'}")
    say(f"read_request {data.hex()} 00")
    say("# BadName: a length below 0, no byte, more than 32, a digit first, a capital, bytes that aren't ASCII; and before the faults behind it")
    tail = struct.pack("<II", 1, 2)
    for name in (b"", long_name.encode() + b"5", b"1k", b"K1", b"k-1", b"k\xff", b"_k", b"k\n"):
        say(f"read_request {(string(name) + tail).hex()}")
        say(f"read_request {string(name).hex()}")
    for length in (-1, -2147483648):
        say(f"read_request {(struct.pack('<i', length) + tail).hex()}")
        say(f"read_request {struct.pack('<i', length).hex()}")
    for length in (3, 2147483647):
        say(f"read_request {(struct.pack('<i', length) + b'k1').hex()}")
    say()


def reply_parts(policy, first, keys, next_, lifetime, count=None):
    """The parts of a reply, so that each can be spoiled."""
    parts = [string(POLICIES[policy]), struct.pack("<I", first), struct.pack("<I", len(keys) if count is None else count)]
    return parts + [string(key.data()) for key in keys] + [struct.pack("<Q", next_), struct.pack("<Q", lifetime)]


def spoiled_parts():
    """Each fault at each place of a reply of two keys: the place of the part, and the part in its stead."""
    for text in (b"", b"PubSub-Aes128-CT", b"PubSub-Aes192-CTR", b"PubSub-Aes128-CTR\0", b"pubsub-aes128-ctr"):
        yield 0, string(text)
    for length in (-1, -2147483648):
        yield 0, struct.pack("<i", length)
    for count in (0, 17, 4294967295):
        yield 2, struct.pack("<I", count)
    for place in (3, 4):
        for size in (0, 51, 53, 68, 4294967295):
            yield place, struct.pack("<I", size) + bytes(min(size, 68))


def replies():
    say("# replies: Room one byte before the end, and what is written is read")
    for policy in POLICIES:
        for count in (1, 2, 16):
            data = answer(policy, 5, count, 3, 7).reply()
            say("serve k4 " + ("long " if policy == "aes256" else "short ") + ring(*even(5, 7, max(count, 2))))
            for room in (0, len(data) - 1, len(data)):
                say(f"reply k4 0 {count} 4 {room}")
            read(data)
    say("# Short at each place of a reply of one key, and a byte that follows")
    data = answer("aes128", 5, 1, 3, 7).reply()
    for cut in range(len(data)):
        read(data[:cut])
    read(data + b"\0")
    say("# each fault at each place, alone, with a byte behind the end, and with nothing behind the place")
    keys = [made_key("aes128", 5 + i, 0) for i in range(2)]
    parts = reply_parts("aes128", 5, keys, 3, 7)
    for place, part in spoiled_parts():
        whole = parts[:place] + [part] + parts[place + 1:]
        read(b"".join(whole))
        read(b"".join(whole) + b"\0")
        read(b"".join(whole[:place + 1]))
    say("# two faults: the one more to the left is told, whichever they are")
    spoiled = list(spoiled_parts())
    for place, part in spoiled[::3]:
        for other, second in spoiled[1::4]:
            if place < other:
                read(b"".join(parts[:place] + [part] + parts[place + 1:other] + [second] + parts[other + 1:]))
    say("# tokens up to 4294967295, and one past it, which is told once the number of keys is read")
    for first in (4294967294, 4294967295):
        read(b"".join(reply_parts("aes128", first, keys, 3, 7)))
    read(b"".join(reply_parts("aes128", 4294967295, keys, 3, 7)[:3]))
    read(b"".join(reply_parts("aes128", 4294967295, keys[:1], 3, 7)))
    say("# moments up to 2^64 - 1, and one past it, which is told once the lifetime is read")
    top = (1 << 64) - 1
    three = [made_key("aes256", 9 + i, 0) for i in range(3)]
    for next_, lifetime in ((top, 0), (0, top), (1, top - 1), (1, top), (top, 1), (top, top)):
        read(b"".join(reply_parts("aes256", 9, three, next_, lifetime)))
        read(b"".join(reply_parts("aes256", 9, three, next_, lifetime)) + b"\0")
        read(b"".join(reply_parts("aes256", 9, three, next_, lifetime))[:-1])
    read(answer("aes128", 9, 1, top, top).reply())
    read(answer("aes128", 9, 2, top, top).reply())
    read(answer("aes128", 9, 16, 1, top // 14).reply())
    read(answer("aes128", 9, 16, 2, top // 14 + 1).reply())
    say()


def unasked_replies():
    say("# pull_reply BYTES: the ring that a puller makes of a reply of unknown origin, or that there is none, since moments don't rise, or the fault")
    top = (1 << 64) - 1
    for policy in POLICIES:
        for count in (1, 2, 3, 16):
            for next_, lifetime in ((3, 7), (1, 1), (0, 7), (3, 0), (0, 0), (top, 0)):
                say(f"pull_reply {answer(policy, 5, count, next_, lifetime).reply().hex()}")
    for count, next_, lifetime in ((2, top, top), (3, 1, top - 1), (3, 1, top), (16, 1, top // 14)):
        say(f"pull_reply {answer('aes128', 5, count, next_, lifetime).reply().hex()}")
    say(f"pull_reply {answer('aes128', 5, 2, 3, 7).reply().hex()} 00")
    say("# pull_for LONG CLOCK BYTES: the ring for a key group of AES-256 (long) or AES-128 (short) whose clock stands there, or that there is none, since the keys have another length or moments end, or the fault")
    for policy in POLICIES:
        for length in ("short", "long"):
            say(f"pull_for {length} 1000 {answer(policy, 5, 2, 3, 7).reply().hex()}")
    for clock in (0, top - 3, top - 2):
        say(f"pull_for long {clock} {answer('aes256', 5, 2, 3, 7).reply().hex()}")
    say(f"pull_for long 1000 {answer('aes256', 5, 2, 3, 7).reply().hex()} 00")
    say()


def answers_by_chance(chance):
    say("# by chance: 60 rings, with lifetimes to the longest that fits, and five answers of each")
    for _ in range(60):
        count = chance.randint(2, 16)
        longest = ((1 << 64) - 1) // (count - 1)
        lifetime = chance.choice([1, chance.randint(1, 5000), chance.randint(1, longest), longest])
        first = chance.choice([0, 1, chance.randint(0, 4294967280)])
        say(f"serve k5 {chance.choice(['short', 'long'])} " + ring(*even(first, lifetime, count)))
        for _ in range(5):
            start = chance.choice([0, 0, first + chance.randint(0, count), chance.randint(0, 4294967295)])
            now = min(chance.randint(0, count + 1) * lifetime + chance.choice([0, 0, 1, -1, lifetime // 2]), (1 << 64) - 1)
            call = chance.choice([f"get k5 {start}", "pull k5"])
            say(f"{call} {chance.randint(0, 17)} {max(now, 0)}")
    say()


def replies_by_chance(chance):
    say("# by chance: 200 replies with up to three bytes changed, some cut")
    for _ in range(200):
        policy = chance.choice(list(POLICIES))
        data = bytearray(answer(policy, chance.randint(0, 300), chance.randint(1, 3), chance.randint(0, 1 << 20), chance.randint(1, 1 << 20)).reply())
        for _ in range(chance.randint(0, 3)):
            places = [chance.randint(0, len(data) - 1), chance.randint(0, min(len(data) - 1, 32)), chance.randint(len(data) - 16, len(data) - 1)]
            data[chance.choice(places)] = chance.choice([0, 1, 0x7f, 0x80, 0xff, chance.randint(0, 255)])
        read(bytes(data[:chance.choice([len(data), len(data), chance.randint(0, len(data))])]))


def main():
    say("# The key service (OPC 10000-14 8.3.2, GetSecurityKeys). The keys of a token are bytes made of it.")
    worked_rows()
    refused_services()
    requests()
    replies()
    unasked_replies()
    chance = Chance(14)
    answers_by_chance(chance)
    replies_by_chance(chance)


main()
