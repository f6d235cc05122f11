#!/usr/bin/env python3
"""Prints the cases of `keys` in crates/cases_command."""


def config(*groups, begin='[publisher]\\nid = "u8:5"\\n'):
    print("config " + begin + "".join(groups))


def group(name, policy, *pairs):
    text = f'[[keygroup]]\\nname = "{name}"\\npolicy = "{policy}"\\nrandom = "00000000"\\n'
    for token, moment in pairs:
        low = token % 256
        signing, encrypting, nonce = (bytes([(low + i) % 256]) * count for i, count in ((0, 32), (1, 16 if policy == "aes128" else 32), (2, 4)))
        text += f'[[keygroup.key]]\\ntoken = {token}\\nfrom = {moment}\\nsigning = "{signing.hex()}"\\nencrypting = "{encrypting.hex()}"\\nnonce = "{nonce.hex()}"\\n'
    return text


def run(*words):
    print("run", *words)


def ask(*words):
    run("keys", "c", *words)


def even(first, lifetime, count):
    return [(first + i, i * lifetime) for i in range(count)]


def answers():
    print("# keys 1, 2 and 3 used from 0, 1000 and 2000: two from the current one on, as many as there are, a token that no key has, another group")
    config(group("k1", "aes128", *even(1, 1000, 3)))
    for words in (("k1", 0, 2, 500), ("k1", 0, 9, 2500), ("k1", 7, 1, 0), ("k9", 0, 2, 500)):
        ask(*words)
    print("# each start and count, and moments before and at each key's, at the end of the last one's lifetime and past it")
    for start in (0, 1, 2, 3, 4, 4294967295):
        for count in (0, 1, 2, 4294967295):
            ask("k1", start, count, 1000)
    for moment in (0, 999, 1000, 1999, 2000, 2999, 3000, 3001, 1 << 40):
        ask("k1", 0, 3, moment)
    print("# AES-256, 16 keys up to the last token, and one group of several")
    config(group("k1", "aes128", *even(7, 1, 2)), group("k2", "aes256", *even(4294967280, 1 << 36, 16)))
    for words in (("k1", 0, 2, 1), ("k2", 0, 16, 0), ("k2", 0, 16, 1 << 40), ("k2", 4294967295, 2, 5), ("k2", 9, 3, 5)):
        ask(*words)


def refusals():
    print("# rings that can't be served, with the first fault of each, and no group")
    config(group("few", "aes128", (1, 0)), group("gap", "aes128", (1, 0), (2, 10), (4, 15)), group("odd", "aes256", (5, 0), (6, 10), (7, 21)),
           group("even", "aes128", (5, 0), (6, 10)))
    for name in ("few", "gap", "odd", "even", "none"):
        ask(name, 0, 1, 0)
        ask(name, 6, 1, 10)
    config()
    ask("k1", 0, 1, 0)


def ends():
    print("# no file, a read that fails, no TOML, no publisher, and an output that fails")
    print("no_file")
    ask("k1", 0, 1, 0)
    config(group("k1", "aes128", *even(1, 1000, 3)))
    run("keys", "d", "k1", 0, 1, 0)
    print("reads 0")
    ask("k1", 0, 1, 0)
    print("reads")
    print("config [publisher")
    ask("k1", 0, 1, 0)
    config(begin="")
    ask("k1", 0, 1, 0)
    config(group("k1", "aes128", *even(1, 1000, 3)))
    print("writes 0")
    ask("k1", 0, 1, 0)
    ask("k9", 0, 1, 0)
    print("writes")


def words():
    print("# words of no such shape, and the longest names and the largest numbers")
    long = "f" * 255
    for shape in (["keys"], ["keys", "c", "k1", "0", "1"], ["keys", "c", "k1", "0", "1", "0", "0"], ["key", "c", "k1", "0", "1", "0"], ["keys", "-c", "k1", "0", "1", "0"],
                  ["keys", long, "k1", "0", "1", "0"], ["keys", long + "f", "k1", "0", "1", "0"]):
        run(*shape)
    for number in ("00", "01", "-1", "+1", "1.0", "0x1", "one", "4294967295", "4294967296", "18446744073709551616", "99999999999999999999999"):
        ask("k1", number, "1", "0")
        ask("k1", "0", number, "0")
        ask("k1", "0", "1", number)
    for moment in (1099511627776, 1099511627777):
        ask("k1", 0, 1, moment)


def no_names():
    print("# words that no key group has: no names, with a capital, a digit first, another byte or 33 bytes, and the longest name; the file and the numbers are judged as ever")
    for name in ("K9", "K", "K1", "1k", "9", "k-1", "_k", "k" * 33, "k" * 32):
        ask(name, 0, 1, 0)
        ask(name, 6, 1, 10)
    ask("K9", "01", 1, 0)
    run("keys", "d", "K9", 0, 1, 0)
    print("writes 0")
    ask("K9", 0, 1, 0)
    print("writes")


answers()
refusals()
ends()
words()
no_names()
