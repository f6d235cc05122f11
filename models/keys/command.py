#!/usr/bin/env python3
"""An independent model of the command `keys`, made from docs/KEYS.md, above the model of the key service, without a look at the crates.

usage: command.py < CASES     (the lines behind `command keys` in crates/cases_command/stdin: prints what the runner has to print)"""
import re, sys, tomllib
from model import POLICIES, Key, Refused, Service

NUMBER = re.compile(r"0|[1-9][0-9]*")
MOST = 4294967295


def asked(words):
    """FILE, GROUP and the three numbers, or nothing where the words have another shape."""
    if len(words) != 6 or words[0] != "keys":
        return None
    file, group, *numbers = words[1:]
    if not 1 <= len(file) <= 255 or file.startswith("-"):
        return None
    if not all(NUMBER.fullmatch(number) for number in numbers):
        return None
    start, count, moment = map(int, numbers)
    if start > MOST or count > MOST or moment > 1 << 40:
        return None
    return file, group, start, count, moment


def key_of(key):
    return Key(key.get("token", 0), key.get("from", 0), *(bytes.fromhex(key[part]) for part in ("signing", "encrypting", "nonce")))


def lines(document, group, start, count, moment):
    groups = [part for part in document.get("keygroup", []) if part["name"] == group]
    if not groups:
        raise Refused("NotFound")
    service = Service(group, groups[0]["policy"], [key_of(key) for key in groups[0]["key"]])
    answer = service.get(group, start, count, moment)
    yield f"policy {POLICIES[answer.policy].decode()} first {answer.keys[0].token} next {answer.next} lifetime {answer.lifetime}"
    for key in answer.keys:
        yield f"key {key.token}" + (" opens" if start == 0 else "")


def text_of(document, *words):
    try:
        told = list(lines(document, *words))
    except Refused as refused:
        told = [f"refused {str(refused).split(' ')[0]}"]
    return "".join(line + "\n" for line in told + ["end"])


class Case:
    def __init__(self):
        self.config, self.fails = None, {"reads": [], "writes": []}

    def line(self, line):
        call, _, rest = line.partition(" ")
        if call == "config":
            self.config = rest.replace("\\n", "\n")
        elif call == "no_file":
            self.config = None
        elif call in self.fails:
            self.fails[call] = [int(word) for word in rest.split()]
        else:
            return self.run(rest.split())
        return None

    def run(self, words):
        what = asked(words)
        if what is None:
            return "no keys are asked for"
        file, *rest = what
        if file != "c" or self.config is None or 0 in self.fails["reads"]:
            return "status 5"
        if len(self.config) > 1048576:
            return "status 9"
        try:
            document = tomllib.loads(self.config)
        except tomllib.TOMLDecodeError:
            return "status 3"
        if "publisher" not in document:
            return "status 3"
        text = text_of(document, *rest)
        return "status 6" if 0 in self.fails["writes"] else text + "status 0"


def main():
    case = Case()
    for line in sys.stdin.read().splitlines():
        answer = None if not line or line.startswith("#") else case.line(line)
        if answer is None:
            print(line)
        else:
            print(line, "->" + ("\n" if "\n" in answer else " ") + answer)


if __name__ == "__main__":
    main()
