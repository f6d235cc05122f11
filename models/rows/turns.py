#!/usr/bin/env python3
"""Turns and arrivals by chance, for the program cases_wire, and their answers.

usage: turns.py cases | turns.py answers

The answers are those of the writer and the reader of models/groups/model.py, which look back over the whole list of turns (KeyFrameCount
and KeepAliveTime, OPC 10000-14 6.2.4.3 and 6.2.6.3) and over the numbers of the arrivals, and share nothing with the crates."""
import os
import sys

sys.path.insert(0, os.path.join(os.path.dirname(os.path.realpath(__file__)), "..", "groups"))
from model import Numbers, Reader, Writer  # noqa: E402

SPOKEN = sys.argv[1:] == ["answers"]
HEADING = "# by chance: 24 writers with 40 deeds each, 48 readers with 40 arrivals each and 6 with no numbering"


def say(line, answer=None):
    print(line if answer is None or not SPOKEN else f"{line} -> {answer}")


def sent_text(frame):
    """A frame that a writer of one field sends, version 7.3."""
    if frame is None:
        return "quiet"
    kind, place, content = frame
    changes = "".join(f" {index}={value}" for index, value, _ in content) if kind == "Change" else ""
    return f"{kind.lower()} {place % 65536}{changes} version 7.3"


def writer(numbers, key_frame_count, keep_alive):
    """Turns with one of two values, from 0 to 127 after one another, some of them closing, and refreshes."""
    say(f"writer 65530 {key_frame_count} {keep_alive} yes")
    model = Writer({"first": 65530, "kfc": key_frame_count, "keep": keep_alive})
    moment = 0
    for version in range(40):
        moment += numbers.below(128)
        if numbers.below(8) == 0:
            say("refresh")
            model.fresh = True
            continue
        call = "closing" if numbers.below(8) == 0 else "turn"
        value = 5 + numbers.below(2)
        frame = model.turn(moment, [(value, 0)], version, call == "closing")
        say(f"{call} {moment} {version} {value}", sent_text(frame))
    say("log", " ".join(f"{place}:{version}" for place, version in model.log))


def frames(numbers):
    """What some writer sends: (kind, number, value), a keep-alive with the number that comes next."""
    number, found = 65526 + numbers.below(20), []
    for _ in range(40):
        kind = ["whole", "change", "change", "change", "alive"][numbers.below(5)]
        found.append((kind, number % 65536, numbers.below(100)))
        number += kind != "alive"
    return found


def arrivals(numbers):
    """These frames as a link brings them: lost, repeated, late, and now and then one from far away."""
    found = []
    for frame in frames(numbers):
        chance = numbers.below(16)
        if chance == 0:
            continue
        found.append(frame)
        if chance == 1:
            found.append(found[numbers.below(len(found))])
        elif chance == 2 and len(found) > 1:
            found[-1], found[-2] = found[-2], found[-1]
        elif chance == 3:
            kind, number, value = frame
            found.append((kind, (number + [16383, 16384, 16385, 32768][numbers.below(4)]) % 65536, value))
    return found[:40]


def held(model):
    number = "-" if model.number is None else model.number
    return f"{number} {'-' if model.row is None else model.row[0]}"


def arrive(numbers, model, frame, stamp):
    kind, number, value = frame
    tail = "" if stamp is None else f" stamp {stamp}"
    major = 2 if numbers.below(32) == 0 else 1
    tail += " major 2" if major == 2 else ""
    content = {"whole": [value], "change": {0: value}, "alive": None}[kind]
    before = len(model.breaks)
    outcome = model.frame((kind.replace("whole", "Whole").replace("change", "Change").replace("alive", "Alive"), number, major, None, content), stamp)
    told = {"Waiting": f"Waiting {model.why}", "WrongMajor": "WrongMajor 2"}.get(outcome, outcome)
    broke = "; broke {} {}".format(*model.breaks[-1]) if len(model.breaks) > before else ""
    words = f"{kind} {number}" + ("" if kind == "alive" else f" {value}")
    say(words + tail, f"{told}; {held(model)}{broke}")


def reader(numbers, numbering):
    """Arrivals, some with stamps that rise and sometimes jump, and cuts."""
    say(f"reader {numbering}")
    model = Reader({"numbering": numbering}, {"major": 1})
    has_stamps, stamp = numbers.below(2) == 0, 1000 * numbers.below(100)
    for frame in arrivals(numbers):
        if numbers.below(24) == 0:
            why = ["Start", "Gap", "Timeout", "NewToken", "Jump", "Restarted"][numbers.below(6)]
            model.cut(why)
            say(f"cut {why}", f"{why}; {held(model)}")
        stamp += [1, 1, 1, 1, 1, 1, 16383, 16384][numbers.below(8)]
        arrive(numbers, model, frame, stamp if has_stamps and numbers.below(8) else None)
    recent = "".join(f" {expected}:{got}" for expected, got in model.breaks[-8:])
    say("breaks", f"{len(model.breaks)}{recent}")


def main():
    numbers = Numbers(20261128)
    say(HEADING)
    say("data a")
    for key_frame_count in (1, 2, 3, 65535):
        for keep_alive in (0, 1, 100):
            for _ in range(2):
                writer(numbers, key_frame_count, keep_alive)
    for _ in range(48):
        reader(numbers, "message")
    for _ in range(6):
        reader(numbers, "none")


if __name__ == "__main__":
    main()
