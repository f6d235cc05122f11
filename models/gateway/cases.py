#!/usr/bin/env python3
"""Prints the cases of `relay` in crates/cases_command. model.py prints their answers.

usage: cases.py            (prints the cases)
       cases.py check OUT  (whether the answers in the file OUT have the lines that the cases name as known from outside the model)"""
import sys

out, known = [], []

FIELDS = [(name, "UInt32") for name in "abcd"]


def fields(items):
    return ", ".join("{" + f'name = "{n}", kind = "{k}"' + (f", cap = {more[0]}" if more else "") + "}" for n, k, *more in items)


def keyed(*keys):
    ring = ", ".join("{" + f'token = {t}, from = {at}, signing = "{"11" * 32}", encrypting = "{"22" * 16}", nonce = "33333333"' + "}" for t, at in keys)
    return f'[[keygroup]]\nname = "k1"\npolicy = "aes128"\nrandom = "00000000"\nkey = [{ring}]\n'


ENCRYPT = 'security = "encrypt"\nkeygroup = "k1"\n'


def dataset(name, items=FIELDS, more=""):
    return f'[[dataset]]\nname = "{name}"\n{more}field = [{fields(items)}]\n'


def group(name, number, writers, more=""):
    return f'[[group]]\nname = "{name}"\nid = {number}\ninterval = 100\n{more}writer = [{", ".join(writers)}]\n'


def writer(name, number, of, more=""):
    return "{" + f'name = "{name}", id = {number}, dataset = "{of}"{more}' + "}"


def readgroup(name, publisher, number, readers, more=""):
    return f'[[readgroup]]\nname = "{name}"\npublisher = "u8:{publisher}"\ngroup = {number}\n{more}reader = [{", ".join(readers)}]\n'


def reader(name, number, of, more=""):
    return "{" + f'name = "{name}", writer = {number}, dataset = "{of}"{more}' + "}"


def config(publisher, *parts):
    return f'[publisher]\nid = "u8:{publisher}"\n' + "".join(parts)


def first(items=FIELDS, set_more="", keys="", group_more="", writer_more="", read_more="", reader_more="", more="", reads=None):
    """the built-in configuration with further keys"""
    read = readgroup("rg1", 5, 1, [reader("r1", 1, "demo", reader_more)], read_more) if reads is None else reads
    return config(5, dataset("demo", items, set_more), more, keys, group("g1", 1, [writer("w1", 1, "demo", writer_more)], group_more), read)


def second(name="r1", items=FIELDS, set_more="", group_more="", writer_more="", read_more="", reader_more="", readers=None):
    """publishes what r1 reads again"""
    told = [reader("r2", 2, name, reader_more)] if readers is None else readers
    return config(6, dataset(name, items, set_more), group("g2", 2, [writer("w2", 2, name, writer_more)], group_more), readgroup("rg2", 6, 2, told, read_more))


def row(name, one, other, script, *lines, expect=(), ends=None):
    """a case: its files, further lines, and lines that are known from outside the model; or how it ends without a text"""
    out.append(f"# {name}")
    for word, text in (("first", one), ("second", other), ("script", None if script is None else "".join(line + "\n" for line in script))):
        if text is not None: out.append(f"{word} " + text.replace("\n", "\\n"))
    out.extend(lines)
    if ends: out.append(f"# ends {ends}")
    out.append("relay")
    known.append((name, list(expect) + ([f"relay -> status {ends.partition(' ')[0]} [{ends.partition(' ')[2]}]"] if ends else [])))


WRITE, TICK = "write 0 demo a=7", "tick 100"
FIRST, SECOND = first(), second()
NONE = "config: C26 NoSource dataset[0]"

row("one write and one tick", FIRST, SECOND, [WRITE, TICK], expect=[
    "history demo 1: 0", "group g1 operational sent 2", "writer w1 operational 2: 0=1 1=1", "readgroup rg1 operational taken 2:",
    "reader r1 operational number 1 version 1: a=7 b=0 c=0 d=0", "gaps r1 0:", "link sent 2 failed 0 received 2 broken 0 long 0 limit 0",
    "gateway w2 2: 0=1 1=2", "relayed r2 number 1 store 2 version 1: a=7 b=0 c=0 d=0", "gateway link sent 2 failed 0 received 2", "end"])
row("nothing that the source holds", FIRST, SECOND, ["fate 0 drop", "fate 1 drop", TICK], expect=[
    "gateway w2 2: 0=0 1=0", "relayed r2 number 1 store 0 version 0: a=0 b=0 c=0 d=0"])
row("a data set of another name", FIRST, second("r9"), [WRITE, TICK], expect=[f"relay -> status 3 [{NONE}]"])
row("an empty script", FIRST, SECOND, [], expect=["gateway w2 1: 0=1", "relayed r2 number 0 store 1 version 0: a=0 b=0 c=0 d=0"])

row("a secured first configuration and a second with slots", first(keys=keyed((1, 0)), group_more=ENCRYPT, read_more=ENCRYPT),
    second(group_more='layout = "fixed"\n', writer_more=", offset = 7, size = 19", read_more='layout = "fixed"\n', reader_more=", offset = 7, size = 19"),
    [WRITE, TICK, "write 1 demo b=9", TICK], expect=["gateway w2 3: 0=1 1=2 2=3", "relayed r2 number 2 store 3 version 2: a=7 b=9 c=0 d=0"])
DELTAS = dict(writer_more=", key_frame_count = 10")
row("a source that is cut by a timeout", first(reader_more=", timeout = 150", **DELTAS), SECOND,
    [WRITE, TICK, "disable w1", "tick 200", "tick 100", "enable w1", "write 0 demo b=1", TICK], expect=["gateway w2 5: 0=1 1=1 2=1 3=2 4=3"])
row("a source that a lost frame cuts holds nothing, and what was stored is published again", first(**DELTAS), SECOND,
    ["fate 1 drop", TICK, WRITE, TICK, "write 0 demo a=8", TICK], expect=["gateway w2 4: 0=1 1=1 2=1 3=2", "relayed r2 number 3 store 2 version 2: a=8 b=0 c=0 d=0"])
row("a source that holds an older row again after a restart", first(**DELTAS), SECOND,
    ["fate 0 again 2", WRITE, TICK, "write 0 demo a=8", TICK, "disable r1", "enable r1", "disable w1", TICK], expect=[])
row("a data set that grows in the first configuration", first(writer_more=", versions = true, key_frame_count = 10"), SECOND,
    [WRITE, TICK, "append demo e UInt32", "write 0 demo e=5", TICK], expect=["relayed r2 number 2 store 3 version 2: a=7 b=0 c=0 d=0"])
row("a second reader without numbering", FIRST, second(reader_more=', numbering = "none"'), [WRITE, TICK], expect=[
    "relayed r2 number - store - version -: a=7 b=0 c=0 d=0"])
row("two readers of one writer", FIRST, second(readers=[reader("r2", 2, "r1")], reader_more="") + readgroup("rg3", 6, 2, [reader("r3", 2, "r1", ', numbering = "none"')]),
    [WRITE, TICK], expect=["relayed r2 number 1 store 2 version 1: a=7 b=0 c=0 d=0", "relayed r3 number - store - version -: a=7 b=0 c=0 d=0"])
row("a reader of the second configuration that is not matched has no line", FIRST,
    second() + readgroup("rg3", 6, 3, [reader("r3", 2, "r1")]) + readgroup("rg4", 5, 2, [reader("r4", 2, "r1")]), [WRITE, TICK], expect=["gateway link sent 2 failed 0 received 2"])
row("a reader that waits", FIRST, second(reader_more=", timeout = 50", **dict(writer_more=", key_frame_count = 10")), [WRITE, TICK, TICK, TICK], "wire_receives 0 1 2 3 4 5 6 7 8", expect=[
    "relayed r2 waits start"])
row("a frame that the second link loses", FIRST, second(writer_more=", key_frame_count = 10"), [TICK, WRITE, TICK, "write 0 demo b=1", TICK], "wire_sends 1", expect=[
    "gateway link sent 3 failed 1 received 3"])
row("key frames at each third turn, and keep-alives", FIRST, second(writer_more=", key_frame_count = 3, keep_alive = 100"), [WRITE, TICK, TICK, TICK, TICK])
row("a failing link of the first session", FIRST, SECOND, [WRITE, TICK, "write 0 demo a=8", TICK], "sends 0", "receives 2")
row("numbers from 65535 on", first(writer_more=", first_number = 65535"), second(writer_more=", first_number = 65534"), [WRITE, TICK, "write 0 demo a=8", TICK, TICK], expect=[
    "relayed r2 number 1 store 4 version 2: a=8 b=0 c=0 d=0"])
row("a data set with statuses", first(set_more="quality = true\n"), second(set_more="quality = true\n"), ["write 0 demo a!0x80000000=7", TICK], expect=[
    "relayed r2 number 1 store 2 version 1: a!0x80000000=7 b=0 c=0 d=0"])
TEXTS = [("s", "String", 256), ("t", "ByteString", 8)]
row("a frame in chunks", first(items=TEXTS, group_more="max_size = 128\n"), second(items=TEXTS, group_more="max_size = 200\n"), ["write 0 demo s=" + "x" * 256 + " t=0x00ff", TICK])
TWO = config(5, dataset("demo"), dataset("other", [("x", "Int32"), ("y", "Boolean")]), group("g1", 1, [writer("w1", 1, "demo"), writer("w9", 9, "other")]),
             readgroup("rg1", 5, 1, [reader("r1", 1, "demo"), reader("r9", 9, "other")]))
AGAIN = config(6, dataset("r9", [("x", "Int32"), ("y", "Boolean")]), dataset("r1"), group("g2", 2, [writer("w2", 2, "r1"), writer("w3", 3, "r9")]),
               group("g3", 3, [writer("w4", 4, "r9")]), readgroup("rg2", 6, 0, [reader("r2", 2, "r1"), reader("r3", 3, "r9"), reader("r4", 4, "r9")]))
row("two data sets, each from a reader of its name", TWO, AGAIN, [WRITE, "write 0 other x=-3 y=true", TICK, "write 0 demo b=2", TICK], expect=[
    "relayed r2 number 2 store 3 version 2: a=7 b=2 c=0 d=0", "relayed r3 number 2 store 3 version 1: x=-3 y=true", "relayed r4 number 2 store 3 version 1: x=-3 y=true"])
row("ticks that are shorter than the interval", FIRST, SECOND, [WRITE, "tick 50", "tick 50", "tick 30"])
row("switches of the first session leave the gateway alone", FIRST, SECOND, [WRITE, TICK, "disable connection", TICK, "enable connection", TICK], expect=[
    "gateway link sent 4 failed 0 received 4"])
row("looks in between", FIRST, SECOND, ["watch 1 r1 1", TICK, "watch 0 r1 2", WRITE, TICK, "watch 1 r1 1"], expect=["watch 0 r1: 1 1", "watch 1 r1: 0", "watch 1 r1: 2"])
row("a secured gateway with a new token", FIRST, config(6, dataset("r1"), keyed((1, 0), (2, 150)), group("g2", 2, [writer("w2", 2, "r1", ", key_frame_count = 10")], ENCRYPT),
    readgroup("rg2", 6, 2, [reader("r2", 2, "r1")], ENCRYPT)), [WRITE, TICK, TICK, TICK])

# ---- each cause of C26
row("no reader has the data set's name", FIRST, second("demo"), [TICK], expect=[f"relay -> status 3 [{NONE}]"])
row("the reader is not matched", first(reads=readgroup("rg1", 5, 2, [reader("r1", 1, "demo")])), SECOND, [TICK], expect=[f"relay -> status 3 [{NONE}]"])
row("the reader is of another publisher", first(reads=readgroup("rg1", 6, 1, [reader("r1", 1, "demo")])), SECOND, [TICK], expect=[f"relay -> status 3 [{NONE}]"])
row("the reader has no numbering", first(reader_more=', numbering = "none"'), SECOND, [TICK], expect=[f"relay -> status 3 [{NONE}]"])
row("a field has another name", FIRST, second(items=[("a", "UInt32"), ("b", "UInt32"), ("c", "UInt32"), ("e", "UInt32")]), [TICK], expect=[f"relay -> status 3 [{NONE}]"])
row("a field has another kind", FIRST, second(items=[("a", "Int32")] + FIELDS[1:]), [TICK], expect=[f"relay -> status 3 [{NONE}]"])
row("a field is missing", FIRST, second(items=FIELDS[:3]), [TICK], expect=[f"relay -> status 3 [{NONE}]"])
row("another major version", FIRST, second(set_more="major = 2\n"), [TICK], expect=[f"relay -> status 3 [{NONE}]"])
row("another quality", FIRST, second(set_more="quality = true\n"), [TICK], expect=[f"relay -> status 3 [{NONE}]"])
row("another minor version is no matter", FIRST, second(set_more="minor = 7\n"), [TICK], expect=["relayed r2 number 1 store 2 version 0: a=0 b=0 c=0 d=0"])
row("the second data set has none", TWO, config(6, dataset("r1"), dataset("r9")), [TICK], expect=["relay -> status 3 [config: C26 NoSource dataset[1]]"])
row("no data set at all", FIRST, config(6), [WRITE, TICK], expect=["gateway link sent 0 failed 0 received 0"])

# ---- other ends, in the order of the files
row("the first configuration is refused before the second is read", "x = 1\n", None, None, ends="3 config: C2 UnknownKey .")
row("the second configuration is refused before the script is read", FIRST, "x = 1\n", None, ends="3 config: C2 UnknownKey .")
row("a data set without a source comes before the script", FIRST, second("r9"), None, ends=f"3 {NONE}")
row("the script is refused, for the first configuration", FIRST, SECOND, [WRITE, "write 0 r1 a=1"], ends="4 script: line 2 S6 UnknownName")
row("no first configuration", None, SECOND, [TICK], ends="5 cannot read first")
row("no second configuration", FIRST, None, [TICK], ends="5 cannot read second")
row("no script", FIRST, SECOND, None, ends="5 cannot read script")
row("the second configuration is not read", FIRST, SECOND, [TICK], "reads 1", ends="5 cannot read second")
row("the first link is not opened", FIRST, SECOND, [TICK], "unopened", ends="8 cannot open link")
row("the second link is not opened", FIRST, SECOND, [TICK], "wire_unopened", ends="8 cannot open link")
row("the text is not written", FIRST, SECOND, [TICK], "writes 0", ends="6 ")


def check(path):
    """each case's known lines stand in its answer"""
    text = open(path, encoding="utf-8").read().replace("\n# ends ", "\nends ")
    bad = 0
    parts = text.split("\n# ")
    for (name, lines), part in zip(known, parts):
        told = part.split("\n")
        for line in lines:
            if line not in told: print(f"{name}: no line `{line}`"); bad += 1
    if len(parts) != len(known): print("another number of cases"); bad += 1
    return 1 if bad else 0


if sys.argv[1:2] == ["check"]: sys.exit(check(sys.argv[2]))
print("\n".join(out))
