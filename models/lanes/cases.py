#!/usr/bin/env python3
"""Prints the cases of `lanes` in crates/cases_command. model.py prints their answers.

usage: cases.py            (prints the cases)
       cases.py check OUT  (whether the answers in the file OUT have the lines that the cases name as known from outside the model)"""
import sys

out, known = [], []

FIELDS = 'field = [{name = "a", kind = "UInt32"}, {name = "b", kind = "UInt32"}, {name = "c", kind = "UInt32"}, {name = "d", kind = "UInt32"}]'
ENCRYPT = 'security = "encrypt"\nkeygroup = "k1"\n'
SIGN = 'security = "sign"\nkeygroup = "k1"\n'
OTHER = 'security = "encrypt"\nkeygroup = "k2"\n'

def keyed(name, *keys, used=0):
    ring = ", ".join("{" + f'token = {t}, from = {at}, signing = "{"11" * 32}", encrypting = "{"22" * 16}", nonce = "33333333"' + "}" for t, at in keys)
    return f'[[keygroup]]\nname = "{name}"\npolicy = "aes128"\nrandom = "00000000"\nused = {used}\nkey = [{ring}]\n'

def group(n, more="", writer="", interval=100, dataset="demo"):
    return (f'[[group]]\nname = "g{n}"\nid = {n}\ninterval = {interval}\n{more}'
            f'writer = [{{name = "w{n}", id = {n}, dataset = "{dataset}"{writer}}}]\n')

def config(*groups, keys="", fields=FIELDS, more=""):
    return f'[publisher]\nid = "u8:5"\n[[dataset]]\nname = "demo"\n{fields}\n{more}{keys}' + "".join(groups)

def row(name, text, script, *lines, expect=(), refusal=None):
    """a case: its lines, and lines of its answer that are known from outside the model; or the refusal of a text"""
    out.append(f"# {name}")
    if text is not None: out.append("config " + text.replace("\n", "\\n"))
    out.append("script " + "".join(line + "\\n" for line in script))
    out.extend(lines)
    if refusal: out.append(f"# refused {refusal}")
    out.append("run")
    known.append((name, list(expect), refusal))

WRITE = "write 0 demo a=7"
FIRST = [WRITE, "tick 100"]
TWO = config(group(1), group(2))
BOTH = ["lane g1 sent 2", "writer w1 2: 0=1 1=1", "lane g2 sent 2", "writer w2 2: 0=1 1=1", "lanes sent 4 failed 0", "end", "status 0"]
S13 = ["status 4"]

row("the built-in configuration, one write and one tick", None, FIRST, expect=["lane g1 sent 2", "writer w1 2: 0=1 1=1", "lanes sent 2 failed 0", "end", "status 0"])
row("two groups", TWO, FIRST, expect=BOTH)
row("two groups, and a queue of one place", TWO, FIRST, "room 1", expect=BOTH)
row("two groups, and a queue of 1,024 places", TWO, FIRST, "room 1024", expect=BOTH)
row("a line that lanes don't take", None, ["disable w1"], expect=["script: line 1 S13 NotInLanes"] + S13)
row("the first of them counts, and lines are counted in the text", None, ["# a note", "", "tick 100", "watch 0 r1 1", "disable w1"], expect=["script: line 4 S13 NotInLanes"] + S13)
row("an enabling line", None, ["tick 100", "disable w1", "enable w1"], expect=["script: line 2 S13 NotInLanes"] + S13)
row("an appended field", config(group(1, writer=", versions = true")), ["append demo e UInt32"], expect=["script: line 1 S13 NotInLanes"] + S13)
row("a script that is refused for itself", None, ["disable w1", "write 0 demo e=1"], refusal="4 script: line 2 S7 BadField")
row("a configuration that is refused", "x = 1\n", ["disable w1"], refusal="3 config: C2 UnknownKey .")
row("an empty script", None, [], expect=["lane g1 sent 1", "writer w1 1: 0=0", "lanes sent 1 failed 0", "end", "status 0"])
row("no group", config(), FIRST, expect=["lanes sent 0 failed 0", "end", "status 0"])
row("fates are taken, and don't matter here", None, ["fate 0 drop", "fate 1 repeat 3"] + FIRST, expect=["lane g1 sent 2", "writer w1 2: 0=1 1=1", "lanes sent 2 failed 0"])
row("the first send fails", None, FIRST, "sends 0", expect=["lane g1 sent 1", "writer w1 2: 0=1 1=1", "lanes sent 1 failed 1", "status 0"])
row("both sends fail", None, FIRST, "sends 0 1", expect=["lane g1 sent 0", "writer w1 2: 0=1 1=1", "lanes sent 0 failed 2", "status 0"])
UNOPENED = ["cannot open link", "status 8"]
row("a link that can't be opened", None, FIRST, "unopened", expect=UNOPENED)
row("two groups over a link that can't be opened", TWO, FIRST, "unopened", "room 1", expect=UNOPENED)
row("a line that lanes don't take is told before a link is opened", None, ["disable w1"], "unopened", expect=["script: line 1 S13 NotInLanes"] + S13)
DELTAS = ", key_frame_count = 10"
row("each tick has the sample of the writes before it", config(group(1, writer=DELTAS)),
    ["write 0 demo a=1", "write 5 demo b=1", "tick 100", "write 3 demo a=2", "tick 100", "tick 100", "write 0 demo a=3"],
    expect=["lane g1 sent 3", "writer w1 3: 0=2 1=3 2=4"])
row("key frames and keep-alives", config(group(1, writer=", key_frame_count = 3, keep_alive = 200")), ["tick 100"] * 4, expect=["lane g1 sent 4", "writer w1 3: 0=0 1=0 2=0"])
row("groups of other intervals", config(group(1), group(2, interval=250), group(3, interval=1000)), ["tick 100"] * 5,
    expect=["lane g1 sent 6", "lane g2 sent 2", "lane g3 sent 1", "lanes sent 9 failed 0"])
K1 = keyed("k1", (1, 0), (2, 250))
row("two groups of one key group share a lane, and a new token refreshes both", config(group(1, ENCRYPT, DELTAS), group(2, SIGN, DELTAS), keys=K1),
    ["tick 100", "write 0 demo a=1", "tick 100", "tick 100"], expect=["lane g1 sent 4", "writer w1 4: 0=0 1=1 2=1 3=1", "lane g2 sent 4", "writer w2 4: 0=0 1=1 2=1 3=1"])
row("their sends stand in the order of groups in each turn", config(group(1, ENCRYPT), group(2, SIGN), keys=K1), ["tick 100"], "sends 1 2",
    expect=["lane g1 sent 1", "lane g2 sent 1", "lanes sent 2 failed 2"])
row("two key groups, and a group without", config(group(1, ENCRYPT), group(2), group(3, OTHER), group(4, SIGN), keys=K1 + keyed("k2", (5, 0))), FIRST,
    "room 1", expect=["lane g1 sent 2", "lane g2 sent 2", "lane g3 sent 2", "lane g4 sent 2", "lanes sent 8 failed 0"])
row("a spent sender", config(group(1, ENCRYPT), group(2), keys=keyed("k1", (1, 0), used=4294966272)), FIRST,
    expect=["lane g1 sent 0", "writer w1 0:", "lane g2 sent 2", "lanes sent 2 failed 0"])
row("a sender that is spent by the first of two groups", config(group(1, ENCRYPT), group(2, ENCRYPT), keys=keyed("k1", (1, 0), used=4294966271)), [],
    expect=["lane g1 sent 1", "writer w1 1: 0=0", "lane g2 sent 0", "writer w2 0:", "lanes sent 1 failed 0"])
LARGE = 'field = [{name = "s", kind = "String", cap = 256}]'
row("a frame in three chunks", config(group(1, "max_size = 128\n"), fields=LARGE), ["write 0 demo s=" + "x" * 256, "tick 100"], "room 1",
    expect=["lane g1 sent 6", "writer w1 2: 0=1 1=1", "lanes sent 6 failed 0"])
MORE = '[[dataset]]\nname = "more"\nfield = [{name = "m", kind = "Int16"}]\n'
row("data sets have versions of their own", config(group(1), group(2, dataset="more"), more=MORE), [WRITE, "write 1 more m=-1", WRITE, "tick 100"],
    expect=["writer w1 2: 0=2 1=2", "writer w2 2: 0=1 1=1"])
row("numbers past 65535", config(group(1, writer=", first_number = 65535")), ["tick 100", "tick 100"], expect=["writer w1 3: 65535=0 65536=0 65537=0"])

def check(path):
    """each case's known lines stand in its answer"""
    text = open(path, encoding="utf-8").read().replace("\n# refused ", "\nrefused ")
    bad = 0
    for (name, lines, refusal), part in zip(known, text.split("\n# ")):
        answered = part.split("\n")
        for line in lines:
            if line not in answered: print(f"{name}: no line `{line}`"); bad += 1
        if refusal:
            status, _, why = refusal.partition(" ")
            if why not in answered or f"status {status}" not in answered: print(f"{name}: not refused as `{refusal}`"); bad += 1
    if len(text.split("\n# ")) != len(known): print("another number of cases"); bad += 1
    return 1 if bad else 0

if sys.argv[1:2] == ["check"]: sys.exit(check(sys.argv[2]))
print("\n".join(out))
