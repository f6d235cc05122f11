#!/usr/bin/env python3
"""Prints the cases of `play` in crates/cases_command. model.py prints their answers.

usage: cases.py            (prints the cases)
       cases.py check OUT  (whether the answers in the file OUT have the lines that the cases name as known from outside the model)"""
import os, sys
sys.path.insert(0, os.path.dirname(os.path.abspath(__file__)))
from model import BUILT_IN, Link, Session

out, known = [], []

FIELDS = [(n, "UInt32") for n in "abcd"]

def fields(items):
    return ", ".join("{" + f'name = "{n}", kind = "{k}"' + (f", cap = {more[0]}" if more else "") + "}" for n, k, *more in items)

def keyed(*keys, used=0):
    ring = ", ".join("{" + f'token = {t}, from = {at}, signing = "{"11" * 32}", encrypting = "{"22" * 16}", nonce = "33333333"' + "}" for t, at in keys)
    return f'[[keygroup]]\nname = "k1"\npolicy = "aes128"\nrandom = "00000000"\nused = {used}\nkey = [{ring}]\n'

def config(items=FIELDS, set_more="", keys="", group="", writer="", read="", reader="", more="", reads=None):
    """the built-in configuration with further keys"""
    if reads is None:
        reads = f'[[readgroup]]\nname = "rg1"\npublisher = "u8:5"\n{"" if "group =" in read else "group = 1"}\n{read}\nreader = [{{name = "r1", writer = 1, dataset = "demo"{reader}}}]\n'
    return (f'[publisher]\nid = "u8:5"\n[[dataset]]\nname = "demo"\n{set_more}\nfield = [{fields(items)}]\n{more}{keys}'
            f'[[group]]\nname = "g1"\nid = 1\ninterval = 100\n{group}\nwriter = [{{name = "w1", id = 1, dataset = "demo"{writer}}}]\n{reads}').replace("\n\n", "\n")

ENCRYPT = 'security = "encrypt"\nkeygroup = "k1"'
SIGN = 'security = "sign"\nkeygroup = "k1"'

def row(name, text, script, *lines, expect=(), refusal=None):
    """a case: its lines, and lines of its report that are known from outside the model; or the refusal of a text"""
    out.append(f"# {name}")
    if text is not None: out.append("config " + text.replace("\n", "\\n"))
    out.append("script " + "".join(line + "\\n" for line in script))
    out.extend(lines)
    if refusal: out.append(f"# refused {refusal}")
    out.append("play")
    known.append((name, list(expect), refusal))

def datagrams(text, script):
    """what a session sends, in order"""
    session = Session(text or BUILT_IN, Link({}))
    for line in script: session.line(line.split())
    session.tick(0, True)
    return [session.link.sent[k] for k in sorted(session.link.sent)]

def lone(): return "7105090100000001 0100 0900 0001 0007 0700 0000".replace(" ", "")

WRITE = "write 0 demo a=7"
DELTAS = dict(writer=", key_frame_count = 10")
LOST = ["tick 100", "write 0 demo a=1", "tick 100", "write 0 demo a=2", "tick 100"]
R1 = "reader r1 operational number"

row("the built-in configuration, one write and one tick", None, [WRITE, "tick 100"], expect=[
    "history demo 1: 0", "group g1 operational sent 2", "writer w1 operational 2: 0=1 1=1", "readgroup rg1 operational taken 2:",
    f"{R1} 1 version 1: a=7 b=0 c=0 d=0", "gaps r1 0:", "link sent 2 failed 0 received 2 broken 0 long 0 limit 0", "end"])
row("the same, and the first datagram is lost", None, [WRITE, "tick 100", "fate 0 drop"], expect=[
    "history demo 1: 0", "group g1 operational sent 2", "writer w1 operational 2: 0=1 1=1", "readgroup rg1 operational taken 1:",
    f"{R1} 1 version 1: a=7 b=0 c=0 d=0", "gaps r1 0:", "link sent 2 failed 0 received 1 broken 0 long 0 limit 0", "end"])
row("the closing one is lost", None, [WRITE, "tick 100", "fate 1 drop"], expect=[
    "history demo 1: 0", "group g1 operational sent 2", "writer w1 operational 2: 0=1 1=1", "readgroup rg1 operational taken 1:",
    f"{R1} 0 version 1: a=7 b=0 c=0 d=0", "gaps r1 0:", "link sent 2 failed 0 received 1 broken 0 long 0 limit 0", "end"])
row("both are lost", None, [WRITE, "tick 100", "fate 0 drop", "fate 1 drop"], expect=[
    "history demo 1: 0", "group g1 operational sent 2", "writer w1 operational 2: 0=1 1=1", "readgroup rg1 operational taken 0:",
    "reader r1 preoperational waits start", "gaps r1 0:", "link sent 2 failed 0 received 0 broken 0 long 0 limit 0", "end"])
row("an empty script", None, [], expect=[
    "history demo 0:", "group g1 operational sent 1", "writer w1 operational 1: 0=0", "readgroup rg1 operational taken 1:",
    f"{R1} 0 version 0: a=0 b=0 c=0 d=0", "gaps r1 0:", "link sent 1 failed 0 received 1 broken 0 long 0 limit 0"])
row("key frames each third turn, and keep-alives", config(writer=", key_frame_count = 3, keep_alive = 200"), ["tick 100"] * 4, expect=[
    "writer w1 operational 3: 0=0 1=0 2=0", "group g1 operational sent 4", "readgroup rg1 operational taken 4:", f"{R1} 2 version 0: a=0 b=0 c=0 d=0", "gaps r1 0:"])
row("a write that changes nothing", config(**DELTAS), ["write 0 demo a=0", "tick 100", "write 0 demo a=0", "tick 100"], expect=[
    "history demo 2: 0 0", "writer w1 operational 2: 0=1 1=2", "group g1 operational sent 2"])
row("a lost delta frame", config(**DELTAS), ["fate 1 drop"] + LOST, expect=[
    "writer w1 operational 4: 0=0 1=1 2=2 3=2", f"{R1} 3 version 2: a=2 b=0 c=0 d=0", "gaps r1 1: 1/2", "link sent 4 failed 0 received 3 broken 0 long 0 limit 0"])
row("a delta frame that comes late", config(**DELTAS), ["fate 1 hold 2"] + LOST, expect=[
    "writer w1 operational 4: 0=0 1=1 2=2 3=2", f"{R1} 3 version 2: a=2 b=0 c=0 d=0", "gaps r1 1: 1/2", "readgroup rg1 operational taken 4:",
    "link sent 4 failed 0 received 4 broken 0 long 0 limit 0"])
row("each datagram comes three times", config(**DELTAS), [f"fate {k} repeat 3" for k in range(4)] + LOST, expect=[
    "readgroup rg1 operational taken 12:", "gaps r1 0:", f"{R1} 3 version 2: a=2 b=0 c=0 d=0", "link sent 4 failed 0 received 12 broken 0 long 0 limit 0"])
ALIVE = config(writer=", key_frame_count = 10, keep_alive = 200")
BEFORE_ALIVE = ["fate 1 drop", "tick 100", "write 0 demo a=1", "tick 100", "tick 100", "tick 100"]
row("a delta frame lost before a keep-alive", ALIVE, BEFORE_ALIVE, expect=[
    "writer w1 operational 3: 0=0 1=1 2=1", "gaps r1 1: 1/2", f"{R1} 2 version 1: a=1 b=0 c=0 d=0", "link sent 4 failed 0 received 3 broken 0 long 0 limit 0"])
for k in range(17): row(f"the same, and send {k} fails", ALIVE, BEFORE_ALIVE, f"sends {k}")
for k in range(17): row(f"the same, and receive {k} fails", ALIVE, BEFORE_ALIVE, f"receives {k}")
row("a new token", config(keys=keyed((1, 0), (2, 250)), group=ENCRYPT, read=ENCRYPT, **DELTAS), ["fate 1 hold 2", "tick 100", "write 0 demo a=1", "tick 100", "tick 100"], expect=[
    "readgroup rg1 operational taken 3: OldToken=1", "writer w1 operational 4: 0=0 1=1 2=1 3=1", f"{R1} 3 version 1: a=1 b=0 c=0 d=0", "gaps r1 0:"])
TIMEOUT = ["fate 0 again 1", "fate 1 drop", "tick 100", "disable w1", "tick 300", "enable w1", "write 0 demo a=9", "tick 100"]
row("a timeout", config(reader=", timeout = 250", **DELTAS), TIMEOUT, expect=[
    "writer w1 operational 3: 0=0 1=1 2=1", "readgroup rg1 operational taken 3:", f"{R1} 2 version 1: a=9 b=0 c=0 d=0", "gaps r1 1: 1/2",
    "link sent 3 failed 0 received 3 broken 0 long 0 limit 0"])
row("a timeout of a signed group", config(keys=keyed((1, 0)), group=SIGN, read=SIGN, reader=", timeout = 250", **DELTAS), TIMEOUT, expect=[
    "readgroup rg1 operational taken 2: Repeated=1", "gaps r1 0:"])
row("a spent sender", config(keys=keyed((1, 0), used=4294966272), group=ENCRYPT, read=ENCRYPT), [], expect=[
    "group g1 error sent 0", "writer w1 paused 0:", "readgroup rg1 operational taken 0:", "reader r1 preoperational waits start",
    "link sent 0 failed 0 received 0 broken 0 long 0 limit 0"])
row("a sender that is spent by one datagram", config(keys=keyed((1, 0), used=4294966271), group=ENCRYPT, read=ENCRYPT), [], expect=[
    "group g1 error sent 1", "writer w1 paused 1: 0=0", "readgroup rg1 operational taken 1:", f"{R1} 0 version 0: a=0 b=0 c=0 d=0"])
row("numbers past 65535", config(writer=", first_number = 65535"), ["tick 100", "tick 100"], expect=[
    "writer w1 operational 3: 65535=0 65536=0 65537=0", "gaps r1 0:", f"{R1} 1 version 0: a=0 b=0 c=0 d=0"])
row("a failed send", None, [WRITE, "tick 100"], "sends 0", expect=[
    "group g1 operational sent 1", "writer w1 operational 2: 0=1 1=1", "readgroup rg1 operational taken 1:", "gaps r1 0:", "link sent 1 failed 1 received 1 broken 0 long 0 limit 0"])
row("the last send fails", None, [WRITE, "tick 100"], "sends 1")
LARGE = config(items=[("s", "String", 256)], group="max_size = 128")
row("a frame in three chunks", LARGE, ["write 0 demo s=" + "x" * 256, "tick 100"], expect=[
    "group g1 operational sent 6", "writer w1 operational 2: 0=1 1=1", "readgroup rg1 operational taken 6:", "gaps r1 0:", f"{R1} 1 version 1: s=" + "x" * 256])
row("a lost chunk", LARGE, ["fate 1 drop", "write 0 demo s=" + "x" * 256, "tick 100"], expect=[
    "readgroup rg1 operational taken 5:", "gaps r1 0:", f"{R1} 1 version 1: s=" + "x" * 256])
def fixed(offset=7, size=19): return config(group='layout = "fixed"', writer=f", offset = {offset}, size = {size}", read='layout = "fixed"', reader=", offset = 7, size = 19")
row("a fixed layout", fixed(), [WRITE, "tick 100"], expect=[
    "writer w1 operational 2: 0=1 1=1", "readgroup rg1 operational taken 2:", f"{R1} 1 version 1: a=7 b=0 c=0 d=0", "link sent 2 failed 0 received 2 broken 0 long 0 limit 0"])
row("a slot in the header", fixed(offset=6), [], refusal="config: C22 SlotClash group[0].writer[0]")
row("a slot that is too small", fixed(size=18), [], refusal="config: C23 SlotSmall group[0].writer[0]")
row("looks at a reader", None, [WRITE, "tick 100", "watch 3 r1 2", "tick 100", "watch 3 r1 1"], expect=["watch 3 r1: 1 1", "watch 3 r1: 2"])
row("looks of several threads stand in the order of threads", None, ["watch 5 r1 1", "tick 100", "watch 0 r1 2", "tick 100", "watch 5 r1 1"], expect=["watch 0 r1: 1 1", "watch 5 r1: 0", "watch 5 r1: 2"])
QUALITY = config(set_more="quality = true", **DELTAS)
row("a status", QUALITY, ["write 0 demo a!0x80000000=7", "tick 100", WRITE, "tick 100"], expect=[
    "writer w1 operational 3: 0=1 1=2 2=2", f"{R1} 2 version 2: a=7 b=0 c=0 d=0"])
row("a status that stays", QUALITY, ["write 0 demo a!0x80000000=7", "tick 100"], expect=[f"{R1} 1 version 1: a!0x80000000=7 b=0 c=0 d=0"])
def append(versions):
    rg2 = '[[readgroup]]\nname = "rg2"\npublisher = "u8:5"\ngroup = 1\nreader = [{name = "r2", writer = 1, dataset = "demo2"}]\n'
    rg1 = rg2.replace("rg2", "rg1").replace('"r2"', '"r1"').replace("demo2", "demo")
    demo2 = f'[[dataset]]\nname = "demo2"\nmajor = 1\nminor = 1\nfield = [{fields(FIELDS + [("e", "UInt32")])}]\n'
    return config(writer=versions + ", key_frame_count = 10", more=demo2, reads=rg1 + rg2)
APPEND = ["tick 100", "append demo e UInt32", "write 0 demo e=5", "tick 100"]
row("an appended field", append(", versions = true"), APPEND, expect=[
    "history demo 1: 0", "history demo2 0:", "group g1 operational sent 3", "writer w1 operational 3: 0=0 1=1 2=1", "readgroup rg1 operational taken 3:",
    f"{R1} 2 version 1: a=0 b=0 c=0 d=0", "gaps r1 0:", "readgroup rg2 operational taken 3: BadFrame=1", "reader r2 operational number 2 version 1: a=0 b=0 c=0 d=0 e=5",
    "gaps r2 0:", "link sent 3 failed 0 received 3 broken 0 long 0 limit 0", "end"])
row("an appended field that the writer can't tell of", append(""), APPEND, refusal="script: line 2 S12 BadAppend")
row("another group", config(read="group = 2"), [WRITE, "tick 100"], expect=["readgroup rg1 operational taken 0: NotOurs=2", "reader r1 preoperational waits start", "gaps r1 0:"])
row("a reader without numbering", config(reader=', numbering = "none"'), [WRITE, "tick 100", "watch 0 r1 1", "tick 100", "watch 0 r1 1"], expect=[
    f"{R1} - version -: a=7 b=0 c=0 d=0", "watch 0 r1: 1"])
row("a key that isn't known", "x = 1\n", [], refusal="config: C2 UnknownKey .")
row("a field that isn't there", None, ["write 0 demo a=1", "write 0 demo e=1"], refusal="script: line 2 S7 BadField")
row("a disabled read group", None, ["disable rg1", "tick 100", "enable rg1"], expect=["readgroup rg1 operational taken 1:"])
row("a disabled connection", None, ["tick 100", "disable connection", "tick 100"], expect=["group g1 paused sent 1", "writer w1 paused 1: 0=0", "reader r1 paused waits restarted"])
SECURED = config(keys=keyed((1, 0)), group=ENCRYPT, read=ENCRYPT)
first = datagrams(SECURED, [WRITE, "tick 100"])[0]
row("injected datagrams", SECURED, [WRITE, "tick 100"], f"inject 1 {lone()}", "inject 1 00*65536", "inject 1 -", f"inject 1 {first.hex()}", expect=[
    "readgroup rg1 operational taken 2: Short=1 Version=1 ModeDiffers=1 Repeated=1", f"{R1} 1 version 1: a=7 b=0 c=0 d=0", "gaps r1 0:"])
altered = bytearray(first); altered[-33] ^= 1
row("an altered bit", SECURED, ["fate 0 hold 1", WRITE, "tick 100"], f"inject 0 {altered.hex()}", f"inject 1 {first.hex()}", expect=[
    "readgroup rg1 operational taken 2: BadSignature=1 Repeated=1"])
row("a datagram that is too long", None, [WRITE, "tick 100"], "inject 0 00*65537", expect=[
    f"{R1} 1 version 1: a=7 b=0 c=0 d=0", "link sent 2 failed 0 received 2 broken 0 long 1 limit 0"])
row("more datagrams than a pump takes", None, [WRITE, "tick 100"], f"flood 65537 0 {lone()}", expect=[
    "link sent 2 failed 0 received 65539 broken 0 long 0 limit 1"])
DEVICE = open(os.path.join(os.path.dirname(os.path.abspath(__file__)), "..", "..", "examples", "device.toml"), encoding="utf-8").read()
row("a device of two secured groups", "".join(line + "\n" for line in DEVICE.split("\n") if line and not line.startswith("#")),
    ["write 0 plant m01=1 batch=b1", "tick 1000", "write 1 fast c1=5", "tick 10", "write 2 plant operator=" + "o" * 60, "tick 990"], expect=[
    "history plant 2: 0 2", "history fast 1: 1", "readgroup peer operational taken 0: NotOurs=7", "reader plant_reader preoperational waits start"])

def check(path):
    """each case's known lines stand in its answer"""
    text = open(path, encoding="utf-8").read().replace("\n# refused ", "\nrefused ")
    bad = 0
    for (name, lines, refusal), part in zip(known, text.split("\n# ")):
        told = part.split("\n")
        for line in lines:
            if line not in told: print(f"{name}: no line `{line}`"); bad += 1
        if refusal and f"play -> {refusal}" not in told: print(f"{name}: not refused as `{refusal}`"); bad += 1
    if text.count("# ") and len(text.split("\n# ")) != len(known): print("another number of cases"); bad += 1
    return 1 if bad else 0

if sys.argv[1:2] == ["check"]: sys.exit(check(sys.argv[2]))
print("\n".join(out))
