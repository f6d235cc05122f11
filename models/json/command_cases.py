#!/usr/bin/env python3
"""The cases of `json` in crates/cases_command.

usage: command_cases.py            (prints what stands behind `command json` in crates/cases_command/stdin)
       command_cases.py check OUT  (whether the answers in the file OUT have the lines that are known from outside the model)"""
import re, sys

out, known = [], []
FIELDS = "field = [{name = \"a\", kind = \"UInt32\"}, {name = \"b\", kind = \"UInt32\"}, {name = \"c\", kind = \"UInt32\"}, {name = \"d\", kind = \"UInt32\"}]"
KEYED = ('[[keygroup]]\nname = "k1"\npolicy = "aes128"\nrandom = "00000000"\nkey = [{token = 1, from = 0, signing = "' + "11" * 32
         + '", encrypting = "' + "22" * 16 + '", nonce = "33333333"}]\n')


def config(fields=FIELDS, dataset="", group="", writer="", read="group = 1\n", reader="", more="", publisher="u8:5", asked="u8:5"):
    """the built-in configuration with further keys"""
    return (f'[publisher]\nid = "{publisher}"\n[[dataset]]\nname = "demo"\n{dataset}{fields}\n[[group]]\nname = "g1"\nid = 1\ninterval = 100\n{group}'
            f'writer = [{{name = "w1", id = 1, dataset = "demo"{writer}}}]\n[[readgroup]]\nname = "rg1"\npublisher = "{asked}"\n{read}'
            f'reader = [{{name = "r1", writer = 1, dataset = "demo"{reader}}}]\n{more}')


def row(name, text, script, *lines, expect=(), status=None):
    """a case, and lines of its answer that are known from outside the model"""
    out.append(f"# {name}")
    out.append("no_config" if text is None else "config " + text.replace("\n", "\\n"))
    out.append(("script " + "".join(line + "\\n" for line in script)) if script else "script \\n")
    out.extend(lines)
    if status: out.append(f"# status {status}")
    out.append("json")
    known.append((name, list(expect), status))


def line(k, number, word="ua-keyframe", payload='{"a":7,"b":0,"c":0,"d":0}', publisher="5", versions=""):
    body = f',"Payload":{payload}' if payload else ""
    return (f'{{"MessageId":"{k}","MessageType":"ua-data","Messages":[{{"DataSetWriterId":1,"MessageType":"{word}"{versions}{body},'
            f'"SequenceNumber":{number}}}],"PublisherId":"{publisher}"}}')


WRITE, TICK = "write 0 demo a=7", "tick 100"
R1 = "jsonreader r1"
row("the built-in configuration, one write and one tick", None, [WRITE, TICK],
    expect=[line(0, 0), line(1, 1), f"{R1} number 1: a=7 b=0 c=0 d=0", "json lines 2 skipped 0", "end", "status 0"])
for security in ("sign", "encrypt"):
    keyed = f'security = "{security}"\nkeygroup = "k1"\n'
    row(f"the same with security: {security}", config(group=keyed, read="group = 1\n" + keyed, more=KEYED), [WRITE, TICK],
        expect=["json lines 0 skipped 2", "end", "status 0"])
row("no tick but the closing one", None, [], expect=[line(0, 0, payload='{"a":0,"b":0,"c":0,"d":0}'), f"{R1} number 0: a=0 b=0 c=0 d=0"])
row("a datagram that the link loses, which play's own reader doesn't hold: the last one", None, [WRITE, TICK, "fate 1 drop"],
    expect=[f"{R1} number 1: a=7 b=0 c=0 d=0", "json lines 2 skipped 0"])
DELTAS = config(writer=", key_frame_count = 10, keep_alive = 200")
row("deltas stay deltas, and a keep-alive tells the next number", DELTAS, [TICK, WRITE, TICK, "write 0 demo b=1 d=2", TICK, TICK, TICK],
    expect=[line(0, 0, payload='{"a":0,"b":0,"c":0,"d":0}'), line(1, 1, "ua-deltaframe", '{"a":7}'), line(2, 2, "ua-deltaframe", '{"b":1,"d":2}'),
            line(3, 3, "ua-keepalive", None), line(4, 3, payload='{"a":7,"b":1,"c":0,"d":2}'), f"{R1} number 3: a=7 b=1 c=0 d=2", "json lines 5 skipped 0"])
row("a send that fails gives no line: the next delta follows nothing", DELTAS, [TICK, WRITE, TICK, "write 0 demo b=1", TICK, "disable g1"], "sends 1",
    expect=[f"{R1} waits gap", "json lines 2 skipped 0"])
row("a send of the first key frame that fails", DELTAS, [TICK, WRITE, TICK, "disable g1"], "sends 0", expect=[f"{R1} waits start", "json lines 1 skipped 0"])
row("a key frame behind the gap", DELTAS, [TICK, WRITE, TICK, "write 0 demo b=1", TICK], "sends 1", expect=[f"{R1} number 3: a=7 b=1 c=0 d=0", "json lines 3 skipped 0"])
row("a receive that fails changes nothing", None, [WRITE, TICK], "sends ", "receives 0 1 2", expect=[f"{R1} number 1: a=7 b=0 c=0 d=0", "json lines 2 skipped 0"])
row("nothing is sent", None, ["disable g1", WRITE, TICK], "receives ", expect=[f"{R1} waits start", "json lines 0 skipped 0"])
row("the reader of the session is disabled", None, ["disable r1", WRITE, TICK], expect=[f"{R1} number 1: a=7 b=0 c=0 d=0"])
row("numbers from 65535 on", config(writer=", first_number = 65535, key_frame_count = 3"), [TICK, WRITE, TICK, "write 0 demo a=8", TICK, "disable w1"],
    expect=[line(0, 65535, payload='{"a":0,"b":0,"c":0,"d":0}'), line(1, 0, "ua-deltaframe", '{"a":7}'), f"{R1} number 1: a=8 b=0 c=0 d=0"])
row("no numbering: the last key frame", config(writer=", key_frame_count = 10", reader=', numbering = "none"'), [TICK, WRITE, TICK, "disable w1"],
    expect=[f"{R1} number -: a=0 b=0 c=0 d=0", "json lines 2 skipped 0"])
row("statuses", config(dataset="quality = true\n", writer=", key_frame_count = 10"), ["write 0 demo a!0x80000000=7", TICK, "write 0 demo a=7", TICK, "write 0 demo d!0x00000001=2", TICK],
    expect=[line(0, 0, payload='{"a":{"StatusCode":2147483648,"Value":7},"b":{"Value":0},"c":{"Value":0},"d":{"Value":0}}'),
            line(1, 1, "ua-deltaframe", '{"a":{"Value":7}}'), f"{R1} number 3: a=7 b=0 c=0 d!0x00000001=2"])
KINDS = ["Boolean", "SByte", "Byte", "Int16", "UInt16", "Int32", "UInt32", "Int64", "UInt64", "Float", "Double", "DateTime", "Guid", "StatusCode"]
ALL = "field = [" + ", ".join(f'{{name = "f{k}", kind = "{kind}"}}' for k, kind in enumerate(KINDS)) + ', {name = "s", kind = "String", cap = 20}, {name = "x", kind = "ByteString", cap = 20}]'
row("each kind", config(fields=ALL, publisher="text:pump-7", asked="text:pump-7"),
    ["write 0 demo f0=true f1=-128 f2=255 f3=-32768 f4=65535 f5=-2147483648 f6=4294967295 f7=-9223372036854775808 f8=18446744073709551615",
     "write 1 demo f9=0x7fc00001 f10=0xfff0000000000000 f11=-1 f12=12345678-9abc-def0-1122-334455667788 f13=0x80010000 s=%C3%A9%22%5C%00~ x=0x00ff10", TICK],
    expect=['{"MessageId":"1","MessageType":"ua-data","Messages":[{"DataSetWriterId":1,"MessageType":"ua-keyframe","Payload":{"f0":true,"f1":-128,"f10":"0xfff0000000000000","f11":"-1",'
            '"f12":"12345678-9abc-def0-1122-334455667788","f13":2147549184,"f2":255,"f3":-32768,"f4":65535,"f5":-2147483648,"f6":4294967295,"f7":"-9223372036854775808",'
            '"f8":"18446744073709551615","f9":"0x7fc00001","s":"é\\"\\\\\\u0000~","x":"AP8Q"},"SequenceNumber":1}],"PublisherId":"pump-7"}',
            f"{R1} number 1: f0=true f1=-128 f2=255 f3=-32768 f4=65535 f5=-2147483648 f6=4294967295 f7=-9223372036854775808 f8=18446744073709551615 f9=0x7fc00001 "
            "f10=0xfff0000000000000 f11=-1 f12=12345678-9abc-def0-1122-334455667788 f13=0x80010000 s=%C3%A9\"\\%00~ x=0x00ff10"])
for name, changed in [("another group", dict(read="group = 2\n")), ("another version", dict(read="group = 1\nversion = 3\n")), ("another publisher", dict(asked="u8:6")),
                      ("a publisher of another type", dict(asked="u16:5")), ("a class id", dict(read='class_id = "12345678-9abc-def0-1122-334455667788"\n'))]:
    row(f"a reader that isn't matched: {name}", config(**changed), [WRITE, TICK], expect=["json lines 2 skipped 0", "end"])
row("any group, its version and its class id", config(group='version = 3\nclass_id = "12345678-9abc-def0-1122-334455667788"\n',
    read='version = 3\nclass_id = "12345678-9abc-def0-1122-334455667788"\n'), [WRITE, TICK], expect=[f"{R1} number 1: a=7 b=0 c=0 d=0", "json lines 2 skipped 0"])
FIXED = 'layout = "fixed"\n'
row("fixed layouts have no line, and no reader", config(group=FIXED, writer=", offset = 7, size = 19", read="group = 1\n" + FIXED, reader=", offset = 7, size = 19"), [WRITE, TICK],
    expect=["json lines 0 skipped 2", "end"])
row("a reader of a dynamic read group isn't matched to a fixed group", config(group=FIXED, writer=", offset = 7, size = 19"), [WRITE, TICK], expect=["json lines 0 skipped 2", "end"])
row("chunks have no line", config(fields='field = [{name = "s", kind = "String", cap = 256}]', group="max_size = 128\n"), ["write 0 demo s=" + "x" * 256, TICK],
    expect=[f"{R1} waits start", "json lines 0 skipped 6", "end"])
GROWN = config(writer=", versions = true, key_frame_count = 10", more='[[dataset]]\nname = "demo2"\nminor = 1\n' + FIELDS[:-1] + ', {name = "e", kind = "UInt32"}]\n'
               '[[readgroup]]\nname = "rg2"\npublisher = "u8:5"\nreader = [{name = "r2", writer = 1, dataset = "demo2"}]\n')
AT = ',"MetaDataVersion":{"MajorVersion":1,"MinorVersion":%d}'
row("fields that are appended: the configured ones, with the grown minor version", GROWN, [TICK, "append demo e UInt32", "write 0 demo e=5", TICK, "write 0 demo e=6", TICK],
    expect=[line(0, 0, payload='{"a":0,"b":0,"c":0,"d":0}', versions=AT % 0), line(1, 1, payload='{"a":0,"b":0,"c":0,"d":0}', versions=AT % 1),
            line(2, 2, "ua-deltaframe", "{}", versions=AT % 1), f"{R1} number 3: a=0 b=0 c=0 d=0", "json lines 4 skipped 0"])
TWO = (config(writer=", key_frame_count = 4}, {name = \"w2\", id = 258, dataset = \"flag\"", read="", reader='}, {name = "r2", writer = 258, dataset = "flag"')
       + '[[dataset]]\nname = "flag"\nmajor = 3\nfield = [{name = "on", kind = "Boolean"}]\n[[group]]\nname = "g2"\nid = 7\ninterval = 200\nmessage_number = true\n'
       'writer = [{name = "w3", id = 3, dataset = "flag", versions = true, first_number = 9}]\n'
       '[[readgroup]]\nname = "rg2"\npublisher = "u8:5"\ngroup = 7\nreader = [{name = "r3", writer = 3, dataset = "flag"}, {name = "r4", writer = 1, dataset = "demo"}]\n')
row("two writers in a datagram, two groups, and readers of either", TWO, ["write 3 flag on=true", TICK, WRITE, TICK, "disable w2", "write 2 demo c=1", TICK, "enable w2", TICK],
    expect=["json lines 8 skipped 0", "end"])
row("a script that is refused", None, ["tick 100", "tock"], status="4")
row("a configuration that is refused", config().replace("UInt32", "UInt33"), [TICK], status="3")
row("a link that isn't opened, which isn't want of memory", None, [WRITE, TICK], "unopened", status="8")


def check(path):
    """each known line stands in the answer of its case"""
    answers = re.split(r"\njson ->[ \n]", open(path, encoding="utf-8").read())[1:]
    for (name, expect, status), answer in zip(known, answers, strict=True):
        lines = answer.split("\n")
        for want in expect + ([f"status {status}"] if status else []):
            if want not in lines: sys.exit(f"{name}: lacks {want}")


sys.stdout.reconfigure(encoding="utf-8", newline="\n")
if sys.argv[1:2] == ["check"]: check(sys.argv[2])
else: print("\n".join(out))
