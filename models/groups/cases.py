#!/usr/bin/env python3
"""Prints the cases of crates/cases_group/stdin. Secured datagrams that are given as bytes are made by the model's AES and HMAC."""
import struct, sys
from model import stream, mac, write_header
out = []
def say(text=""): out.append(text)
def c(text): out.append("# " + text)

def q(pairs): return "{" + ",".join(f"{k}={v}" for k, v in pairs) + "}"
def fields(*fs):
    r = []
    for f in fs:
        n, k, *cap = f.split()
        r.append(f'{{name="{n}",kind="{k}"' + (f",cap={cap[0]}" if cap else "") + "}")
    return "[" + ",".join(r) + "]"
def dataset(name, fs, more=""): return f'[[dataset]]\\nname="{name}"{more and chr(92)+"n"+more}\\nfield={fields(*fs)}'
def arr(items): return "[" + ",".join(items) + "]"
def writer(n, ds="demo", more=""): return f'{{name="w{n}",id={n},dataset="{ds}"' + (f",{more}" if more else "") + "}"
def reader(n, ds="demo", more="", name=None): return f'{{name="r{name or n}",writer={n},dataset="{ds}"' + (f",{more}" if more else "") + "}"
def group(n, writers, more="", interval=100):
    return f'[[group]]\\nname="g{n}"\\nid={n}\\ninterval={interval}' + "".join("\\n" + m for m in more.split(";") if m) + f"\\nwriter={arr(writers)}"
def readgroup(n, readers, more="", pub="u8:5", gid=1):
    return f'[[readgroup]]\\nname="rg{n}"\\npublisher="{pub}"' + (f"\\ngroup={gid}" if gid else "") + "".join("\\n" + m for m in more.split(";") if m) + f"\\nreader={arr(readers)}"
def key(token, frm, a="11", b="22", n="33", long=False):
    return f'{{token={token},from={frm},signing="{a*32}",encrypting="{b*(32 if long else 16)}",nonce="{n*4}"}}'
def keygroup(name, keys, more="", long=False):
    return f'[[keygroup]]\\nname="{name}"\\npolicy="{"aes256" if long else "aes128"}"\\nrandom="00000000"' + "".join("\\n" + m for m in more.split(";") if m) + f"\\nkey={arr(keys)}"
def config(*parts, pub="u8:5"): say("with " + "\\n".join([f'publisher={{id="{pub}"}}', *parts]))

DEMO = dataset("demo", ["a UInt32", "b UInt32", "c UInt32", "d UInt32"])
ONE = dataset("demo", ["a UInt32"])
K1 = keygroup("k1", [key(1, 0)])
SEC = 'security="{}";keygroup="k1"'

def secured_chunk(number, place, offset, total, data, token=1, a=0x11, b=0x22, n=0x33):
    """a protected chunk of publisher u8:5, group 1, writer 1"""
    nonce = bytes(4) + struct.pack("<I", number)
    head = b"\xf1\x90\x01\x05\x09" + struct.pack("<HHH", 1, 0, 1) + b"\x03" + struct.pack("<I", token) + b"\x08" + nonce
    body = struct.pack("<HIIi", place, offset, total, len(data)) + data
    d = head + bytes(x ^ y for x, y in zip(body, stream(bytes([b]) * 16, bytes([n]) * 4, nonce, 1, len(body))))
    return (d + mac(bytes([a]) * 32, d)).hex()

def secured(number, frame, token=1, mode=3, a=0x11, b=0x22, n=0x33, nonce=None, extra=b"", ids=b"\x01\x01\x00", flags=None, cut=0, seq=0):
    """a datagram of publisher u8:5, group 1, with these security flags"""
    nonce = bytes(4) + struct.pack("<I", number) if nonce is None else nonce
    head = bytes([0x31 | (0x40 if ids else 0) | 0x80, 0x10, 5, 9]) + struct.pack("<HH", 1, seq) + ids
    head += bytes([mode if flags is None else flags]) + struct.pack("<I", token) + bytes([len(nonce)]) + nonce + extra
    body = frame
    if mode & 2: body = bytes(x ^ y for x, y in zip(frame, stream(bytes([b]) * 16, bytes([n]) * 4, nonce[:8].ljust(8, b"\0"), 1, len(frame))))
    d = head + body
    d += mac(bytes([a]) * 32, d)
    return d[:len(d) - cut].hex()

def whole(number, *values): return b"\x09" + struct.pack("<HH", number, len(values)) + b"".join(b"\x07" + struct.pack("<I", v) for v in values)
def change(number, *pairs): return b"\x89\x01" + struct.pack("<HH", number, len(pairs)) + b"".join(struct.pack("<H", i) + b"\x07" + struct.pack("<I", v) for i, v in pairs)
def alive(number): return b"\x89\x03" + struct.pack("<H", number)
def plain(frame, seq=0, wid=1): return (bytes([0x71, 5, 9]) + struct.pack("<HH", 1, seq) + b"\x01" + struct.pack("<H", wid) + frame).hex()
def several(*parts, seq=0):
    ids = b"".join(struct.pack("<H", i) for i, _ in parts)
    sizes = b"".join(struct.pack("<H", len(f)) for _, f in parts)
    return (bytes([0x71, 5, 9]) + struct.pack("<HH", 1, seq) + bytes([len(parts)]) + ids + sizes + b"".join(f for _, f in parts)).hex()
def chunk(number, offset, total, data, length=None, tail=b"", wid=1):
    length = len(data) if length is None else length
    return (b"\xf1\x80\x01\x05\x09" + struct.pack("<HHH", 1, 0, wid) + struct.pack("<HIIi", number, offset, total, length) + data + tail).hex()

say("# Groups of writers and of readers. with TEXT: the configuration of the lines behind it, whose groups begin anew; \\n is a line feed.")
say("# Groups, key groups, writers, read groups, readers, data sets and fields count from 0. Expected answers were made by an independent")
say("# program, from OPC 10000-14 and the rules of docs, or spelled by hand.")
say("#   write SET FIELD:X ..      values of a data set's row, FIELD:!S=X with a status; the row's version, of 0 the opening row")
say("#   append SET NAME KIND CAP  a field more, CAP for a text or a blob, and a higher minor version; the writers of the data set are fresh")
say("#   moment NOW                all senders turn to the moment; where a token changed, the writers of its groups are fresh")
say("#   due GROUP NOW             whether a turn is due")
say("#   turn GROUP NOW ON         a turn, with a 1 or 0 for each writer that is on or off: how many datagrams it made, and they")
say("#   closing GROUP NOW ON      the closing turn")
say("#   sizes GROUP NOW ON        as turn, with the lengths of the datagrams")
say("#   refresh GROUP WRITER      makes a writer fresh, where it is there")
say("#   log GROUP WRITER          place and version of each of its data frames")
say("#   spent KEYGROUP            whether its sender is spent")
say("#   take READGROUP NOW DATAGRAM      a datagram comes: taken PARTS MATCHED BAD, or why it is refused. DATAGRAM is its bytes, where 00*7")
say("#                             stands for seven bytes 0, or #K, the K-th that was made since the configuration")
say("#   prefixes READGROUP NOW DATAGRAM  its first bytes come, from none to all but one; equal answers in a row are told once")
say("#   bits READGROUP NOW DATAGRAM      it comes with each of its bits altered in turn, those of the first byte first, low bits first")
say("#   damaged READGROUP NOW SEED COUNT so many datagrams come, random ones and damaged ones of those that were made: how often each answer came")
say("#   on READGROUP ON           which readers are enabled")
say("#   expire READGROUP NOW      timers are looked at")
say("#   pull KEYGROUP SERVED COUNT NOW    its sender goes on with the ring that is pulled at the moment of a key service that serves the ring of the")
say("#                             key group SERVED: so many keys from the current one on; whether the ring keeps its token, the token, and its last number")
say("#   follow READGROUP SERVED COUNT NOW its guard goes on with such a ring")
say("#   cut READGROUP READER WHY  cuts a reader")
say("#   reader READGROUP READER   what it holds, or why it waits; how many breaks, and the last eight; late, ready")

say()
c("a datagram, and each of its beginnings")
config(ONE, readgroup(1, [reader(1)]))
say("reader 0 0")
say("prefixes 0 0 71 05 09 01 00 00 00 01 01 00 09 00 00 01 00 07 07 00 00 00")
say("reader 0 0")
say("take 0 0 71 05 09 01 00 00 00 01 01 00 09 00 00 01 00 07 07 00 00 00")
say("reader 0 0")
say("prefixes 0 0 71 05 09 01 00 00 00 01 01 00 09 00 00 01 00 07 07 00 00 00")
say("reader 0 0")
c("a delta frame, and a keep-alive that announces number 2 and uses none up")
say("take 0 0 71 05 09 01 00 01 00 01 01 00 89 01 01 00 01 00 00 00 07 08 00 00 00")
say("reader 0 0")
say("take 0 0 71 05 09 01 00 02 00 01 01 00 89 03 02 00")
say("reader 0 0")
c("each bit of the first one altered: another publisher, group or writer, another frame, other values")
say("bits 0 0 71 05 09 01 00 00 00 01 01 00 09 00 00 01 00 07 07 00 00 00")
say("reader 0 0")
c("zeros behind a frame, and another byte behind it")
say("take 0 0 " + plain(whole(10, 1) + bytes(3)))
say("take 0 0 " + plain(whole(11, 1) + b"\x00\x01"))
say("reader 0 0")

say()
c("the publisher's id of two bytes, without a sequence number: a reader that goes by numbers, and one that doesn't")
config(ONE, readgroup(1, [reader(62541, more='numbering="none"', name=1)], pub="u16:2234", gid=100), readgroup(2, [reader(62541, name=2)], pub="u16:2234", gid=100), pub="u16:2234")
SD = "f1 01 ba 08 01 64 00 01 4d f4 01 01 00 07 07 00 00 00"
for rg in (0, 1):
    say(f"take {rg} 0 {SD}"); say(f"reader {rg} 0")
c("without numbers: the last key frame is held, whatever its number; a delta frame isn't, and a keep-alive changes nothing")
h = "f1 01 ba 08 01 64 00 01 4d f4 "
say("take 0 0 " + h + whole(7, 9).hex()); say("reader 0 0")
say("take 0 0 " + h + whole(3, 4).hex()); say("reader 0 0")
say("take 0 0 " + h + change(4, (0, 5)).hex()); say("take 0 0 " + h + alive(9).hex()); say("reader 0 0")
say(f"prefixes 0 0 {SD}"); say("reader 0 0")

say()
c("the built-in configuration: a turn, its datagram, and again")
config(DEMO, group(1, [writer(1)]), readgroup(1, [reader(1)]))
for l in ["write 0 0:7", "due 0 99", "due 0 100", "turn 0 100 1", "due 0 199", "due 0 200", "take 0 100 #0", "reader 0 0", "closing 0 100 1", "due 0 199", "due 0 200",
          "take 0 100 #1", "reader 0 0", "log 0 0", "prefixes 0 100 #0", "reader 0 0"]: say(l)

say()
c("5000 random and damaged datagrams into an unsecured group")
config(DEMO, group(1, [writer(1, more="key_frame_count=4,keep_alive=100")]), readgroup(1, [reader(1, more="timeout=500")]))
t = 0
for n in range(12):
    t += 100
    if n % 3: say(f"write 0 {n % 4}:{n}")
    say(f"turn 0 {t} 1")
say("log 0 0")
say("damaged 0 1200 2021 5000")
say("reader 0 0")

for mode in ("encrypt", "sign"):
    say()
    c(f"{mode}: a bit altered is refused, the unaltered one taken, and then repeated")
    config(DEMO, K1, group(1, [writer(1)], SEC.format(mode)), readgroup(1, [reader(1)], SEC.format(mode)))
    for l in ["write 0 0:7", "moment 100", "turn 0 100 1", "bits 0 100 #0", "prefixes 0 100 #0", "reader 0 0", "take 0 100 #0", "reader 0 0", "take 0 100 #0", "bits 0 100 #0", "prefixes 0 100 #0", "reader 0 0",
              "turn 0 200 1", "take 0 200 #1", "take 0 200 #0", "reader 0 0"]: say(l)

say()
c("5000 random and damaged datagrams into a secured group")
config(DEMO, K1, group(1, [writer(1, more="key_frame_count=4,keep_alive=100")], SEC.format("encrypt")), readgroup(1, [reader(1, more="timeout=500")], SEC.format("encrypt")))
t = 0
say("moment 0")
for n in range(12):
    t += 100
    if n % 3: say(f"write 0 {n % 4}:{n}")
    say(f"turn 0 {t} 1")
say("damaged 0 1200 2022 5000")
say("reader 0 0")

say()
c("a frame of 300 bytes in datagrams of at most 128: three chunks")
BIG = dataset("demo", ["s String 256", "t String 64"])
def xs(ch, n): return ch * n
config(BIG, group(1, [writer(1, more="key_frame_count=2")], "max_size=128"), readgroup(1, [reader(1)]))
say(f"write 0 0:{xs('x', 256)} 1:{xs('y', 29)}")
say("turn 0 100 1")
c("in reverse order, and one of them once more")
for l in ["take 0 100 #2", "reader 0 0", "take 0 100 #1", "reader 0 0", "take 0 100 #0", "reader 0 0", "take 0 100 #1", "reader 0 0"]: say(l)
c("a delta frame that is short, and then a key frame of which a chunk is lost, and one comes twice")
say("write 0 1:z")
for l in ["turn 0 200 1", "take 0 200 #3", "reader 0 0", "write 0 0:k", "turn 0 300 1"]: say(l)
say(f"write 0 0:{xs('u', 256)} 1:{xs('v', 64)}")
for l in ["sizes 0 400 1", "sizes 0 500 1", "log 0 0"]: say(l)
for l in ["take 0 400 #4", "reader 0 0", "take 0 400 #5", "take 0 400 #5", "reader 0 0", "take 0 400 #7", "reader 0 0",
          "take 0 500 #9", "take 0 500 #8", "take 0 500 #6", "reader 0 0", "take 0 500 #11", "take 0 500 #10", "reader 0 0"]: say(l)
c("each beginning of a chunk, and each bit of it altered")
config(BIG, group(1, [writer(1)], "max_size=128"), readgroup(1, [reader(1)]), readgroup(2, [reader(1, name=2)]))
say(f"write 0 0:{xs('x', 256)} 1:{xs('y', 29)}")
for l in ["turn 0 100 1", "prefixes 0 100 #0", "reader 0 0", "take 0 100 #0", "take 0 100 #1", "take 0 100 #2", "reader 0 0", "prefixes 0 100 #2", "reader 0 0",
          "take 1 100 #1", "take 1 100 #2", "bits 1 100 #0", "reader 1 0"]: say(l)
c("a chunk of frame 1 before the last of frame 0: frame 0 is given up")
config(BIG, group(1, [writer(1)], "max_size=128"), readgroup(1, [reader(1)]))
say(f"write 0 0:{xs('x', 256)} 1:{xs('y', 29)}")
for l in ["sizes 0 100 1", "sizes 0 200 1", "take 0 200 #0", "take 0 200 #1", "take 0 200 #3", "take 0 200 #2", "reader 0 0", "take 0 200 #5", "take 0 200 #4", "reader 0 0"]: say(l)
c("chunks of a frame of 10 bytes by hand: past the end, empty, of another total, too long, no chunk, bytes behind it, overlapping, no frame when joined")
config(ONE, readgroup(1, [reader(1)]))
f = whole(5, 77)
for d in [chunk(5, 0, 10, f[:4]), chunk(5, 0, 11, f[:4]), chunk(5, 8, 10, f[7:10]), chunk(5, 4, 10, b""), chunk(5, 4, 10, b"", -1), chunk(5, 4, 10, b"", -2), chunk(5, 0, 4097, f[:4]),
          chunk(5, 4097, 4096, f[:1]), chunk(5, 4, 10, f[4:8], 5), chunk(6, 4294967295, 4294967295, f[:1]), chunk(5, 3, 10, b"\x01\x00\x07", tail=b"\xff\xff"), chunk(5, 6, 10, f[6:], wid=2)]:
    say("take 0 0 " + d)
say("reader 0 0")
say("take 0 0 " + chunk(5, 6, 10, f[6:])); say("reader 0 0")
say("take 0 0 " + chunk(5, 6, 10, f[6:])); say("take 0 0 " + chunk(5, 0, 11, f[:1])); say("take 0 0 " + chunk(4, 0, 10, f)); say("reader 0 0")
say("take 0 0 " + chunk(6, 0, 2, b"\x09\x06")); say("take 0 0 " + chunk(7, 0, 10, whole(6, 78))); say("reader 0 0")
c("a message of 4,096 bytes, in one chunk: the frame and zeros; a cut forgets chunks")
say("take 0 0 " + chunk(8, 0, 4096, b"")[:-8] + "00100000 " + whole(7, 79).hex() + " 00*4086"); say("reader 0 0")
say("take 0 0 " + chunk(9, 0, 10, whole(8, 80)[:5])); say("cut 0 0 restarted"); say("take 0 0 " + chunk(9, 5, 10, whole(8, 80)[5:])); say("reader 0 0")
say("take 0 0 " + chunk(9, 0, 10, whole(8, 80)[:5])); say("reader 0 0")
for mode in ("sign", "encrypt"):
    c(f"chunks with {mode}")
    config(BIG, K1, group(1, [writer(1)], SEC.format(mode) + ";max_size=160"), readgroup(1, [reader(1)], SEC.format(mode)))
    say(f"write 0 0:{xs('x', 256)} 1:{xs('y', 29)}")
    for l in ["moment 50", "turn 0 100 1", "take 0 100 #1", "take 0 100 #2", "take 0 100 #2", "take 0 100 #0", "reader 0 0"]:
        say(l)
    say("take 0 100 #3"); say("reader 0 0")
c("damaged chunks")
config(BIG, group(1, [writer(1)], "max_size=128"), readgroup(1, [reader(1)]))
say(f"write 0 0:{xs('x', 256)} 1:{xs('y', 29)}")
for n in range(4): say(f"sizes 0 {100 * n + 100} 1"); say(f"write 0 1:{n}")
say("damaged 0 500 77 2000"); say("reader 0 0")

say()
c("a device: a data set of 38 numbers and two texts, and one of 8 numbers in a fixed layout, protected by one key group")
PLANT = dataset("plant", [f"n{i} UInt32" for i in range(38)] + ["s String 60", "t String 60"])
FAST = dataset("fast", [f"f{i} UInt32" for i in range(8)])
K256 = keygroup("k1", [key(1, 0, long=True)], long=True)
config(PLANT, FAST, K256, group(1, [writer(1, "plant")], SEC.format("encrypt")), group(2, [writer(2, "fast", "offset=22,size=35")], SEC.format("encrypt") + ';layout="fixed"'),
       readgroup(1, [reader(1, "plant")], SEC.format("encrypt")), readgroup(2, [reader(2, "fast", "offset=22,size=35")], SEC.format("encrypt") + ';layout="fixed"', gid=2))
say("write 0 " + " ".join(f"{i}:{i}" for i in range(38)) + f" 38:{xs('p', 60)} 39:{xs('q', 60)}")
say("write 1 " + " ".join(f"{i}:{100 + i}" for i in range(8)))
for l in ["moment 100", "turn 0 100 1", "turn 1 100 1", "turn 0 200 1", "turn 1 200 0", "sizes 0 300 1", "sizes 1 300 1"]: say(l)
for l in ["take 0 100 #0", "take 1 100 #0", "take 1 100 #1", "take 0 100 #1", "reader 0 0", "reader 1 0", "take 0 200 #2", "take 1 200 #3", "reader 1 0", "take 0 200 #4", "take 1 200 #5", "take 1 200 #1", "reader 0 0", "reader 1 0", "damaged 1 300 5 500", "damaged 0 300 6 500"]: say(l)

say()
c("16 writers: frames pack into several datagrams, and one is cut between them")
SMALL = dataset("small", ["a UInt32", "b Byte"])
MID = dataset("mid", ["s String 100"])
LARGE = dataset("large", ["s String 256", "t String 256"])
names = ["small"] * 5 + ["mid"] * 4 + ["large"] + ["mid"] * 3 + ["small"] * 3
config(SMALL, MID, LARGE, group(1, [writer(i + 1, d) for i, d in enumerate(names)], "max_size=400;message_number=true"), readgroup(1, [reader(i + 1, d) for i, d in enumerate(names)]))
say(f"write 0 0:4294967295 1:255"); say(f"write 1 0:{xs('m', 100)}"); say(f"write 2 0:{xs('l', 256)} 1:{xs('L', 256)}")
say("turn 0 100 1111111111111111")
for k in range(5): say(f"take 0 100 #{k}")
for k in (0, 8, 9, 10, 15): say(f"reader 0 {k}")
say("turn 0 200 1010101010101011")
say("turn 0 300 0000000000000000")
say(f"write 1 0:{xs('m', 37)}")
say("sizes 0 400 1111111111111111")
say("damaged 0 400 11 1000")
for k in (0, 5, 9, 15): say(f"reader 0 {k}")
c("where a frame just fits beside others, and where it no longer does: the second id and the sizes count")
config(SMALL, MID, group(1, [writer(1, "small"), writer(2, "mid")], "max_size=128"))
for n in (88, 89, 90, 95, 96, 97, 100):
    say(f"write 1 0:{xs('m', n)}"); say(f"sizes 0 {n} 11")
config(SMALL, group(1, [writer(i + 1, "small") for i in range(9)], "max_size=145"), readgroup(1, [reader(2, "small"), reader(9, "small", name=1)]))
say("write 0 0:7 1:8")
for l in ["turn 0 100 111111111", "turn 0 200 111111110", "take 0 100 #0", "take 0 100 #1", "reader 0 0", "reader 0 1", "prefixes 0 300 #0", "bits 0 300 #1", "reader 0 0", "reader 0 1"]: say(l)
config(MID, dataset("wide", ["s String 120"]), group(1, [writer(1, "wide")], "max_size=128"), group(2, [writer(2, "wide")], "max_size=160;security=\"sign\";keygroup=\"k1\""), K1)
say("moment 0")
for n in (92, 93, 94, 107, 108, 109, 120):
    say(f"write 1 0:{xs('m', n)}"); say(f"sizes 0 {n} 1"); say(f"sizes 1 {n} 1")

say()
c("a fixed layout: one slot of 19 bytes at offset 7 and no payload header")
config(DEMO, group(1, [writer(1, more="offset=7,size=19")], 'layout="fixed"'), readgroup(1, [reader(1, more="offset=7,size=19")], 'layout="fixed"'))
for l in ["write 0 0:7", "turn 0 100 1", "take 0 100 #0", "reader 0 0", "prefixes 0 100 #0", "reader 0 0"]: say(l)
c("a writer that is off leaves its slot empty, which is no frame; a datagram is made all the same")
for l in ["turn 0 200 0", "take 0 200 #1", "reader 0 0", "turn 0 300 1", "take 0 300 #2", "reader 0 0", "bits 0 300 #0", "reader 0 0"]: say(l)
c("a disabled reader has no part")
for l in ["on 0 0", "take 0 400 #0", "prefixes 0 400 #0", "on 0 1", "take 0 400 #0", "reader 0 0"]: say(l)
c("two writers with a gap between the slots, one with versions, and longer slots than they need; texts have their cap")
TXT = dataset("txt", ["s String 5", "b ByteString 3", "f Boolean"], "major=3\\nminor=2")
config(DEMO, TXT, group(1, [writer(1, more="offset=60,size=20"), writer(2, "txt", "offset=10,size=30,versions=true")], 'layout="fixed";sequence=false;version=9'),
       readgroup(1, [reader(2, "txt", "offset=10,size=30", name=1), reader(1, more="offset=60,size=20", name=2)], 'layout="fixed";version=9'), readgroup(2, [reader(2, "txt", "offset=10,size=30", name=3), reader(9, "txt", "offset=80,size=20", name=4)], 'layout="fixed"', gid=0))
say("write 0 0:1 3:4"); say("write 1 0:abc 1:0x0102 2:true")
for l in ["turn 0 100 11", "take 0 100 #0", "reader 0 0", "reader 0 1", "take 1 100 #0", "reader 1 0", "reader 1 1", "turn 0 200 01", "take 0 200 #1", "reader 0 0", "reader 0 1", "turn 0 300 10", "take 0 300 #2", "on 0 01", "take 0 300 #2", "take 0 300 #0", "reader 0 0", "reader 0 1",
          "prefixes 0 300 #2", "reader 0 0", "reader 0 1"]: say(l)
c("frames that aren't RawData can be read in a slot: key frames, delta frames, keep-alives; RawData in a delta frame can't; a chunk's flag and a payload header are read past")
config(ONE, readgroup(1, [reader(1, more="offset=7,size=20")], 'layout="fixed"'))
def fix(frame, size=20): return (b"\x31\x05\x09\x01\x00\x00\x00" + frame + bytes(size - len(frame))).hex()
for f in [whole(0, 7), change(1, (0, 8)), alive(2), b"\x8b\x01\x02\x00" + b"\x01\x00\x00\x00" + b"\x09\x00\x00\x00", b"\x8b\x03\x02\x00", b"\x0b\x02\x00\x09\x00\x00\x00", b"\x0b\x03\x00\x0a\x00\x00\x00\x01", b"\x8b\x02\x03\x00", b"\x8b\x41\x03\x00", b"\x0d\x03\x00\x01\x00\x01\x07\x0b\x00\x00\x00", b"\x0f\x03\x00", b"\x0a\x03\x00\x0a"]:
    say("take 0 0 " + fix(f)); say("reader 0 0")
config(ONE, readgroup(1, [reader(1, more="offset=12,size=7")], 'layout="fixed"'))
say("take 0 0 71 05 09 01 00 00 00 01 01 00 00 00 0b 00 00 01 00 00 00"); say("reader 0 0")
say("take 0 0 f1 80 01 05 09 01 00 00 00 01 00 00 0b 01 00 02 00 00 00"); say("reader 0 0")
for mode in ("sign", "encrypt"):
    c(f"fixed, {mode}: a slot ends before the signature")
    config(DEMO, K1, group(1, [writer(1, more="offset=30,size=25")], SEC.format(mode) + ';layout="fixed";max_size=128'), readgroup(1, [reader(1, more="offset=30,size=25")], SEC.format(mode) + ';layout="fixed"'), readgroup(2, [reader(1, more="offset=30,size=26", name=2)], SEC.format(mode) + ';layout="fixed"'))
    for l in ["write 0 2:5", "moment 7", "turn 0 100 1", "turn 0 200 0", "take 0 200 #0", "take 1 200 #0", "reader 0 0", "reader 1 0", "take 0 200 #1", "bits 0 200 #1", "prefixes 0 200 #1", "reader 0 0", "damaged 0 200 99 1000"]: say(l)

say()
c("statuses")
config(dataset("demo", ["a UInt32", "b UInt32", "c UInt32", "d UInt32"], "quality=true"), group(1, [writer(1, more="key_frame_count=10")]), readgroup(1, [reader(1)]))
for l in ["write 0 0:!0x80000000=7", "turn 0 100 1", "write 0 0:7", "turn 0 200 1", "take 0 100 #0", "reader 0 0", "take 0 200 #1", "reader 0 0"]: say(l)
c("a text of 256 bytes in three datagrams, and the second of them lost")
config(dataset("demo", ["s String 256"]), group(1, [writer(1)], "max_size=128"), readgroup(1, [reader(1)]), readgroup(2, [reader(1, name=2)]))
say(f"write 0 0:{xs('x', 256)}")
for l in ["turn 0 100 1", "sizes 0 200 1"] + [f"take 0 {100 + k // 3 * 100} #{k}" for k in range(6)] + ["reader 0 0"] + [f"take 1 {100 + k // 3 * 100} #{k}" for k in (0, 2, 3, 4, 5)] + ["reader 1 0"]: say(l)
for title, order in (("a lost delta frame", (0, 2, 3)), ("a late one", (0, 2, 1, 3)), ("repeated ones", (0, 0, 0, 1, 1, 1, 2, 2, 2, 3, 3, 3))):
    c(title)
    config(DEMO, group(1, [writer(1, more="key_frame_count=10")]), readgroup(1, [reader(1)]))
    for l in ["sizes 0 100 1", "write 0 0:1", "sizes 0 200 1", "write 0 0:2", "sizes 0 300 1", "closing 0 300 1", "log 0 0"]: say(l)
    for k in order: say(f"take 0 400 #{k}"); say("reader 0 0")
c("a delta frame lost before a keep-alive")
config(DEMO, group(1, [writer(1, more="key_frame_count=10,keep_alive=200")]), readgroup(1, [reader(1)]))
for l in ["sizes 0 100 1", "write 0 0:1", "turn 0 200 1", "turn 0 300 1", "turn 0 400 1", "closing 0 400 1", "log 0 0", "take 0 100 #0", "take 0 400 #2", "reader 0 0", "take 0 400 #3", "reader 0 0"]: say(l)
for mode in (None, "sign"):
    c("a copy after the timeout is held again" if mode is None else "and refused where it is signed")
    sec = ";" + SEC.format(mode) if mode else ""
    config(DEMO, *([K1] if mode else []), group(1, [writer(1, more="key_frame_count=10")], sec), readgroup(1, [reader(1, more="timeout=250")], sec))
    for l in ["moment 100", "sizes 0 100 1", "take 0 100 #0", "expire 0 349", "reader 0 0", "expire 0 400", "reader 0 0", "write 0 0:9", "sizes 0 500 1", "take 0 500 #0", "reader 0 0", "closing 0 500 1", "take 0 500 #2", "reader 0 0"]: say(l)

say()
c("frames that carry more and less: versions, quality, class id, version, no sequence number")
config(dataset("demo", ["a UInt32", "b UInt32", "c UInt32", "d UInt32"], "quality=true"), group(1, [writer(1, more="key_frame_count=10,versions=true")], 'version=5;sequence=false;message_number=true;class_id="00112233-4455-6677-8899-aabbccddeeff"'),
       readgroup(1, [reader(1)], 'class_id="00112233-4455-6677-8899-aabbccddeeff";version=5'), readgroup(2, [reader(1, name=2)], 'class_id="00112233-4455-6677-8899-aabbccddeefe"'), readgroup(3, [reader(1, name=3)], "version=4"))
for l in ["write 0 0:!0x80000000=7", "turn 0 100 1", "write 0 0:7", "turn 0 200 1"]: say(l)
for k in (0, 1):
    for g in range(3): say(f"take {g} 100 #{k}"); say(f"reader {g} 0")
for kind, v in (("u16", "65535"), ("u32", "70000"), ("u64", "18446744073709551615"), ("text", "plant")):
    c(f"a publisher's id {kind}")
    config(ONE, group(1, [writer(1)]), readgroup(1, [reader(1)], pub=f"{kind}:{v}"), readgroup(2, [reader(1, name=2)], pub="u8:255"), pub=f"{kind}:{v}")
    for l in ["turn 0 100 1", "take 0 100 #0", "take 1 100 #0", "reader 0 0", "prefixes 0 100 #0"]: say(l)

say()
c("cadence: every third turn a key frame, keep-alives after 200, a closing key frame")
config(DEMO, group(1, [writer(1, more="key_frame_count=3,keep_alive=200")]), readgroup(1, [reader(1)]))
for l in ["turn 0 100 1", "turn 0 200 1", "turn 0 300 1", "turn 0 400 1", "closing 0 400 1", "log 0 0", "take 0 100 #0", "take 0 300 #1", "take 0 400 #2", "take 0 400 #3", "reader 0 0"]: say(l)
c("nothing differs, nothing is sent; a refresh brings a key frame; a writer that was off")
config(DEMO, group(1, [writer(1, more="key_frame_count=10,first_number=65535"), writer(2)]))
for l in ["write 0 0:0", "turn 0 100 10", "write 0 0:0", "turn 0 200 10", "write 0 1:5", "turn 0 300 10", "refresh 0 0", "turn 0 400 10", "turn 0 500 11", "turn 0 600 01", "write 0 2:6", "turn 0 700 11", "log 0 0", "log 0 1"]: say(l)
c("a dynamic group without writers makes no datagram, nor does a fixed one")
config(DEMO, group(1, []), group(2, [], 'layout="fixed"'))
for l in ["turn 0 100 -", "turn 1 100 -", "closing 1 200 -"]: say(l)

say()
c("a field more: a reader of the first fields reads on, and one of the longer data set can't read what came before")
config(DEMO, dataset("demo2", ["a UInt32", "b UInt32", "c UInt32", "d UInt32", "e UInt32"], "minor=1"), group(1, [writer(1, more="versions=true,key_frame_count=10")]), readgroup(1, [reader(1)]), readgroup(2, [reader(1, "demo2", name=2)]))
for l in ["turn 0 100 1", "append 0 e UInt32", "write 0 4:5", "turn 0 200 1", "write 0 4:6 0:1", "turn 0 300 1", "closing 0 300 1"]: say(l)
for k in range(4):
    for g in (0, 1): say(f"take {g} 400 #{k}"); say(f"reader {g} 0")
c("a field more for one data set, and a fixed group of another data set goes on; a text more in each of two groups")
config(ONE, dataset("two", ["x UInt32", "s String 8"], "quality=true"), K1, group(1, [writer(1, more="offset=7,size=20"), writer(4, more="offset=30,size=15,versions=true")], 'layout="fixed"'), group(2, [writer(2, "two", "versions=true,key_frame_count=3")]), group(3, [writer(3, "two", "versions=true,key_frame_count=3,first_number=9")], SEC.format("sign")),
       readgroup(1, [reader(1, more="offset=7,size=20"), reader(4, more="offset=30,size=15")], 'layout="fixed"'), readgroup(2, [reader(2, "two", name=3)], gid=2))
for l in ["moment 10", "write 0 0:1", "write 1 0:!0x80010000=2 1:abc", "turn 0 100 11", "turn 1 100 1", "turn 2 100 1", "append 1 t String 4", "turn 0 200 10", "turn 1 200 1", "turn 2 200 1", "write 1 2:xyz", "write 0 0:5", "turn 0 300 01", "turn 1 300 1", "turn 2 300 0", "append 1 u Boolean", "write 1 3:true 1:", "turn 2 400 1", "turn 1 400 1", "turn 0 400 11", "log 0 1", "log 1 0", "log 2 0"]: say(l)
for k in (0, 3, 6, 10): say(f"take 0 400 #{k}")
for k in (1, 4, 7, 9): say(f"take 1 400 #{k}"); say("reader 1 0")
say("reader 0 0"); say("reader 0 1")

say()
c("tokens: a higher one cuts every reader, the disabled ones too, and the lower one is refused from then on")
K12 = keygroup("k1", [key(1, 0), key(2, 250, "44", "55", "66")])
config(DEMO, K12, group(1, [writer(1, more="key_frame_count=10"), writer(2, more="key_frame_count=10")], SEC.format("encrypt")), readgroup(1, [reader(1, more="timeout=10000"), reader(2, more="timeout=10000")], SEC.format("encrypt")))
for l in ["moment 100", "turn 0 100 11", "write 0 0:1", "moment 200", "turn 0 200 11", "moment 300", "turn 0 300 11"]: say(l)
for l in ["take 0 100 #0", "reader 0 0", "reader 0 1", "on 0 10", "take 0 300 #2", "reader 0 0", "reader 0 1", "take 0 300 #1", "reader 0 0", "expire 0 10299", "reader 0 0", "reader 0 1", "expire 0 20000", "reader 0 0", "reader 0 1", "on 0 11", "write 0 0:2", "turn 0 400 11", "take 0 400 #3", "reader 0 0", "reader 0 1"]: say(l)
c("a higher token forgets chunks, a nonce that jumps doesn't")
config(ONE, K12, readgroup(1, [reader(1)], SEC.format("encrypt")))
k2 = dict(token=2, a=0x44, b=0x55, n=0x66)
f5, f6, f7 = whole(5, 50), whole(6, 60), whole(7, 70)
for d in [secured_chunk(1, 5, 0, 10, f5[:4]), secured(20000, whole(3, 3)), secured_chunk(20001, 5, 4, 10, f5[4:]), secured_chunk(20002, 6, 0, 10, f6[:4]), secured(1, whole(6, 1), **k2), secured_chunk(2, 6, 4, 10, f6[4:], **k2), secured_chunk(3, 7, 4, 10, f7[4:], **k2), secured_chunk(30000, 7, 0, 10, f7[:4], **k2)]:
    say("take 0 0 " + d); say("reader 0 0")
c("the first token of a guard cuts nothing")
config(DEMO, K12, group(1, [writer(1)], SEC.format("sign")), readgroup(1, [reader(1)], SEC.format("sign")))
for l in ["moment 250", "turn 0 250 1", "take 0 250 #0", "reader 0 0"]: say(l)
c("two groups with one key group number their datagrams 1, 2, 3 over both, and each its own sequence")
config(ONE, BIG.replace('"demo"', '"big"'), K1, group(1, [writer(1)], SEC.format("sign")), group(2, [writer(2, "big")], SEC.format("sign") + ";max_size=240"), group(3, [writer(3, more="offset=40,size=7")], SEC.format("sign") + ';layout="fixed"'))
say(f"write 1 0:{xs('x', 256)}")
for l in ["moment 100", "turn 0 100 1", "turn 1 100 1", "turn 2 100 1", "turn 0 200 1", "turn 2 200 1", "turn 1 200 1", "turn 0 300 1"]: say(l)
c("numbers begin at 1 under a new token, and else behind those used; a spent sender's groups have no turn")
config(DEMO, keygroup("k1", [key(7, 0), key(9, 1000)], "used=4294966271;first_block=0"), keygroup("k2", [key(1, 0)], "used=4294966272"), group(1, [writer(1)], SEC.format("encrypt")), readgroup(1, [reader(1)], SEC.format("encrypt")))
for l in ["spent 0", "spent 1", "moment 999", "turn 0 999 1", "spent 0", "moment 1000", "spent 0", "turn 0 1000 1", "spent 0", "take 0 1000 #0", "take 0 1000 #1", "reader 0 0"]: say(l)

say()
c("the guard: what a security header may say, the numbers that may come, and a nonce that jumps")
config(ONE, K12, readgroup(1, [reader(1)], SEC.format("encrypt")), readgroup(2, [reader(1, name=2)], SEC.format("sign")), readgroup(3, [reader(1, name=3)]), readgroup(4, [reader(1, name=4, more='numbering="none"')], SEC.format("encrypt")))
for d in [secured(1, whole(0, 1), flags=1), secured(1, whole(0, 1), flags=2), secured(1, whole(0, 1), flags=0), secured(1, whole(0, 1), mode=0, flags=0), plain(whole(0, 1)), secured(1, whole(0, 1), flags=16), secured(1, whole(0, 1), flags=7, extra=b"\0\0"), secured(1, whole(0, 1), flags=15, extra=b"\0\0"), secured(1, whole(0, 1), flags=11),
          secured(1, whole(0, 1), nonce=bytes(7)), secured(1, whole(0, 1), nonce=bytes(9)), secured(1, whole(0, 1), nonce=b""), secured(1, whole(0, 1), cut=11), secured(1, b"", cut=1), secured(1, b""), secured(1, whole(0, 1), token=3), secured(1, whole(0, 1), token=2), secured(1, whole(0, 1), a=0x12), secured(1, whole(0, 1), mode=1)]:
    for g in range(3): say(f"take {g} 0 {d}")
for g in range(3): say(f"reader {g} 0")
for number, frame in [(2000, whole(1, 2)), (2000, whole(1, 2)), (977, whole(9, 9)), (976, whole(9, 9)), (1999, change(2, (0, 3))), (1999, change(2, (0, 3))), (3024, whole(3, 4)), (2000, whole(4, 5)), (2001, whole(4, 5)), (19407, whole(2, 6)), (35791, whole(2, 7)), (35790, whole(1, 8)), (52174, alive(4)), (52175, alive(9)), (68559, alive(1)), (68560, change(1, (0, 1))), (68561, whole(2, 11)), (4294967295, whole(1, 12)), (4294967294, whole(2, 13))]:
    say("take 0 0 " + secured(number, frame)); say("reader 0 0")
    if number in (2000, 19407, 3024): say("take 3 0 " + secured(number, frame)); say("reader 3 0")
say("take 0 0 " + secured(5, whole(0, 21), token=2, a=0x44, b=0x55, n=0x66)); say("reader 0 0")
say("take 0 0 " + secured(6, whole(1, 22))); say("take 0 0 " + secured(4, whole(1, 23), token=2, a=0x44, b=0x55, n=0x66)); say("reader 0 0")
c("a datagram that has no good payload takes no number and raises no token: sizes that pass the end, no payload header")
config(ONE, K12, readgroup(1, [reader(1)], SEC.format("encrypt")))
two = b"\x02\x01\x00\x02\x00"
for d in [secured(1, whole(0, 1)), secured(2, b"\x05\x00\xff\xff" + bytes(9), ids=two), secured(2, whole(1, 2), ids=b""), secured(1, b"\x00", ids=two, token=2, a=0x44, b=0x55, n=0x66), secured(2, whole(1, 3)), secured(3, b"", ids=b"\x00"), secured(4, b"\xff" * 3), secured(3, b"", ids=b"\x00"), secured(1, whole(2, 4), ids=b"\x01\x02\x00", token=2, a=0x44, b=0x55, n=0x66)]:
    say("take 0 0 " + d); say("reader 0 0")

say()
c("payloads: parts of several writers, of one writer twice, none, sizes that pass the end, bytes behind the last part, no payload header")
TWO = dataset("two", ["x UInt32", "y UInt32"])
config(ONE, TWO, readgroup(1, [reader(1), reader(3, "two")]), readgroup(2, [reader(1, name=5)], gid=0), readgroup(3, [], gid=0))
for d in [several((1, whole(0, 5)), (2, b"\xff"), (3, whole(0, 1, 2))), several((1, whole(1, 6)), (1, whole(2, 7))), several((1, whole(3, 8)), (1, b"")), several((3, whole(1, 1)), (1, whole(4, 9)), (3, whole(2, 3, 4))),
          "7105090100000000", "7105090100000000ff", several((1, whole(5, 1)), (3, whole(3, 9, 9)))[:-2], several((1, whole(5, 1)), (3, whole(3, 9, 9))) + "ffff", several((1, whole(5, 1)), (3, whole(3, 9, 9)))[:28], "71050901000000ff" + "0100" * 254 + "0300" + "0000" * 255, "71050901000000ff" + "0100" * 254, "3105090100000009", "11051234", "710509020000000001000900000100070700000001", "5105", "51050101000900000100070700000001", "7106090100000001010009000001000707000000"]:
    for g in range(3): say(f"take {g} 0 {d}")
for g, r in ((0, 0), (0, 1), (1, 0)): say(f"reader {g} {r}")
c("what is read past: a class id, timestamp, picoseconds, promoted fields, unused group fields; what is refused")
for d in ["f168050901000000" .replace("f168", "f1a8") , "f17805" + "09010000000101" + "00", ]:
    pass
def full(ext1=0, ext2=None, gf=9, flags=0x71, promoted=b"", frame=whole(6, 61), tail=b""):
    b = bytes([flags | (0x80 if ext1 or ext2 is not None else 0)])
    e1 = ext1 | (0x80 if ext2 is not None else 0)
    if b[0] & 0x80: b += bytes([e1])
    if ext2 is not None: b += bytes([ext2])
    b += b"\x05"
    if ext1 & 8: b += bytes(range(16))
    b += bytes([gf]) + (b"\x01\x00" if gf & 1 else b"") + (b"\x09\x00\x00\x00" if gf & 2 else b"") + (b"\x01\x00" if gf & 4 else b"") + (b"\x07\x00" if gf & 8 else b"")
    b += b"\x01\x01\x00"
    if ext1 & 32: b += bytes(8)
    if ext1 & 64: b += bytes(2)
    if ext2 is not None and ext2 & 2: b += struct.pack("<H", len(promoted)) + promoted
    return (b + frame + tail).hex()
for d in [full(8), full(32, frame=whole(7, 62)), full(0x60, frame=whole(8, 63)), full(0x68, 2, promoted=b"abc", frame=whole(9, 64)), full(0, 2, frame=whole(10, 65)), full(0, 0, frame=whole(11, 66)), full(gf=0x0f, frame=whole(12, 67)), full(gf=1, frame=whole(13, 68)), full(gf=0, frame=whole(14, 69)), full(gf=0x19), full(5), full(7), full(0, 4), full(0, 8), full(0, 12), full(0, 0x20), full(0, 0x24), full(0, 1), full(4), full(flags=0x72), full(flags=0x70), "b1800105", "3180", "31", "-", "00*65536"]:
    say("take 0 0 " + d); say("take 1 0 " + d)
say("reader 0 0"); say("reader 1 0")
c("a text of the publisher that is no text")
for d in ["9104feffffff", "9104ffffffff", "910401000000ff", "91040100000041", "910402000000e9", "9104ffffff7f"]: say("take 0 0 " + d)
c("frames: what a front may carry, longer rows of a later minor version, another major version, statuses, what is bad")
def fr(*bs): return plain(b"".join(bs))
config(dataset("demo", ["a UInt32", "s String 3"], "major=2\\nminor=5"), readgroup(1, [reader(1)]))
S = lambda t: b"\x0c" + struct.pack("<i", len(t)) + t
U = lambda v: b"\x07" + struct.pack("<I", v)
H = struct.pack
rows = [(b"\x09", H("<HH", 0, 2), U(1), S(b"abc")), (b"\xf9\x30", H("<H", 1), bytes(8), bytes(2), H("<HII", 7, 2, 5), H("<H", 2), U(2), S(b"")), (b"\x69", H("<HII", 2, 2, 6), H("<H", 3), U(3), S(b"x"), b"\x01\x01"), (b"\x69", H("<HII", 3, 2, 5), H("<H", 3), U(4), S(b"x"), b"\x01\x01"),
        (b"\x69", H("<HII", 3, 2, 6), H("<H", 3), U(4), S(b"x"), b"\x0c\x01\x01\x00\x00"), (b"\x69", H("<HII", 3, 2, 6), H("<H", 1), U(4)), (b"\x29", H("<HI", 3, 3), H("<H", 2), U(5), S(b"z")), (b"\x49", H("<HI", 3, 6), H("<H", 3), U(6), S(b"y"), b"\x01\x00"), (b"\xc9\x01", H("<HI", 4, 6), H("<H", 2), H("<H", 9), b"\x0b" + bytes(8), H("<H", 0), U(7)),
        (b"\x89\x01", H("<H", 5), H("<H", 1), H("<H", 2), U(1)), (b"\x89\x01", H("<H", 5), H("<H", 2), H("<H", 0), U(8), H("<H", 0), U(9)), (b"\x89\x01", H("<H", 6), H("<H", 0)), (b"\x8d\x01", H("<H", 7), H("<H", 1), H("<H", 0), b"\x03", U(10), H("<I", 0x80000000)), (b"\x8d\x01", H("<H", 8), H("<H", 1), H("<H", 0), b"\x3f", U(11), bytes(4 + 8 + 2 + 8 + 2)),
        (b"\x8d\x01", H("<H", 9), H("<H", 1), H("<H", 0), b"\x02", bytes(4)), (b"\x8d\x01", H("<H", 9), H("<H", 1), H("<H", 0), b"\x41", U(1)), (b"\x89\x01", H("<H", 9), H("<H", 1), H("<H", 1), S(b"abcd")), (b"\x89\x01", H("<H", 9), H("<H", 1), H("<H", 1), S(b"\xff")), (b"\x89\x01", H("<H", 9), H("<H", 1), H("<H", 1), b"\x0c\xff\xff\xff\xff"), (b"\x89\x01", H("<H", 10), H("<H", 1), H("<H", 1), b"\x0c\xfe\xff\xff\xff"),
        (b"\x89\x01", H("<H", 10), H("<H", 1), H("<H", 0), b"\x06", bytes(4)), (b"\x89\x01", H("<H", 10), H("<H", 1), H("<H", 0), b"\x00"), (b"\x89\x01", H("<H", 10), H("<H", 1), H("<H", 0), b"\x47", bytes(4)), (b"\x08", H("<HH", 10, 0)), (b"\x0b", H("<HH", 10, 0)), (b"\x0f", H("<HH", 10, 0)), (b"\x89\x02", H("<H", 10)), (b"\x89\x04", H("<H", 10)), (b"\x89\x41", H("<H", 10)), (b"\x89\x80", H("<H", 10)), (b"\x89\x42", H("<H", 10)),
        (b"\x81\x03",), (b"\x01", H("<H", 2), U(9), S(b"q")), (b"\x89\x03", H("<H", 10)), (b"\x8d\x03", H("<H", 10)), (b"\x8b\x03", H("<H", 10)), (b"\x89\x03", H("<H", 12)), (b"\x89\x01", H("<HH", 12, 1), H("<H", 0), U(12)), (b"\x09", H("<HH", 12, 2), U(13), S(b"w")), (b"\x09", H("<HH", 13, 2), U(13), S("é".encode())), ()]
for r in rows: say("take 0 0 " + fr(*r)); say("reader 0 0")

say()
c("timers: a reader is cut once so long nothing came but older messages, keep-alives and messages without a row feed it")
config(ONE, group(1, [writer(1, more="key_frame_count=10,keep_alive=1000")]), readgroup(1, [reader(1, more="timeout=250"), reader(2, more="timeout=100,numbering=\"none\""), reader(3)]))
def t(now, frame, wid=1): say(f"take 0 {now} " + plain(frame, wid=wid))
say("expire 0 5000"); say("reader 0 0")
t(5000, whole(5, 1)); say("expire 0 5249"); say("reader 0 0")
c("older")
t(5200, whole(5, 1)); t(5210, whole(4, 1)); t(5220, change(3, (0, 2))); say("reader 0 0")
say("expire 0 5250"); say("reader 0 0"); say("expire 0 9000"); say("reader 0 0")
c("what came before is held again, since the numbers are forgotten; the flag goes with the next message that is no older one")
t(9000, b"\xff"); say("reader 0 0"); t(9000, b"\x29" + struct.pack("<HIH", 9, 7, 1) + b"\x07" + bytes(4)); say("reader 0 0"); t(9000, b"\x01\x01\x00\x07" + bytes(4)); say("reader 0 0")
t(9000, whole(4, 4)); say("reader 0 0")
c("a keep-alive in order, an older one, one that tells of a loss, and a delta frame while it waits")
t(9200, alive(5)); say("expire 0 9449"); say("reader 0 0"); say("expire 0 9450"); say("reader 0 0")
t(9500, whole(6, 6)); t(9600, alive(6)); say("expire 0 9849"); say("reader 0 0"); t(9849, alive(9)); say("reader 0 0"); t(10000, change(9, (0, 9))); say("reader 0 0"); say("expire 0 10249"); say("reader 0 0"); say("expire 0 10250"); say("reader 0 0")
t(10300, alive(9)); say("reader 0 0"); t(10300, change(9, (0, 1))); say("reader 0 0"); t(10300, change(11, (0, 1))); say("reader 0 0"); t(10300, whole(13, 1)); say("reader 0 0"); t(10400, change(14, (0, 2))); say("reader 0 0"); say("expire 0 10649"); say("reader 0 0"); say("expire 0 10650"); say("reader 0 0")
c("a cut by hand: no longer ready, the timer forgotten, and a late one stays late until a message comes")
say("cut 0 0 restarted"); say("reader 0 0"); t(10700, whole(1, 1)); say("reader 0 0"); say("cut 0 0 restarted"); say("reader 0 0"); say("expire 0 20000"); say("reader 0 0"); t(20000, change(2, (0, 1))); say("reader 0 0"); say("expire 0 20250"); say("reader 0 0")
c("without numbers key frames and keep-alives feed the timer, delta frames don't; without a timeout nothing runs out; a disabled reader's timer runs out too")
t(20300, whole(1, 1), 2); t(20350, change(2, (0, 1)), 2); say("expire 0 20399"); say("reader 0 1"); t(20399, alive(2), 2); say("expire 0 20498"); say("reader 0 1"); say("expire 0 20499"); say("reader 0 1"); t(20500, alive(2), 2); say("reader 0 1"); t(20500, whole(1, 4), 2); say("reader 0 1"); say("on 0 001"); say("take 0 20550 " + several((1, whole(5, 5)), (2, whole(6, 6)), (3, whole(7, 7)))); say("expire 0 20600"); say("reader 0 1"); say("reader 0 2"); say("expire 0 9007199254740992"); say("reader 0 2")
c("a timeout forgets chunks")
config(ONE, readgroup(1, [reader(1, more="timeout=250")]))
f2, f3 = whole(2, 20), whole(3, 30)
t(0, whole(1, 1)); say("take 0 100 " + chunk(2, 0, 10, f2[:4])); say("expire 0 250"); say("reader 0 0"); say("take 0 250 " + chunk(2, 4, 10, f2[4:])); say("reader 0 0"); say("take 0 250 " + chunk(2, 0, 10, f2[:4])); say("reader 0 0")
c("a chunk doesn't feed the timer, but the message does")
say("take 0 400 " + chunk(3, 0, 10, f3[:4])); say("expire 0 499"); say("take 0 499 " + chunk(3, 4, 10, f3[4:])); say("expire 0 748"); say("reader 0 0"); say("expire 0 749"); say("reader 0 0")
c("numbers: newer by less than 16,384, else older; the count of breaks, and the last eight")
config(ONE, readgroup(1, [reader(1)]))
for n in [65535, 0, 16384, 16385, 32768, 49152, 32768, 49151, 65534, 16381, 16382, 65535, 0, 16383, 16384, 16386, 16388, 16390, 16392, 16394, 16396, 16398, 16400, 16402]:
    say(f"take 0 0 {plain(whole(n, n))}"); say("reader 0 0")

# what other software sends by the standard's tables, and what it is sent (docs/WIRE.md): spelled by hand, not by an encoder of ours
OTHER_SOFTWARE = r"""
# another publisher by the standard's tables: a DateTime, each message with a time stamp and the version of the data set, without a number
with publisher={id="u16:1"}\n[[dataset]]\nname="clock"\nmajor=3\nminor=1\nfield=[{name="now",kind="DateTime"}]\n[[readgroup]]\nname="server"\npublisher="u16:2234"\ngroup=100\nreader=[{name="server_time",writer=62541,dataset="clock",numbering="none",timeout=1000}]
reader 0 0
take 0 0 f1 01 ba 08 01 64 00 01 4d f4 e1 10 00 80 3e d5 de b1 9d 01 03 00 00 00 01 00 00 00 01 00 0d 00 80 3e d5 de b1 9d 01
reader 0 0
# without either
take 0 50 f1 01 ba 08 01 64 00 01 4d f4 01 01 00 0d 06 80 3e d5 de b1 9d 01
reader 0 0
# another major version is passed over, and the timeout doesn't begin anew
take 0 100 f1 01 ba 08 01 64 00 01 4d f4 e1 10 00 80 3e d5 de b1 9d 01 04 00 00 00 01 00 00 00 01 00 0d 01 80 3e d5 de b1 9d 01
reader 0 0
expire 0 1050
reader 0 0
# a greater minor version with a field more, and the same one
take 0 1100 f1 01 ba 08 01 64 00 01 4d f4 e1 10 00 80 3e d5 de b1 9d 01 03 00 00 00 02 00 00 00 02 00 0d 02 80 3e d5 de b1 9d 01 07 05 00 00 00
reader 0 0
take 0 1100 f1 01 ba 08 01 64 00 01 4d f4 e1 10 00 80 3e d5 de b1 9d 01 03 00 00 00 01 00 00 00 02 00 0d 02 80 3e d5 de b1 9d 01 07 05 00 00 00
reader 0 0
# a delta frame is passed over, and the timeout doesn't begin anew
take 0 1200 f1 01 ba 08 01 64 00 01 4d f4 e1 11 00 80 3e d5 de b1 9d 01 03 00 00 00 01 00 00 00 01 00 00 00 0d 03 80 3e d5 de b1 9d 01
reader 0 0
expire 0 2100
reader 0 0
# a keep-alive begins it anew
take 0 2200 f1 01 ba 08 01 64 00 01 4d f4 e1 10 00 80 3e d5 de b1 9d 01 03 00 00 00 01 00 00 00 01 00 0d 00 80 3e d5 de b1 9d 01
take 0 3000 f1 01 ba 08 01 64 00 01 4d f4 e1 13 00 80 3e d5 de b1 9d 01 03 00 00 00 01 00 00 00
expire 0 3900
reader 0 0
# a DataValue with its source time
take 0 3950 f1 01 ba 08 01 64 00 01 4d f4 e5 10 00 80 3e d5 de b1 9d 01 03 00 00 00 01 00 00 00 01 00 05 0d 04 80 3e d5 de b1 9d 01 00 80 3e d5 de b1 9d 01
reader 0 0
# RawData behind a payload header, an array, a null value, a value of another kind: bad parts
take 0 4000 f1 01 ba 08 01 64 00 01 4d f4 e3 10 00 80 3e d5 de b1 9d 01 03 00 00 00 01 00 00 00 05 80 3e d5 de b1 9d 01
take 0 4000 f1 01 ba 08 01 64 00 01 4d f4 01 01 00 8d 01 00 00 00 06 80 3e d5 de b1 9d 01
take 0 4000 f1 01 ba 08 01 64 00 01 4d f4 01 01 00 00
take 0 4000 f1 01 ba 08 01 64 00 01 4d f4 01 01 00 08 06 80 3e d5 de b1 9d 01
reader 0 0
# two writers in one datagram
take 0 4100 f1 01 ba 08 01 64 00 02 4d f4 4e f4 0c 00 0c 00 01 01 00 0d 07 80 3e d5 de b1 9d 01 01 01 00 0d 08 80 3e d5 de b1 9d 01
reader 0 0
# without a payload header, of another group, without a group header, of another type of id, discovery
take 0 4200 b1 01 ba 08 01 64 00 01 01 00 0d 06 80 3e d5 de b1 9d 01
take 0 4200 f1 01 ba 08 01 65 00 01 4d f4 01 01 00 0d 06 80 3e d5 de b1 9d 01
take 0 4200 d1 01 ba 08 01 4d f4 01 01 00 0d 06 80 3e d5 de b1 9d 01
take 0 4200 f1 02 ba 08 00 00 01 64 00 01 4d f4 01 01 00 0d 06 80 3e d5 de b1 9d 01
take 0 4200 81 80 04
reader 0 0
# any group: without a group header too
with publisher={id="u16:1"}\n[[dataset]]\nname="clock"\nmajor=3\nminor=1\nfield=[{name="now",kind="DateTime"}]\n[[readgroup]]\nname="server"\npublisher="u16:2234"\ngroup=0\nreader=[{name="server_time",writer=62541,dataset="clock",numbering="none",timeout=1000}]
take 0 0 d1 01 ba 08 01 4d f4 01 01 00 0d 06 80 3e d5 de b1 9d 01
reader 0 0
# a fixed layout without a payload header: 2.0 and true; with a time stamp in the header the slot is eight bytes later
with publisher={id="u16:1"}\n[[dataset]]\nname="drive"\nfield=[{name="speed",kind="Float"},{name="running",kind="Boolean"}]\n[[readgroup]]\nname="server"\npublisher="u16:2234"\ngroup=100\nversion=7\nlayout="fixed"\nreader=[{name="drive_reader",writer=2,dataset="drive",offset=15,size=8}]
take 0 0 b1 01 ba 08 0f 64 00 07 00 00 00 01 00 05 00 0b 09 00 00 00 00 40 01
reader 0 0
take 0 0 b1 21 ba 08 0f 64 00 07 00 00 00 01 00 05 00 00 80 3e d5 de b1 9d 01 0b 09 00 00 00 00 40 01
reader 0 0
# what another subscriber is sent: a key frame, a delta frame, a keep-alive, with versions and without the group's number
with publisher={id="u16:1"}\n[[dataset]]\nname="clock"\nmajor=3\nminor=1\nfield=[{name="now",kind="DateTime"}]\n[[group]]\nname="g1"\nid=100\ninterval=100\nsequence=false\nwriter=[{name="w1",id=62541,dataset="clock",key_frame_count=3,keep_alive=100,versions=true}]
write 0 0:132000000000000000
turn 0 100 1
write 0 0:132000000000000001
turn 0 200 1
turn 0 300 1
"""
out.extend(OTHER_SOFTWARE.strip("\n").splitlines())
say()
c("ten rings are pulled one after another, by the publisher and a little later by the subscriber, of a service with a key for each second")
def served(token): return key(token, (token - 1) * 1000, f"{0x40 + token:02x}", f"{0x60 + token:02x}", f"{0x80 + token:02x}")
RINGS = [keygroup("k1", [served(1)]), keygroup("k2", [served(t) for t in range(1, 13)]), keygroup("k3", [key(12, 0), key(13, 1000)])]
config(ONE, *RINGS, group(1, [writer(1)], SEC.format("encrypt")), readgroup(1, [reader(1)], SEC.format("encrypt")))
made = 0
def turned(now, value):
    global made
    say(f"write 0 0:{value}"); say(f"turn 0 {now} 1"); made += 1
    return made - 1
for i in range(10):
    now = 1000 * i + 500
    say(f"pull 0 1 2 {now}")
    if i == 0: say(f"follow 0 1 2 {now}")
    say(f"moment {now}")
    first = turned(now, 10 * i + 1)
    say(f"take 0 {now} #{first}"); say("reader 0 0")
    late = turned(now + 400, 10 * i + 2)
    say(f"moment {now + 500}")
    new = turned(now + 500, 10 * i + 3)
    say(f"take 0 {now + 500} #{new}"); say("reader 0 0")
    say(f"take 0 {now + 510} #{late}"); say(f"take 0 {now + 520} #{new}")
    say(f"follow 0 1 2 {now + 600}")
    say(f"take 0 {now + 610} #{late}"); say(f"take 0 {now + 620} #{new}"); say("reader 0 0")
c("a ring without the token in use: it is used until the next one has come, by a guard that knows it still")
say("pull 0 1 1 11500"); gone = turned(11600, 120); say(f"take 0 11600 #{gone}"); say("moment 11600"); come = turned(11700, 121)
say(f"take 0 11700 #{come}"); say("follow 0 1 1 11700"); say(f"take 0 11700 #{come}"); say(f"take 0 11700 #{gone}"); say("reader 0 0")
c("a ring of lower tokens alone changes nothing that is sent")
say("pull 0 1 2 500"); say("moment 12000"); low = turned(12000, 122); say(f"take 0 12000 #{low}"); say("reader 0 0"); say("pull 0 1 1 11500"); say("pull 0 1 1 11500")
c("a guard with other keys under the token, and then with those of the sender again: what it took stays taken")
last = turned(12100, 123); say("follow 0 2 2 0"); say(f"take 0 12100 #{last}"); say("reader 0 0")
say("follow 0 1 12 0"); say(f"take 0 12100 #{low}"); say(f"take 0 12200 #{last}"); say(f"take 0 12200 #{last}"); say("reader 0 0"); say("pull 0 2 2 0")

print("\n".join(out))
