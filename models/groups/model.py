#!/usr/bin/env python3
"""An independent model of groups of writers and read groups, made from OPC 10000-14, OPC 10000-6, FIPS 197, RFC 2104 and the
documents of docs/, without a look at the crates.

usage: model.py < crates/cases_group/stdin     (prints what crates/cases_group/stdout has to be)"""
import copy, hashlib, hmac, struct, sys, tomllib, uuid

# ---------------------------------------------------------------- AES (FIPS 197), encryption alone

def _gmul(a, b):
    r = 0
    while b:
        if b & 1: r ^= a
        a <<= 1
        if a & 0x100: a ^= 0x11b
        b >>= 1
    return r

def _sbox():
    box = []
    for b in range(256):
        inv = next((x for x in range(256) if _gmul(b, x) == 1), 0)
        r = 0
        for i in range(8):
            bit = (inv >> i ^ inv >> (i + 4) % 8 ^ inv >> (i + 5) % 8 ^ inv >> (i + 6) % 8 ^ inv >> (i + 7) % 8) & 1
            r |= (bit ^ (0x63 >> i & 1)) << i
        box.append(r)
    return box

SBOX = _sbox()
M2 = [_gmul(x, 2) for x in range(256)]
M3 = [_gmul(x, 3) for x in range(256)]

def expand(key):
    nk = len(key) // 4
    rounds = nk + 6
    w = [list(key[4*i:4*i+4]) for i in range(nk)]
    rcon = 1
    for i in range(nk, 4 * (rounds + 1)):
        t = list(w[i-1])
        if i % nk == 0:
            t = [SBOX[x] for x in t[1:] + t[:1]]
            t[0] ^= rcon
            rcon = _gmul(rcon, 2)
        elif nk > 6 and i % nk == 4:
            t = [SBOX[x] for x in t]
        w.append([a ^ b for a, b in zip(w[i-nk], t)])
    return [sum(w[4*r:4*r+4], []) for r in range(rounds + 1)]

def aes(key, block):
    ks = expand(key)
    s = [a ^ b for a, b in zip(block, ks[0])]
    for r in range(1, len(ks)):
        s = [SBOX[x] for x in s]
        s = [s[(4 * (i // 4 + i % 4) + i % 4) % 16] for i in range(16)]
        if r != len(ks) - 1:
            t = []
            for c in range(4):
                a = s[4*c:4*c+4]
                t += [M2[a[0]]^M3[a[1]]^a[2]^a[3], a[0]^M2[a[1]]^M3[a[2]]^a[3],
                      a[0]^a[1]^M2[a[2]]^M3[a[3]], M3[a[0]]^a[1]^a[2]^M2[a[3]]]
            s = t
        s = [a ^ b for a, b in zip(s, ks[r])]
    return bytes(s)

assert aes(bytes(range(16)), bytes.fromhex("00112233445566778899aabbccddeeff")).hex() == "69c4e0d86a7b0430d8cdb78070b4c55a"
assert aes(bytes(range(32)), bytes.fromhex("00112233445566778899aabbccddeeff")).hex() == "8ea2b7ca516745bfeafc49904b496089"

def stream(key, nonce, message_nonce, first_block, n):
    out = b""
    for i in range((n + 15) // 16):
        out += aes(key, nonce + message_nonce + struct.pack(">I", (first_block + i) % 2**32))
    return out[:n]

def mac(key, data):
    return hmac.new(key, data, hashlib.sha256).digest()

# ---------------------------------------------------------------- values (OPC 10000-6)

TYPES = dict(Boolean=1, SByte=2, Byte=3, Int16=4, UInt16=5, Int32=6, UInt32=7, Int64=8, UInt64=9, Float=10, Double=11,
             String=12, DateTime=13, Guid=14, ByteString=15, StatusCode=19)
KINDS = {v: k for k, v in TYPES.items()}
SIMPLE = dict(SByte="<b", Byte="<B", Int16="<h", UInt16="<H", Int32="<i", UInt32="<I", Int64="<q", UInt64="<Q",
              Float="<I", Double="<Q", DateTime="<q", StatusCode="<I")

class Bad(Exception):
    """the bytes are no frame"""

class In:
    def __init__(self, data, at=0):
        self.data, self.at = bytes(data), at
    def take(self, n):
        if n < 0 or self.at + n > len(self.data):
            raise Bad("Short")
        piece = self.data[self.at:self.at+n]
        self.at += n
        return piece
    def num(self, form):
        return struct.unpack(form, self.take(struct.calcsize(form)))[0]

def default(kind):
    if kind == "Boolean": return False
    if kind in ("String", "ByteString"): return b""
    if kind == "Guid": return bytes(16)
    return 0

def write_value(kind, value):
    if kind == "Boolean": return b"\x01" if value else b"\x00"
    if kind in ("String", "ByteString"): return struct.pack("<i", len(value)) + value
    if kind == "Guid": return value
    return struct.pack(SIMPLE[kind], value)

def read_value(kind, data):
    if kind == "Boolean": return data.num("<B") != 0
    if kind == "Guid": return data.take(16)
    if kind in ("String", "ByteString"):
        n = data.num("<i")
        if n == -1: return b""
        if n < -1 or n > 256: raise Bad("BadLength")
        value = data.take(n)
        if kind == "String": utf8(value)
        return value
    return data.num(SIMPLE[kind])

def utf8(value):
    try:
        value.decode("utf-8")
    except UnicodeDecodeError:
        raise Bad("BadUtf8")

def read_variant(data):
    kind = KINDS.get(data.num("<B"))
    if kind is None: raise Bad("KindOut")
    return kind, read_value(kind, data)

def read_data_value(data):
    mask = data.num("<B")
    if mask & 0xc0: raise Bad("KindOut")
    value = read_variant(data) if mask & 1 else None
    status = data.num("<I") if mask & 2 else 0
    if mask & 4: data.take(8)
    if mask & 16: data.take(2)
    if mask & 8: data.take(8)
    if mask & 32: data.take(2)
    if value is None: raise Bad("BadValue")
    return value, status

def fit(field, kind, value):
    if kind != field["kind"]: raise Bad("BadValue")
    if kind in ("String", "ByteString") and len(value) > field["cap"]: raise Bad("BadValue")

def value_text(kind, value):
    if kind == "Boolean": return "true" if value else "false"
    if kind in ("Float", "StatusCode"): return f"0x{value:08x}"
    if kind == "Double": return f"0x{value:016x}"
    if kind == "Guid": return str(uuid.UUID(bytes_le=value))
    if kind == "ByteString": return "0x" + value.hex()
    if kind == "String": return "".join(chr(b) if 0x21 <= b <= 0x7e and b != 0x25 else f"%{b:02X}" for b in value)
    return str(value)

def parse_text(kind, word):
    if kind == "Boolean": return word == "true"
    if kind in ("Float", "StatusCode", "Double"): return int(word, 16)
    if kind == "Guid": return uuid.UUID(word).bytes_le
    if kind == "ByteString": return bytes.fromhex(word[2:])
    if kind == "String":
        out, i = b"", 0
        while i < len(word):
            if word[i] == "%":
                out += bytes([int(word[i+1:i+3], 16)]); i += 3
            else:
                out += word[i].encode(); i += 1
        return out
    return int(word)

# ---------------------------------------------------------------- configuration

def publisher_of(text):
    kind, _, rest = text.partition(":")
    return (kind, rest.encode() if kind == "text" else int(rest))

def class_of(table):
    return uuid.UUID(table["class_id"]).bytes_le if "class_id" in table else None

class Config:
    def __init__(self, text):
        d = tomllib.loads(text)
        self.publisher = publisher_of(d["publisher"]["id"])
        self.sets = []
        for s in d.get("dataset", []):
            self.sets.append(dict(name=s["name"], major=s.get("major", 1), minor=s.get("minor", 0), quality=s.get("quality", False),
                                  fields=[dict(kind=f["kind"], cap=f.get("cap", 0)) for f in s["field"]]))
        index = {s["name"]: i for i, s in enumerate(self.sets)}
        self.keys = []
        for k in d.get("keygroup", []):
            ring = [dict(token=e["token"], start=e["from"], signing=bytes.fromhex(e["signing"]),
                         encrypting=bytes.fromhex(e["encrypting"]), nonce=bytes.fromhex(e["nonce"])) for e in k["key"]]
            self.keys.append(dict(name=k["name"], random=bytes.fromhex(k["random"]), first_block=k.get("first_block", 1), used=k.get("used", 0), ring=ring))
        keyed = {k["name"]: i for i, k in enumerate(self.keys)}
        def common(g):
            return dict(layout=g.get("layout", "dynamic"), security=g.get("security", "none"),
                        keygroup=keyed[g["keygroup"]] if "keygroup" in g else None, class_id=class_of(g))
        self.groups = []
        for g in d.get("group", []):
            w = [dict(id=x["id"], set=index[x["dataset"]], kfc=x.get("key_frame_count", 1), keep=x.get("keep_alive", 0),
                      first=x.get("first_number", 0), versions=x.get("versions", False), offset=x.get("offset", 0), size=x.get("size", 0))
                 for x in g.get("writer", [])]
            self.groups.append(dict(common(g), id=g["id"], interval=g["interval"], max_size=g.get("max_size", 1400), version=g.get("version", 0),
                                    sequence=g.get("sequence", True), message_number=g.get("message_number", False), writers=w))
        self.readgroups = []
        for g in d.get("readgroup", []):
            r = [dict(writer=x["writer"], set=index[x["dataset"]], timeout=x.get("timeout", 0), numbering=x.get("numbering", "message"),
                      offset=x.get("offset", 0), size=x.get("size", 0)) for x in g.get("reader", [])]
            self.readgroups.append(dict(common(g), publisher=publisher_of(g["publisher"]), group=g.get("group", 0), version=g.get("version", 0), readers=r))

# ---------------------------------------------------------------- headers

PUB = [("u8", "<B"), ("u16", "<H"), ("u32", "<I"), ("u64", "<Q")]

def write_header(pub, class_id, group, version, message_number, sequence, ids, chunk, security):
    """ids: None, or a list; chunk: the writer's id or None; security: None or (signed, encrypted, token, nonce)"""
    kinds = [k for k, _ in PUB] + ["text"]
    kind = kinds.index(pub[0])
    flags = 1 | 0x10 | 0x20
    if ids is not None or chunk is not None: flags |= 0x40
    ext1 = kind | (8 if class_id is not None else 0) | (16 if security is not None else 0) | (128 if chunk is not None else 0)
    if ext1: flags |= 0x80
    out = bytes([flags])
    if ext1: out += bytes([ext1])
    if chunk is not None: out += b"\x01"
    if pub[0] == "text": out += struct.pack("<i", len(pub[1])) + pub[1]
    else: out += struct.pack(PUB[kind][1], pub[1])
    if class_id is not None: out += class_id
    gf = 1 | (2 if version else 0) | (4 if message_number is not None else 0) | (8 if sequence is not None else 0)
    out += bytes([gf]) + struct.pack("<H", group)
    if version: out += struct.pack("<I", version)
    if message_number is not None: out += struct.pack("<H", message_number)
    if sequence is not None: out += struct.pack("<H", sequence)
    if chunk is not None: out += struct.pack("<H", chunk)
    elif ids is not None: out += bytes([len(ids)]) + b"".join(struct.pack("<H", i) for i in ids)
    if security is not None:
        signed, encrypted, token, nonce = security
        out += bytes([(1 if signed else 0) | (2 if encrypted else 0)]) + struct.pack("<I", token) + bytes([len(nonce)]) + nonce
    return out

class Refused(Exception):
    pass

def read_header(data):
    c = In(data)
    def no(why): raise Refused(f"Header({why})")
    try:
        flags = c.num("<B")
        if flags & 15 != 1: no(f"Version {{ got: {flags & 15} }}")
        ext1 = c.num("<B") if flags & 0x80 else 0
        if ext1 & 7 > 4: no("BadPublisherType")
        ext2 = c.num("<B") if ext1 & 0x80 else 0
        kind = ext2 >> 2 & 7
        if kind in (1, 2): no("DiscoveryOut")
        if kind > 2 or ext2 & 0xe0: no("ReservedBits")
        is_chunk = ext2 & 1
        if is_chunk and not flags & 0x40: no("ReservedBits")
        h = dict(publisher=None, class_id=None, group=None, version=None, message_number=None, sequence=None, ids=None, chunk=None, security=None)
        if flags & 0x10:
            t = ext1 & 7
            if t == 4:
                n = c.num("<i")
                if n < -1: no("BadId")
                text = c.take(max(n, 0))
                try: text.decode("utf-8")
                except UnicodeDecodeError: no("BadId")
                h["publisher"] = ("text", text)
            else:
                h["publisher"] = (PUB[t][0], c.num(PUB[t][1]))
        if ext1 & 8: h["class_id"] = c.take(16)
        if flags & 0x20:
            gf = c.num("<B")
            if gf & 0xf0: no("ReservedBits")
            if gf & 1: h["group"] = c.num("<H")
            if gf & 2: h["version"] = c.num("<I")
            if gf & 4: h["message_number"] = c.num("<H")
            if gf & 8: h["sequence"] = c.num("<H")
        if flags & 0x40:
            if is_chunk: h["chunk"] = c.num("<H")
            else:
                n = c.num("<B")
                h["ids"] = [c.num("<H") for _ in range(n)]
        if ext1 & 0x20: c.take(8)
        if ext1 & 0x40: c.take(2)
        if ext2 & 2: c.take(c.num("<H"))
        if ext1 & 0x10:
            sf = c.num("<B")
            if sf & 0xf0: no("ReservedBits")
            token = c.num("<I")
            nonce = c.take(c.num("<B"))
            if sf & 4: c.take(2)
            h["security"] = dict(signed=bool(sf & 1), encrypted=bool(sf & 2), footer=bool(sf & 4), reset=bool(sf & 8), token=token, nonce=nonce)
        return h, c.at
    except Bad:
        no("Short")

# ---------------------------------------------------------------- frames

def write_field(meta, field, value, status):
    v = bytes([TYPES[field["kind"]]]) + write_value(field["kind"], value)
    if not meta["quality"]: return v
    return (b"\x03" + v + struct.pack("<I", status)) if status else b"\x01" + v

def write_front(meta, kind, encoding, number, versions):
    f1 = 1 | encoding << 1 | 8 | (0x60 if versions else 0) | (0x80 if kind else 0)
    out = bytes([f1]) + (bytes([kind]) if kind else b"") + struct.pack("<H", number)
    if versions: out += struct.pack("<II", meta["major"], meta["minor"])
    return out

def write_frame(meta, frame, versions):
    """frame: (kind, wire number, content)"""
    kind, number, content = frame
    enc = 2 if meta["quality"] else 0
    if kind == "Alive": return write_front(meta, 3, 0, number, versions)
    if kind == "Whole":
        out = write_front(meta, 0, enc, number, versions) + struct.pack("<H", len(content))
        return out + b"".join(write_field(meta, f, v, s) for f, (v, s) in zip(meta["fields"], content))
    out = write_front(meta, 1, enc, number, versions) + struct.pack("<H", len(content))
    return out + b"".join(struct.pack("<H", i) + write_field(meta, meta["fields"][i], v, s) for i, v, s in content)

def write_raw(meta, number, row, versions):
    out = write_front(meta, 0, 1, number, versions)
    for f, (v, _) in zip(meta["fields"], row):
        out += write_value(f["kind"], v)
        if f["kind"] in ("String", "ByteString"): out += bytes(f["cap"] - len(v))
    return out

def read_front(c, fixed):
    f1 = c.num("<B")
    if not f1 & 1: raise Bad("NotValid")
    enc = f1 >> 1 & 3
    if enc == 3 or enc == 1 and not fixed: raise Bad("BadEncoding")
    f2 = c.num("<B") if f1 & 0x80 else 0
    kind = f2 & 15
    if kind == 1 and enc == 1: raise Bad("BadEncoding")
    if kind == 2: raise Bad("EventOut")
    if kind > 3 or f2 & 0xc0: raise Bad("ReservedBits")
    number = c.num("<H") if f1 & 8 else None
    if f2 & 16: c.take(8)
    if f2 & 32: c.take(2)
    if f1 & 16: c.take(2)
    major = c.num("<I") if f1 & 32 else None
    minor = c.num("<I") if f1 & 64 else None
    return enc, kind, number, major, minor

def read_field(meta, c, enc, index):
    if enc == 2: (kind, value), status = read_data_value(c)
    else: (kind, value), status = read_variant(c), 0
    if index < len(meta["fields"]): fit(meta["fields"][index], kind, value)
    return value, status if meta["quality"] else 0

def read_frame(meta, data, fixed=False):
    """(kind, number, major, minor, content)"""
    c = In(data)
    enc, kind, number, major, minor = read_front(c, fixed)
    n = len(meta["fields"])
    longer = minor is not None and minor > meta["minor"]
    content = None
    if kind == 3: name = "Alive"
    elif kind == 0 and enc == 1:
        name, content = "Whole", []
        for f in meta["fields"]:
            if f["kind"] in ("String", "ByteString"):
                k = c.num("<i")
                if k > f["cap"] or k < -1: raise Bad("BadValue")
                room = c.take(f["cap"])
                v = room[:max(k, 0)]
                if f["kind"] == "String": utf8(v)
            else: v = read_value(f["kind"], c)
            content.append((v, 0))
    elif kind == 0:
        count = c.num("<H")
        if count < n or count > n and not longer: raise Bad("WrongCount")
        name, content = "Whole", [read_field(meta, c, enc, i) for i in range(count)][:n]
    else:
        name, patch = "Change", {}
        for _ in range(c.num("<H")):
            index = c.num("<H")
            if index >= n and not longer: raise Bad("BadIndex")
            value = read_field(meta, c, enc, index)
            if index < n: patch[index] = value
        content = patch
    if any(c.data[c.at:]): raise Bad("Trailing")
    return name, number, major, minor, content

# ---------------------------------------------------------------- writers

class Writer:
    def __init__(self, part):
        self.part, self.turns, self.fresh = part, [], True
        self.log = []
    def turn(self, now, row, version, closing):
        """looks back over the whole list of turns; a turn is (moment, row, answer)"""
        i = len(self.turns)
        whole = max((k for k, t in enumerate(self.turns) if t[2] == "Whole"), default=None)
        data = [t for t in self.turns if t[2] in ("Whole", "Change")]
        framed = [t for t in self.turns if t[2]]
        place = self.part["first"] + len(data)
        frame = None
        if self.fresh or closing or i - whole >= self.part["kfc"]: frame = ("Whole", place, list(row))
        elif data[-1][1] != row:
            frame = ("Change", place, [(k, v, s) for k, ((v, s), old) in enumerate(zip(row, data[-1][1])) if (v, s) != old])
        elif self.part["keep"] and now - framed[-1][0] >= self.part["keep"]: frame = ("Alive", place, None)
        self.turns.append((now, list(row), frame[0] if frame else None))
        # a refresh before this turn was answered by the Whole
        self.fresh = False
        if frame and frame[0] != "Alive": self.log.append((place, version))
        return frame

def same_key(a, b):
    return all(a[x] == b[x] for x in ("token", "signing", "encrypting", "nonce"))

def pulled(ring, count, now):
    """The ring of a puller whose clock stands at now, of what a service of this ring answers it then to start 0 (OPC 10000-14 8.3.2):
    the current key and those behind it, count in all and at least one; the first one stands from 0."""
    lifetime = ring[1]["start"] - ring[0]["start"]
    current = max(i for i, k in enumerate(ring) if k["start"] <= now)
    left = max(ring[current]["start"] + lifetime - now, 0)
    keys = ring[current:current + max(count, 1)]
    return [dict(k, start=now + left + (i - 1) * lifetime if i else 0) for i, k in enumerate(keys)]

class Sender:
    def __init__(self, part):
        self.part, self.used, self.now = part, part["used"], 0
        self.ring = part["ring"]
        self.keys = self.ring[0]        # those in use: they stay where a ring lacks them
    def keyset(self):
        return self.keys
    @property
    def token(self):
        return self.keys["token"]
    def turn_to(self, now):
        key = [k for k in self.ring if k["start"] <= now][-1]
        changed = key["token"] > self.token
        if changed: self.keys, self.used = key, 0
        return changed
    def renew(self, ring):
        """whether the ring has the token in use, with the keys in use"""
        self.ring = ring
        return any(k["token"] == self.token and same_key(k, self.keyset()) for k in ring)
    def spent(self):
        return 4294967295 - self.used < 1024
    def front(self):
        self.used += 1
        return self.token, self.part["random"] + struct.pack("<I", self.used)
    def protect(self, mode, header, payload, nonce):
        k = self.keyset()
        if mode == "encrypt":
            s = stream(k["encrypting"], k["nonce"], nonce, self.part["first_block"], len(payload))
            payload = bytes(a ^ b for a, b in zip(payload, s))
        body = header + payload
        return body + mac(k["signing"], body)

class Group:
    def __init__(self, config, index):
        self.config, self.part = config, config.groups[index]
        self.writers = [Writer(w) for w in self.part["writers"]]
        self.made, self.last = 0, 0
    def due(self, now):
        return now - self.last >= self.part["interval"]
    def header(self, nth, ids, chunk, security):
        p = self.part
        return write_header(self.config.publisher, p["class_id"], p["id"], p["version"], nth if p["message_number"] else None,
                            (self.made % 65536) if p["sequence"] else None, ids, chunk, security)
    def empty_security(self):
        s = self.part["security"]
        return None if s == "none" else (True, s == "encrypt", 0, bytes(8))
    def tick(self, now, rows, on, sender, closing):
        p = self.part
        secured = p["security"] != "none"
        tail = 32 if secured else 0
        frames = []
        for w, lives in zip(self.writers, on):
            if not lives: continue
            row, version = rows[w.part["set"]]
            frame = w.turn(now, row, version, closing)
            if frame is None: continue
            meta = self.config.sets[w.part["set"]]
            kind, place, content = frame
            wire = place % 65536
            if p["layout"] == "fixed": spelled = write_raw(meta, wire, content, w.part["versions"])
            else: spelled = write_frame(meta, (kind, wire, content), w.part["versions"])
            frames.append((w.part, wire, spelled))
        loads = []   # (ids, chunk, payload)
        if p["layout"] == "fixed":
            if p["writers"]:
                start = len(self.header(1, None, None, self.empty_security()))
                end = max(w["offset"] + w["size"] for w in p["writers"])
                whole = bytearray(end)
                for part, _, spelled in frames:
                    whole[part["offset"]:part["offset"] + len(spelled)] = spelled
                loads.append((None, None, bytes(whole[start:])))
        else:
            room = p["max_size"] - len(self.header(1, [0], None, self.empty_security())) - tail
            chunk_room = p["max_size"] - len(self.header(1, None, 0, self.empty_security())) - 14 - tail
            pack = []
            def fits(pack):
                sizes = 0 if len(pack) == 1 else 2 * len(pack)
                return sizes + sum(len(f[2]) for f in pack) + 2 * (len(pack) - 1) <= room and len(pack) <= 255
            def close():
                if pack:
                    sizes = b"" if len(pack) == 1 else b"".join(struct.pack("<H", len(f[2])) for f in pack)
                    loads.append(([f[0]["id"] for f in pack], None, sizes + b"".join(f[2] for f in pack)))
                    pack.clear()
            for f in frames:
                if fits(pack + [f]):
                    pack.append(f)
                    continue
                close()
                if fits([f]):
                    pack.append(f)
                    continue
                part, wire, spelled = f
                for at in range(0, len(spelled), chunk_room):
                    piece = spelled[at:at + chunk_room]
                    loads.append((None, part["id"], struct.pack("<HIIi", wire, at, len(spelled), len(piece)) + piece))
            close()
        out = []
        for nth, (ids, chunk, payload) in enumerate(loads, 1):
            if secured:
                token, nonce = sender.front()
                header = self.header(nth, ids, chunk, (True, p["security"] == "encrypt", token, nonce))
                out.append(sender.protect(p["security"], header, payload, nonce))
            else:
                out.append(self.header(nth, ids, chunk, None) + payload)
            self.made += 1
        if not closing: self.last = now
        return out

# ---------------------------------------------------------------- readers

def newer(r, l):
    return (65535 + r - l) % 65536 < 16384

class Reader:
    def __init__(self, part, meta):
        self.part, self.meta = part, meta
        self.last = self.stamp = self.row = self.number = None
        self.why, self.breaks = "Start", []
        self.current = None      # chunks: [number, total, buffer, covered, whole]
        self.seen_at = None
        self.late = self.ready = False
    def cut(self, why):
        self.last = self.stamp = self.row = self.number = None
        self.why = why
    def clear(self):
        self.current = None
        self.seen_at = None
    def frame(self, frame, stamp):
        kind, number, major, minor, content = frame
        if major is not None and major != self.meta["major"]: return "WrongMajor"
        if self.part["numbering"] == "none":
            if kind == "Whole":
                self.row, self.number = list(content), None
                return "Held"
            return "Alive" if kind == "Alive" else "Unnumbered"
        if number is None: return "Unnumbered"
        if stamp is not None:
            if self.stamp is not None and stamp >= self.stamp + 16384: self.cut("Jump")
            self.stamp = stamp if self.stamp is None else max(self.stamp, stamp)
        silent = kind == "Alive"
        place = (number - 1) % 65536 if silent else number
        before = self.last
        if before is not None and not newer(place, before): return "Alive" if silent else "Older"
        self.last = place
        breaks = before is not None and (silent or place != (before + 1) % 65536)
        if breaks: self.breaks.append(((before + 1) % 65536, number))
        if kind == "Whole":
            self.row, self.number = list(content), number
            return "Held"
        if kind == "Change" and not breaks and self.row is not None:
            for i, v in content.items(): self.row[i] = v
            self.number = number
            return "Held"
        if breaks:
            if self.row is not None: self.why = "Gap"
            self.row = self.number = None
            self.why = "Gap"
            return "Waiting"
        return "Waiting"
    def give(self, frame, stamp, now):
        got = self.frame(frame, stamp)
        if got in ("Held", "Alive", "Waiting"):
            self.seen_at, self.late = now, False
        if got == "Held": self.ready = True
    def expire(self, now):
        t = self.part["timeout"]
        if t and self.seen_at is not None and now - self.seen_at >= t:
            self.cut("Timeout"); self.clear()
            self.late, self.ready = True, False
    def stop(self, why):
        self.cut(why); self.clear(); self.ready = False
    def chunk(self, data):
        """the whole message, or None; Bad where the answer is neither Whole, Part nor Older"""
        c = In(data)
        number, offset, total, n = c.num("<H"), c.num("<I"), c.num("<I"), c.num("<i")
        if n < -1: raise Bad("length")
        part = c.take(max(n, 0))
        if not part or offset + len(part) > total: raise Bad("BadRange")
        if total > 4096: raise Bad("TooLong")
        cur = self.current
        if cur is not None and cur[0] == number:
            if cur[4]: return None
            if cur[1] != total: raise Bad("Differs")
        elif cur is None or newer(number, cur[0]):
            cur = self.current = [number, total, bytearray(total), bytearray(total), False]
        else: return None
        cur[2][offset:offset+len(part)] = part
        cur[3][offset:offset+len(part)] = b"\x01" * len(part)
        if all(cur[3]):
            cur[4] = True
            return bytes(cur[2])
        return None
    def state(self):
        if self.row is not None:
            number = "-" if self.number is None else str(self.number)
            words = []
            for f, (v, s) in zip(self.meta["fields"], self.row):
                words.append((f"!0x{s:08x}=" if s else "") + value_text(f["kind"], v))
            text = f"holds {number}: " + " ".join(words)
        else: text = f"waits {self.why.lower()}"
        text += f"; gaps {len(self.breaks)}" + "".join(f" {e}/{g}" for e, g in self.breaks[-8:])
        if self.late: text += "; late"
        if self.ready: text += "; ready"
        return text

class ReaderGroup:
    def __init__(self, config, index):
        self.config, self.part = config, config.readgroups[index]
        self.readers = [Reader(r, config.sets[r["set"]]) for r in self.part["readers"]]
        self.on = [True] * len(self.readers)
        self.accepted = []    # (token, number)
        keygroup = self.part["keygroup"]
        self.ring = [] if keygroup is None else config.keys[keygroup]["ring"]
    def guard(self, h, data, payload):
        """(token, number, end)"""
        def no(why): raise Refused(f"Guard({why})")
        mode = self.part["security"]
        s = h["security"]
        flags = (s["signed"], s["encrypted"]) if s else (False, False)
        if flags != {"none": (False, False), "sign": (True, False), "encrypt": (True, True)}[mode]: no("ModeDiffers")
        if mode == "none": return 0, 0, len(data)
        if s["footer"]: no("FooterOut")
        if s["reset"]: no("KeyResetOut")
        if len(s["nonce"]) != 8: no(f"BadNonceLength {{ got: {len(s['nonce'])} }}")
        if len(data) - payload < 32: no("Short")
        token = s["token"]
        keyset = next((k for k in self.ring if k["token"] == token), None)
        if keyset is None: no(f"UnknownToken {{ got: {token} }}")
        high = max((t for t, _ in self.accepted), default=None)
        if high is not None and token < high: no(f"OldToken {{ got: {token}, high: {high} }}")
        if mac(keyset["signing"], data[:-32]) != data[-32:]: no("BadSignature")
        number = struct.unpack("<I", s["nonce"][4:])[0]
        taken = [n for t, n in self.accepted if t == token]
        if taken and number + 1024 <= max(taken): no(f"TooOld {{ high: {max(taken)} }}")
        if number in taken: no("Repeated")
        return token, number, len(data) - 32
    def datagram(self, now, data):
        try:
            return self.take(now, bytes(data))
        except Refused as why:
            return str(why)
    def take(self, now, data):
        h, payload = read_header(data)
        p = self.part
        if h["publisher"] != p["publisher"] or p["group"] and h["group"] != p["group"] or p["version"] and h["version"] != p["version"] \
                or p["class_id"] is not None and h["class_id"] != p["class_id"]: raise Refused("NotOurs")
        token, number, end = self.guard(h, data, payload)
        body = data[payload:end]
        if p["security"] == "encrypt":
            keys = self.config.keys[p["keygroup"]]
            k = next(k for k in self.ring if k["token"] == token)
            s = stream(k["encrypting"], k["nonce"], h["security"]["nonce"], keys["first_block"], len(body))
            body = bytes(a ^ b for a, b in zip(body, s))
        plain = data[:payload] + body
        parts = []            # (reader, how, bytes)
        if p["layout"] == "fixed":
            for r, on in zip(self.readers, self.on):
                if on:
                    a, z = r.part["offset"], r.part["offset"] + r.part["size"]
                    parts.append((None, r, "slot", plain[a:z] if z <= end else None))
        elif h["chunk"] is not None: parts.append((h["chunk"], None, "chunk", body))
        elif h["ids"] is None: raise Refused("NoIds")
        else:
            n = len(h["ids"])
            at, sizes = 0, [len(body)]
            if n != 1:
                if 2 * n > len(body): raise Refused("BadSizes")
                sizes = list(struct.unpack(f"<{n}H", body[:2 * n]))
                at = 2 * n
                if at + sum(sizes) > len(body): raise Refused("BadSizes")
            for i, size in zip(h["ids"], sizes):
                parts.append((i, None, "message", body[at:at + size])); at += size
        stamp = None
        if p["security"] != "none":
            high = max((t for t, _ in self.accepted), default=None)
            self.accepted.append((token, number))
            stamp = number
            if high is not None and token > high:
                for r in self.readers:
                    r.cut("NewToken"); r.clear()
        matched = bad = 0
        for writer, reader, how, piece in parts:
            for r, on in zip(self.readers, self.on):
                if not on or (r is not reader if how == "slot" else r.part["writer"] != writer): continue
                matched += 1
                try:
                    if piece is None: raise Bad("slot past the end")
                    if how == "chunk":
                        piece = r.chunk(piece)
                        if piece is None: continue
                    r.give(read_frame(r.meta, piece, how == "slot"), stamp, now)
                except Bad:
                    bad += 1
        return f"taken {len(parts)} {matched} {bad}"

# ---------------------------------------------------------------- the cases

class Numbers:
    """Marsaglia's xorshift, 13 7 17"""
    def __init__(self, seed): self.s = seed
    def next(self):
        s = self.s
        s ^= s << 13 & 2**64 - 1
        s ^= s >> 7
        s ^= s << 17 & 2**64 - 1
        self.s = s
        return s
    def below(self, n): return (self.next() >> 8) % n
    def byte(self):
        n = self.next()
        any_, other = n >> 32 & 255, n >> 40 & 255
        return [0, any_ & 15, any_ & other, any_][n >> 60 & 3]

def damaged(numbers, made):
    if numbers.below(4) == 0 or not made:
        return bytes(numbers.byte() for _ in range(numbers.below(64)))
    data = bytearray(made[numbers.below(len(made))])
    for _ in range(numbers.below(3)):
        if not data: break
        what = numbers.below(3)
        if what == 0:
            bit = numbers.below(8); data[numbers.below(len(data))] ^= 1 << bit
        elif what == 1:
            at = numbers.below(len(data)); data[at] = numbers.byte()
        else:
            del data[numbers.below(len(data) + 1):]
    return bytes(data)

def fnv(state, text):
    for b in text.encode(): state = (state ^ b) * 0x01000193 & 0xffffffff
    return state

def runs(answers):
    out, i = [], 0
    while i < len(answers):
        j = i
        while j + 1 < len(answers) and answers[j + 1] == answers[i]: j += 1
        out.append((f"{i}-{j}" if j > i else f"{i}") + f" {answers[i]}")
        i = j + 1
    return "; ".join(out)

class Bench:
    def __init__(self, text):
        self.c = Config(text.replace("\\n", "\n"))
        self.groups = [Group(self.c, i) for i in range(len(self.c.groups))]
        self.senders = [Sender(k) for k in self.c.keys]
        self.rows = [([(default(f["kind"]), 0) for f in s["fields"]], 0) for s in self.c.sets]
        configured = copy.deepcopy(self.c)
        self.readers = [ReaderGroup(configured, i) for i in range(len(self.c.readgroups))]
        self.made = []
    def bytes(self, words):
        if words and words[0].startswith("#"): return self.made[int(words[0][1:])]
        out = b""
        for w in words:
            if w == "-": continue
            d, _, n = w.partition("*")
            out += bytes.fromhex(d) * int(n or 1)
        return out
    def line(self, line):
        w = line.split()
        call, a = w[0], w[1:]
        if call == "write":
            row, version = self.rows[int(a[0])]
            row = list(row)
            fields = self.c.sets[int(a[0])]["fields"]
            for word in a[1:]:
                i, _, x = word.partition(":")
                i, s = int(i), 0
                if x.startswith("!"):
                    st, _, x = x[1:].partition("=")
                    s = int(st, 16)
                row[i] = (parse_text(fields[i]["kind"], x), s)
            self.rows[int(a[0])] = (row, version + 1)
            return f"version {version + 1}"
        if call == "append":
            meta = self.c.sets[int(a[0])]
            meta["fields"] = meta["fields"] + [dict(kind=a[2], cap=int(a[3]) if len(a) > 3 else 0)]
            meta["minor"] += 1
            row, version = self.rows[int(a[0])]
            self.rows[int(a[0])] = (row + [(default(a[2]), 0)], version)
            for g in self.groups:
                for x in g.writers:
                    if x.part["set"] == int(a[0]): x.fresh = True
            return "done"
        if call == "moment":
            changed = []
            for k, s in enumerate(self.senders):
                if s.turn_to(int(a[0])):
                    changed.append(k)
                    for g in self.groups:
                        if g.part["keygroup"] == k:
                            for x in g.writers: x.fresh = True
            return "new token" + "".join(f" {k}" for k in changed) if changed else "same tokens"
        if call == "due": return "yes" if self.groups[int(a[0])].due(int(a[1])) else "no"
        if call == "spent": return "yes" if self.senders[int(a[0])].spent() else "no"
        if call == "refresh":
            self.groups[int(a[0])].writers[int(a[1])].fresh = True
            return "done"
        if call == "log": return "log" + "".join(f" {p}={v}" for p, v in self.groups[int(a[0])].writers[int(a[1])].log)
        if call in ("turn", "closing", "sizes"):
            g = self.groups[int(a[0])]
            on = [x == "1" for x in a[2]] if a[2] != "-" else []
            k = g.part["keygroup"]
            out = g.tick(int(a[1]), self.rows, on, None if k is None else self.senders[k], call == "closing")
            self.made += out
            if call == "sizes": return f"made {len(out)}" + "".join(f" {len(d)}" for d in out)
            return f"made {len(out)}" + "".join(" " + d.hex() for d in out)
        if call == "pull":
            s = self.senders[int(a[0])]
            kept = s.renew(pulled(self.c.keys[int(a[1])]["ring"], int(a[2]), int(a[3])))
            return f"{'kept' if kept else 'lost'} {s.token} {s.used}"
        r = self.readers[int(a[0])]
        if call == "follow":
            r.ring = pulled(self.c.keys[int(a[1])]["ring"], int(a[2]), int(a[3]))
            return "done"
        if call == "on":
            r.on = [x == "1" for x in a[1]]
            return "done"
        if call == "take": return r.datagram(int(a[1]), self.bytes(a[2:]))
        if call == "reader": return r.readers[int(a[1])].state()
        if call == "expire":
            for x in r.readers: x.expire(int(a[1]))
            return "done"
        if call == "cut":
            why = dict(start="Start", gap="Gap", timeout="Timeout", newtoken="NewToken", jump="Jump", restarted="Restarted")[a[2]]
            r.readers[int(a[1])].stop(why)
            return "done"
        if call == "prefixes":
            d = self.bytes(a[2:])
            return runs([r.datagram(int(a[1]), d[:k]) for k in range(len(d))])
        if call == "bits":
            d = self.bytes(a[2:])
            out = []
            for k in range(8 * len(d)):
                e = bytearray(d)
                e[k // 8] ^= 1 << k % 8
                out.append(r.datagram(int(a[1]), e))
            return runs(out)
        if call == "damaged":
            n = Numbers(int(a[2]))
            counts, state = {}, 0x811c9dc5
            for _ in range(int(a[3])):
                text = r.datagram(int(a[1]), damaged(n, self.made))
                state = fnv(state, text + "\n")
                name = text.split(" {")[0].split(" ")[0] if not text.startswith("taken") else ("taken" if text.endswith(" 0") else "bad")
                counts[name.rstrip(")")] = counts.get(name.rstrip(")"), 0) + 1
            return "".join(f"{k}{')' if '(' in k else ''} {v}, " for k, v in counts.items()) + f"checksum 0x{state:08x}"
        raise ValueError(line)

def main():
    bench = None
    for line in sys.stdin.read().splitlines():
        if line.startswith("with "):
            bench = Bench(line[5:])
            print(line)
        elif not line or line.startswith("#"): print(line)
        else: print(f"{line} -> {bench.line(line)}")

if __name__ == "__main__": main()
