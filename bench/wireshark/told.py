"""What the independent models say of the datagrams of a session, as the fields of tools/wireshark/uadp.lua in the order of its tree.

The datagrams are made by models/session, which plays a script over the groups of models/groups; what each holds is read back by
models/groups, which is another reading of the standard's tables than the dissector's."""
import copy, datetime, os, struct, sys, uuid

HERE = os.path.dirname(os.path.abspath(__file__))
TOP = os.path.dirname(os.path.dirname(HERE))
sys.path.insert(0, os.path.join(TOP, "models", "session"))
import model as session_model
import random_cases

groups = session_model.groups

KEY_FRAME, DELTA_FRAME, KEEP_ALIVE = 0, 1, 3
TYPES = {"Whole": KEY_FRAME, "Change": DELTA_FRAME, "Alive": KEEP_ALIVE}
PUBLISHERS = ["u8", "u16", "u32", "u64", "text"]
SIGNATURE = 32
DAYS_OF_400_YEARS = 146097


# ---- sessions


class Wire(session_model.Link):
    """a link that keeps what was received, in order, and for each datagram the data sets as they were when it was sent"""

    def __init__(self, fates):
        super().__init__(fates)
        self.captured, self.sets_of, self.session = [], {}, None

    def send(self, datagram):
        self.sets_of[datagram] = copy.deepcopy(self.session.c.sets)
        return super().send(datagram)

    def receive(self):
        datagram = super().receive()
        if isinstance(datagram, bytes):
            self.captured.append(datagram)
        return datagram


def played(config, script):
    """the session that models/session plays, and its link"""
    lines = [words for words in map(str.split, script.split("\n")) if words and not words[0].startswith("#")]
    wire = Wire({int(w[1]): (w[2], int(w[3]) if len(w) > 3 else 0) for w in lines if w[0] == "fate"})
    wire.session = session_model.Session(config, wire)
    for words in lines:
        wire.session.line(words)
    wire.session.tick(0, True)
    wire.session.pump()
    return wire


def random_session(seed):
    case = random_cases.Case(seed)
    config = case.config()
    return config, case.script()


# ---- what a datagram tells


def bit(holds):
    return "1" if holds else "0"


def colons(data):
    return data.hex(":")


def text_of(kind, value):
    """a value as tshark prints it"""
    if kind == "Boolean":
        return bit(value)
    if kind in ("Float", "Double"):
        return text_of_float(kind, value)
    if kind == "DateTime":
        return text_of_time(value)
    if kind == "StatusCode":
        return f"0x{value:08x}"
    if kind == "Guid":
        return str(uuid.UUID(bytes_le=value))
    if kind == "String":
        return value.decode()
    return colons(value) if kind == "ByteString" else str(value)


def text_of_float(kind, bits):
    """with the digits that a float has, 6 or 15"""
    number = struct.unpack("<f" if kind == "Float" else "<d", groups.write_value(kind, bits))[0]
    if number != number:
        return "-nan" if bits >> (31 if kind == "Float" else 63) else "nan"
    return f"{number:.{6 if kind == 'Float' else 15}g}"


def text_of_time(steps):
    """of steps of 100 ns since 1601; datetime knows the years 1 to 9999, and 400 years have as many days everywhere"""
    cycles, steps = divmod(steps, DAYS_OF_400_YEARS * 86400 * 10**7)
    at = datetime.datetime(1601, 1, 1) + datetime.timedelta(seconds=steps // 10**7)
    return f"{at:%b} {at.day:2d}, {at.year + 400 * cycles} {at:%H:%M:%S}.{steps % 10**7:07d}00 UTC"


def bytes_of(kind, value):
    return value if kind in ("String", "ByteString") else groups.write_value(kind, value)


class Told:
    """what was told of a capture so far: the numbers that came, and the chunks"""

    def __init__(self, config, original):
        self.config, self.original = config, original
        self.readers, self.last, self.chunks, self.traits = {}, {}, {}, set()

    def of(self, datagram, sets, frame):
        """the fields of a datagram, each a name, its text, and its bytes or None; `frame` is its number in the capture"""
        self.out, self.frame, self.sets = [], frame, sets
        h, at = groups.read_header(datagram)
        group = next(g for g in self.config.groups if g["id"] == h["group"])
        self.add("flags.version", 1)
        self.header(h)
        body, end, number_at = datagram[at:], len(datagram), self.out_at
        if h["security"]:
            body, end = self.security(h["security"], group, datagram, at)
        gap = self.followed(("group", h["group"]), h["sequence"])
        self.out[number_at:number_at] = gap
        self.payload(h, group, body, at)
        return self.out

    def add(self, name, text, data=None):
        """tshark tells no bytes of an empty field"""
        self.out.append((name, str(text), data or None))

    def add_bits(self, name, **bits):
        for key, holds in bits.items():
            self.add(f"{name}.{key}", bit(holds))

    # -- header

    def header(self, h):
        secured, chunk = h["security"] is not None, h["chunk"] is not None
        kind = PUBLISHERS.index(h["publisher"][0])
        first = kind > 0 or h["class_id"] is not None or secured or chunk
        self.add_bits("flags", publisher_id=True, group_header=True, payload_header=chunk or h["ids"] is not None, extended_flags1=first)
        if first:
            self.add("extended_flags1.publisher_id_type", kind)
            self.add_bits("extended_flags1", data_set_class_id=h["class_id"] is not None, security_header=secured, timestamp=False, picoseconds=False, extended_flags2=chunk)
        if chunk:
            self.add_bits("extended_flags2", chunk=True, promoted_fields=False)
            self.add("extended_flags2.message_type", 0)
            self.add("extended_flags2.reserved", 0)
        self.traits.add(f"publisher {h['publisher'][0]}")
        if h["publisher"][0] == "text":
            self.add("publisher_id.text", h["publisher"][1].decode(), h["publisher"][1])
        else:
            self.add("publisher_id", h["publisher"][1], h["publisher"][1].to_bytes(1 << kind, "little"))
        if h["class_id"] is not None:
            self.traits.add("class id")
            self.add("data_set_class_id", uuid.UUID(bytes_le=h["class_id"]), h["class_id"])
        self.group_header(h)
        self.out_at = len(self.out)
        self.writers(h)

    def group_header(self, h):
        self.add_bits("group_flags", writer_group_id=True, group_version=h["version"] is not None, network_message_number=h["message_number"] is not None,
                      sequence_number=h["sequence"] is not None)
        self.add("group_flags.reserved", 0)
        for name, key, form in (("writer_group_id", "group", "<H"), ("group_version", "version", "<I"), ("network_message_number", "message_number", "<H"),
                                ("group_sequence_number", "sequence", "<H")):
            if h[key] is not None:
                self.traits.add(name)
                self.add(name, h[key], struct.pack(form, h[key]))

    def writers(self, h):
        if h["chunk"] is not None:
            self.add("writer_id", h["chunk"], struct.pack("<H", h["chunk"]))
        elif h["ids"] is not None:
            self.add("message_count", len(h["ids"]), bytes([len(h["ids"])]))
            for writer in h["ids"]:
                self.add("writer_id", writer, struct.pack("<H", writer))

    # -- security

    def security(self, s, group, datagram, at):
        self.add_bits("security_flags", signed=s["signed"], encrypted=s["encrypted"], footer=False, force_key_reset=False)
        self.add("security_flags.reserved", 0)
        self.add("security_token_id", s["token"], struct.pack("<I", s["token"]))
        self.add("nonce_length", 8, b"\x08")
        self.add("message_nonce", colons(s["nonce"]), s["nonce"])
        self.add("message_nonce.random", colons(s["nonce"][:4]), s["nonce"][:4])
        self.add("message_nonce.sequence_number", struct.unpack("<I", s["nonce"][4:])[0], s["nonce"][4:])
        ring = self.config.keys[group["keygroup"]]
        key = next(k for k in ring["ring"] if k["token"] == s["token"])
        signature = groups.mac(key["signing"], datagram[:-SIGNATURE])
        self.add("signature", colons(signature), signature)
        self.add("signature.status", 1)
        body = datagram[at:-SIGNATURE]
        self.traits.add("encrypted, " + ("AES-256" if len(key["encrypting"]) == 32 else "AES-128") if s["encrypted"] else "signed alone")
        if s["token"] != ring["ring"][0]["token"]:
            self.traits.add("a later token")
        if s["encrypted"]:
            stream = groups.stream(key["encrypting"], key["nonce"], s["nonce"], ring["first_block"], len(body))
            body = bytes(a ^ b for a, b in zip(body, stream))
        return body, len(datagram) - SIGNATURE

    # -- numbers

    def gap(self, of, expected, number):
        self.traits.add(f"missing numbers, {of}")
        return [(f"{of}.expected", str(expected), None), (f"{of}.missing", str((number - expected) % 65536), None), (f"{of}.gap", "", None)]

    def older(self, of):
        self.traits.add(f"an older number, {of}")
        return [(f"{of}.older", "", None)]

    def followed(self, source, number):
        """what stands behind a group's number"""
        if number is None:
            return []
        last = self.last.get(source)
        if last is not None and not groups.newer(number, last):
            return self.older("group_sequence")
        self.last[source] = number
        expected = number if last is None else (last + 1) % 65536
        return [] if number == expected else self.gap("group_sequence", expected, number)

    def judged(self, writer, meta, frame):
        """what stands behind a message's number, by the model's reader"""
        reader = self.readers.setdefault(writer, groups.Reader(dict(numbering="message"), meta))
        reader.meta, count = meta, len(reader.breaks)
        got = reader.frame(frame, None)
        if len(reader.breaks) > count:
            return self.gap("sequence", *reader.breaks[-1])
        return self.older("sequence") if got == "Older" else []

    # -- payloads

    def payload(self, h, group, body, at):
        if group["layout"] == "fixed":
            self.traits.add("fixed layout")
            for part in group["writers"]:
                slot = body[part["offset"] - at:part["offset"] - at + part["size"]]
                if any(slot):
                    self.message(part, slot, fixed=True)
                else:
                    self.traits.add("an empty slot")
                self.add("writer_id", part["id"])
        elif h["chunk"] is not None:
            self.chunk(self.part(group, h["chunk"]), body)
        else:
            sizes, start = [len(body)], 0
            if len(h["ids"]) != 1:
                self.traits.add("several messages")
                start = 2 * len(h["ids"])
                sizes = list(struct.unpack(f"<{len(h['ids'])}H", body[:start]))
                for size in sizes:
                    self.add("message_size", size, struct.pack("<H", size))
            for writer, size in zip(h["ids"], sizes):
                self.message(self.part(group, writer), body[start:start + size])
                start += size

    def part(self, group, writer):
        return next(part for part in group["writers"] if part["id"] == writer)

    def chunk(self, part, body):
        number, offset, total, length = struct.unpack("<HIIi", body[:14])
        for name, value, form in (("sequence_number", number, "<H"), ("offset", offset, "<I"), ("total_size", total, "<I"), ("length", length, "<i")):
            self.add(f"chunk.{name}", value, struct.pack(form, value))
        self.add("chunk.data", colons(body[14:]), body[14:])
        self.traits.add("chunks")
        reader, done = self.chunks.setdefault((part["id"], number), (groups.Reader({}, None), []))
        if done:
            self.traits.add("a chunk that is repeated")
            self.add("chunk.repeated", "")
        whole = reader.chunk(body)
        if whole is not None:
            done.append(self.frame)
        if done:
            self.add("chunk.reassembled_in", done[0])
        if whole is not None:
            self.message(part, whole)

    def message(self, part, data, fixed=False):
        meta = self.sets[part["set"]]
        frame = groups.read_frame(meta, data, fixed)
        kind, number, major, minor, content = frame
        self.traits.add(kind)
        self.front(meta, frame, fixed)
        self.out += self.judged((part["id"],), meta, frame)
        for name, value in (("major_version", major), ("minor_version", minor)):
            if value is not None:
                self.add(f"message.{name}", value, struct.pack("<I", value))
        if content is None:
            return
        rows = content.items() if kind == "Change" else enumerate(content)
        if not fixed:
            self.add("message.field_count", len(content), struct.pack("<H", len(content)))
        for index, (value, status) in rows:
            self.field(part, meta, index, value, status, fixed, kind == "Change")

    def front(self, meta, frame, fixed):
        kind, number, major, minor, _ = frame
        encoding = 1 if fixed else 2 if meta["quality"] and kind != "Alive" else 0
        self.add("message.flags1.valid", 1)
        self.add("message.flags1.field_encoding", encoding)
        self.add_bits("message.flags1", sequence_number=number is not None, status=False, major_version=major is not None, minor_version=minor is not None,
                      flags2=kind != "Whole")
        if kind != "Whole":
            self.add("message.flags2.type", TYPES[kind])
            self.add_bits("message.flags2", timestamp=False, picoseconds=False)
            self.add("message.flags2.reserved", 0)
        self.add("message.type", TYPES[kind])
        self.add("sequence_number", number, struct.pack("<H", number))

    def field(self, part, meta, index, value, status, fixed, is_change):
        kind = meta["fields"][index]["kind"]
        self.traits.add(f"{kind} as {'RawData' if fixed else 'DataValue' if meta['quality'] else 'Variant'}")
        self.add("field.index", index, struct.pack("<H", index) if is_change else None)
        names = self.original[part["set"]]
        if index < len(names):
            self.add("field.name", names[index])
        else:
            self.traits.add("an appended field")
        if meta["quality"]:
            self.add_bits("data_value", has_value=True, has_status=status != 0, has_source_timestamp=False, has_server_timestamp=False, has_source_picoseconds=False,
                          has_server_picoseconds=False)
            self.add("data_value.reserved", 0)
        if not fixed:
            self.add("variant.type", groups.TYPES[kind])
            self.add_bits("variant", dimensions=False, array=False)
        self.add(f"value.{kind.lower()}", text_of(kind, value), bytes_of(kind, value))
        if status:
            self.traits.add("a status")
            self.add("data_value.status", f"0x{status:08x}", struct.pack("<I", status))
