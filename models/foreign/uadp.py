"""Datagrams as OPC 10000-14 has them (7.2.4, UADP) with the values of OPC 10000-6 (5.2.2), each part where its flag says that it is
there. Whatever the tables allow can be spelled, and some of what they forbid; what this repository reads or writes is not asked here.
AES by FIPS 197, its counter mode and the signature by OPC 10000-14 7.2.4.4.3."""
import functools, hashlib, hmac, struct
from dataclasses import dataclass, field

# ---------------------------------------------------------------- values (OPC 10000-6, 5.1.2 and 5.2.2)

TYPES = dict(Boolean=1, SByte=2, Byte=3, Int16=4, UInt16=5, Int32=6, UInt32=7, Int64=8, UInt64=9, Float=10, Double=11, String=12,
             DateTime=13, Guid=14, ByteString=15, StatusCode=19, LocalizedText=21)
FORMS = dict(Boolean="<B", SByte="<b", Byte="<B", Int16="<h", UInt16="<H", Int32="<i", UInt32="<I", Int64="<q", UInt64="<Q", Float="<f",
             Double="<d", DateTime="<q", StatusCode="<I")

BAD = 0x80000000
BAD_COMMUNICATION = 0x80050000
UNCERTAIN = 0x40000000


@dataclass
class Value:
    """A value of a built-in type; `content` is None for a null String or ByteString."""
    kind: str
    content: object

    def bytes(self):
        if self.kind in FORMS:
            return struct.pack(FORMS[self.kind], self.content)
        if self.kind == "Guid":
            return self.content
        if self.kind == "LocalizedText":
            return b"\x02" + string(self.content)
        return string(self.content)

    def raw(self, longest=0):
        """RawData (10000-14, 7.2.4.5.11): a String or ByteString takes its MaxStringLength whatever it has."""
        filled = longest - len(self.content or b"") if self.kind in ("String", "ByteString") else 0
        return self.bytes() + bytes(filled)


def of_raw(kinds, data):
    """The values of these kinds, none of them a text or a Guid, that RawData has in this order."""
    values, at = [], 0
    for kind in kinds:
        values.append(Value(kind, *struct.unpack_from(FORMS[kind], data, at)))
        at += struct.calcsize(FORMS[kind])
    return values


def string(content):
    return struct.pack("<i", -1) if content is None else struct.pack("<i", len(content)) + content


def variant(value):
    """5.2.2.16: the type's number and the value; None is the null Variant."""
    return b"\x00" if value is None else bytes([TYPES[value.kind]]) + value.bytes()


def array(values):
    """A Variant with the array bit."""
    return bytes([TYPES[values[0].kind] | 0x80]) + struct.pack("<i", len(values)) + b"".join(it.bytes() for it in values)


def data_value(value, status=None, source=None, source_picoseconds=None, server=None, server_picoseconds=None):
    """5.2.2.17: a mask and the parts that it tells, in this order."""
    parts = [(0x01, None if value is None else variant(value)), (0x02, packed("<I", status)), (0x04, packed("<q", source)),
             (0x10, packed("<H", source_picoseconds)), (0x08, packed("<q", server)), (0x20, packed("<H", server_picoseconds))]
    return bytes([sum(bit for bit, part in parts if part is not None)]) + b"".join(part for _, part in parts if part is not None)


def packed(form, number):
    return None if number is None else struct.pack(form, number)


def joined(*parts):
    return b"".join(it for it in parts if it is not None)


# ---------------------------------------------------------------- DataSetMessages (7.2.4.5)

VARIANT, RAW, DATA_VALUE, RESERVED = range(4)
KEY, DELTA, EVENT, KEEP_ALIVE = range(4)


@dataclass
class Message:
    """A DataSetMessage: `fields` are spelled; a key frame of RawData has no count, and a keep-alive neither count nor fields."""
    fields: list = field(default_factory=list)
    kind: int = KEY
    encoding: int = VARIANT
    valid: bool = True
    sequence: int = None
    timestamp: int = None
    picoseconds: int = None
    status: int = None
    major: int = None
    minor: int = None
    indexes: list = None      # of a delta frame
    count: int = None         # another count than there are fields
    configured: int = 0       # ConfiguredSize: filled with zeros up to it
    more: bytes = b""         # what follows
    flags2: int = 0           # further bits of DataSetFlags2

    def bytes(self):
        second = self.kind | bit(4, self.timestamp) | bit(5, self.picoseconds) | self.flags2
        first = self.valid | self.encoding << 1 | bit(3, self.sequence) | bit(4, self.status) | bit(5, self.major) | bit(6, self.minor)
        front = bytes([first | 0x80, second]) if second else bytes([first])
        header = joined(front, packed("<H", self.sequence), packed("<q", self.timestamp), packed("<H", self.picoseconds),
                        packed("<H", self.status), packed("<I", self.major), packed("<I", self.minor))
        whole = header + self.payload() + self.more
        return whole + bytes(max(0, self.configured - len(whole)))

    def payload(self):
        if self.kind == KEEP_ALIVE:
            return b""
        fields = self.fields
        if self.kind == DELTA:
            fields = [struct.pack("<H", index) + it for index, it in zip(self.indexes, fields)]
        if self.encoding == RAW and self.kind == KEY:
            return b"".join(fields)
        return struct.pack("<H", len(fields) if self.count is None else self.count) + b"".join(fields)


def bit(place, part):
    return 0 if part is None else 1 << place


# ---------------------------------------------------------------- NetworkMessages (7.2.4.4)

BYTE, UINT16, UINT32, UINT64, STRING = range(5)
ID_FORMS = ["<B", "<H", "<I", "<Q"]


@dataclass
class Keys:
    """The keys of a token: PubSub-Aes128-CTR or PubSub-Aes256-CTR, by the length of `encrypting`."""
    token: int
    signing: bytes
    encrypting: bytes
    nonce: bytes


@dataclass
class Security:
    """The security header (Table 'SecurityHeader'), and what protects the message."""
    keys: Keys
    random: bytes
    number: int
    encrypted: bool = True
    signed: bool = True
    footer: bytes = None
    reset: bool = False
    first_block: int = 1
    message_nonce: bytes = None      # another one than `random` and `number`
    more_flags: int = 0

    def nonce(self):
        return self.random + struct.pack("<I", self.number) if self.message_nonce is None else self.message_nonce

    def header(self):
        flags = self.signed | self.encrypted << 1 | bit(2, self.footer) | self.reset << 3 | self.more_flags
        footer = None if self.footer is None else struct.pack("<H", len(self.footer))
        return joined(bytes([flags]), struct.pack("<I", self.keys.token), bytes([len(self.nonce())]), self.nonce(), footer)

    def protected(self, front, payload):
        if self.encrypted:
            nonce = self.keys.nonce + self.nonce()[:8].ljust(8, b"\x00")      # of another length it is none of the standard's
            payload = counter_mode(self.keys.encrypting, nonce, self.first_block, payload)
        whole = front + payload + (self.footer or b"")
        return whole + (hmac.new(self.keys.signing, whole, hashlib.sha256).digest() if self.signed else b"")


@dataclass
class Network:
    """A NetworkMessage. A part that is None isn't there."""
    publisher: tuple = None          # its type and the id; a Byte needs no ExtendedFlags1
    class_id: bytes = None
    group_header: bool = True
    group: int = None
    group_version: int = None
    number: int = None               # NetworkMessageNumber
    sequence: int = None
    writers: list = None             # of the payload header
    messages: list = field(default_factory=list)
    timestamp: int = None
    picoseconds: int = None
    promoted: list = None            # Variants, spelled
    security: Security = None
    chunk: tuple = None              # writer, message's number, offset, whole size, data
    message_type: int = 0            # 1 a discovery probe, 2 a discovery announcement
    version: int = 1
    more_flags2: int = 0
    more_group_flags: int = 0
    sizes: list = None               # other sizes than the messages have

    def bytes(self):
        front, payload = self.front(), self.payload()
        return front + payload if self.security is None else self.security.protected(front, payload)

    def front(self):
        kind = None if self.publisher is None else self.publisher[0]
        second = (self.chunk is not None) | bit(1, self.promoted) | self.message_type << 2 | self.more_flags2
        first = ((kind or 0) | bit(3, self.class_id) | bit(4, self.security) | bit(5, self.timestamp) | bit(6, self.picoseconds)
                 | (0x80 if second else 0))
        has_payload_header = self.writers is not None or self.chunk is not None
        flags = self.version | bit(4, kind) | self.group_header << 5 | has_payload_header << 6 | (0x80 if first else 0)
        return joined(bytes([flags]), bytes([first]) if first else None, bytes([second]) if second else None, self.id_bytes(),
                      self.class_id, self.group_bytes() if self.group_header else None, self.payload_header(),
                      packed("<q", self.timestamp), packed("<H", self.picoseconds), self.promoted_bytes(),
                      None if self.security is None else self.security.header())

    def id_bytes(self):
        if self.publisher is None:
            return None
        kind, given = self.publisher
        return string(given) if kind == STRING else struct.pack(ID_FORMS[kind], given)

    def group_bytes(self):
        flags = (bit(0, self.group) | bit(1, self.group_version) | bit(2, self.number) | bit(3, self.sequence) | self.more_group_flags)
        return joined(bytes([flags]), packed("<H", self.group), packed("<I", self.group_version), packed("<H", self.number),
                      packed("<H", self.sequence))

    def payload_header(self):
        if self.chunk is not None:
            return struct.pack("<H", self.chunk[0])
        if self.writers is None:
            return None
        return bytes([len(self.writers)]) + b"".join(struct.pack("<H", it) for it in self.writers)

    def promoted_bytes(self):
        if self.promoted is None:
            return None
        fields = b"".join(self.promoted)
        return struct.pack("<H", len(fields)) + fields

    def payload(self):
        if self.chunk is not None:
            _, number, offset, size, data = self.chunk
            return struct.pack("<HII", number, offset, size) + string(data)
        messages = [it if isinstance(it, bytes) else it.bytes() for it in self.messages]
        sizes = [len(it) for it in messages] if self.sizes is None else self.sizes
        if self.writers is None or len(self.writers) == 1:
            sizes = []
        return b"".join(struct.pack("<H", it) for it in sizes) + b"".join(messages)


# ---------------------------------------------------------------- AES, encryption alone (FIPS 197), and counter mode

def doubled(byte):
    return byte << 1 ^ (0x11b if byte & 0x80 else 0)


def times(a, b):
    product = 0
    while b:
        product, a, b = product ^ (a if b & 1 else 0), doubled(a), b >> 1
    return product


def substitution():
    """5.1.1: the inverse in GF(2^8), and an affine map."""
    box = []
    for byte in range(256):
        inverse = next((it for it in range(256) if times(byte, it) == 1), 0)
        turned = [inverse << places | inverse >> (8 - places) for places in range(5)]
        box.append((turned[0] ^ turned[1] ^ turned[2] ^ turned[3] ^ turned[4] ^ 0x63) & 0xff)
    return box


SBOX = substitution()


@functools.cache
def round_keys(key):
    """5.2: words of 4 bytes."""
    words, length, constant = [key[at:at + 4] for at in range(0, len(key), 4)], len(key) // 4, 1
    for at in range(length, 4 * (length + 7)):
        word = words[-1]
        if at % length == 0:
            word = bytes(SBOX[it] for it in word[1:] + word[:1])
            word, constant = bytes([word[0] ^ constant]) + word[1:], doubled(constant)
        elif length > 6 and at % length == 4:
            word = bytes(SBOX[it] for it in word)
        words.append(bytes(a ^ b for a, b in zip(words[at - length], word)))
    return [b"".join(words[at:at + 4]) for at in range(0, len(words), 4)]


def mixed(column):
    """5.1.3."""
    return [times(column[at], 2) ^ times(column[(at + 1) % 4], 3) ^ column[(at + 2) % 4] ^ column[(at + 3) % 4] for at in range(4)]


def encrypted_block(key, block):
    keys = round_keys(key)
    state = [a ^ b for a, b in zip(block, keys[0])]
    for turn in range(1, len(keys)):
        state = [SBOX[state[(at + 4 * (at % 4)) % 16]] for at in range(16)]
        if turn < len(keys) - 1:
            state = sum((mixed(state[at:at + 4]) for at in range(0, 16, 4)), [])
        state = [a ^ b for a, b in zip(state, keys[turn])]
    return bytes(state)


def counter_mode(key, nonce, first, data):
    """The counter block is the key nonce, the message nonce and the block's number, big-endian."""
    out = b""
    for at in range(0, len(data), 16):
        stream = encrypted_block(key, nonce + struct.pack(">I", first + at // 16))
        out += bytes(a ^ b for a, b in zip(data[at:at + 16], stream))
    return out


# FIPS 197, C.1 and C.3; NIST SP 800-38A, F.5.1
PLAIN = bytes.fromhex("00112233445566778899aabbccddeeff")
assert encrypted_block(bytes(range(16)), PLAIN).hex() == "69c4e0d86a7b0430d8cdb78070b4c55a"
assert encrypted_block(bytes(range(32)), PLAIN).hex() == "8ea2b7ca516745bfeafc49904b496089"
assert counter_mode(bytes.fromhex("2b7e151628aed2a6abf7158809cf4f3c"), bytes(range(0xf0, 0xfc)), 0xfcfdfeff,
                    bytes.fromhex("6bc1bee22e409f96e93d7e117393172a")).hex() == "874d6191b620e3261bef6864990db6ce"
