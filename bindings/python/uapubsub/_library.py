"""libuapubsub.so by ctypes: its structs and its calls. UAPUBSUB_LIBRARY names another file of it; else it is the one beside this module, or the one
that the system's loader finds."""
import ctypes, os
from ctypes import POINTER, Structure, c_char_p, c_size_t, c_uint8, c_uint16, c_uint32, c_uint64, c_void_p

VERSION = (0, 1)


class Handle(Structure):
    _fields_ = [("is_open", c_uint32), ("held", c_void_p)]


class KeySet(Structure):
    """The keys of one token, as struct uap_key_set has them."""

    _fields_ = [("token", c_uint32), ("nonce", c_uint8 * 4), ("from_ms", c_uint64), ("signing", c_uint8 * 32), ("encrypting", c_uint8 * 32)]

    @classmethod
    def of(cls, token: int, from_ms: int, signing: bytes, encrypting: bytes, nonce: bytes) -> "KeySet":
        if len(signing) != 32 or len(encrypting) not in (16, 32) or len(nonce) != 4:
            raise ValueError("signing keys have 32 bytes, encrypting keys 16 or 32, nonces 4")
        return cls(token, (c_uint8 * 4)(*nonce), from_ms, (c_uint8 * 32)(*signing), (c_uint8 * 32)(*encrypting))


class Taken(Structure):
    """What became of the messages of a datagram: how many it had, how often one was given to a reader, and how many of these couldn't be read."""

    _fields_ = [("parts", c_uint32), ("matched", c_uint32), ("bad", c_uint32)]


class Place(Structure):
    """Where a configuration is at fault: the number of the fault, and the line."""

    _fields_ = [("code", c_uint32), ("line", c_size_t)]


class Answer(Structure):
    """What a read group answered: its status, and what it took."""

    _fields_ = [("status", c_uint32), ("taken", Taken)]


class Takings(Structure):
    """What the read groups answered, and how many took the datagram."""

    _fields_ = [("took", c_uint32), ("groups", Answer * 4)]


class LastFault(Structure):
    """How many parts of a reader couldn't be read, and why the last one couldn't: `fault` is a number of Fault. `field` is whose value has it, `kind` its type byte."""

    _fields_ = [("bad", c_uint64), *((name, c_uint32) for name in ("fault", "got", "of", "field", "has_field", "kind", "has_kind"))]


class Received(Structure):
    """How many messages a reader lost, how often it stored a row, and when it took the last message."""

    _fields_ = [("lost", c_uint64), ("stored", c_uint64), ("seen_ms", c_uint64), ("has_seen", c_uint32)]


class LastTaken(Structure):
    """The token and the number of the last datagram that a read group accepted under a security header."""

    _fields_ = [("token", c_uint32), ("number", c_uint32)]


class Passed(Structure):
    """How many messages a reader passed over, by what they had."""

    _fields_ = [("other_major", c_uint64), ("unnumbered", c_uint64), ("older", c_uint64), ("major", c_uint32), ("has_major", c_uint32)]


class Refusals(Structure):
    """How many datagrams a read group refused, and of the last one why, and whose it was by its header."""

    _fields_ = [("count", c_uint64), ("publisher", c_uint64),
                *((name, c_uint32) for name in ("status", "publisher_type", "group", "has_group", "version", "has_version", "number", "has_number", "token", "has_token"))]


# Each call with a word for each parameter, by the types of the header.
TYPES = {"handle": POINTER(Handle), "bytes": c_char_p, "room": c_void_p, "size": c_size_t,
         "size*": POINTER(c_size_t), "u16*": POINTER(c_uint16), "u32": c_uint32, "u32*": POINTER(c_uint32), "u64": c_uint64, "u64*": POINTER(c_uint64),
         "sets": POINTER(KeySet), "taken*": POINTER(Taken), "takings*": POINTER(Takings), "place*": POINTER(Place), "fault*": POINTER(LastFault), "passed*": POINTER(Passed),
         "received*": POINTER(Received), "last*": POINTER(LastTaken),
         "refused*": POINTER(Refusals), "u16": c_uint16}
CALLS = """
version
config_check           bytes size room size size*
config_place           bytes size place*
close                  handle
publisher_open         handle bytes size
publisher_next         handle u64 room size size*
publisher_due          handle u64 u64*
publisher_group        handle u32*
group_may_turn         handle u32
own_word               handle u32 u32 u32 u64*
own_text               handle u32 u32 room size size*
own_bytes              handle u32 u32 room size size*
own_guid               handle u32 u32 room
own_field_status       handle u32 u32 u32*
publisher_standing     handle u32 u32* u32*
publisher_resume       handle u32 u64 u32
publisher_resume_with  handle u32 u64 u32 u32 sets size
publisher_renew        handle u32 sets size
publisher_save         handle u32 room size size*
publisher_stored       handle
publisher_must_store   handle
publisher_restore      handle u64 bytes size
writer_begin_at        handle u32 u32 u16
writer_enable          handle u32 u32
writer_disable         handle u32 u32
subscriber_open        handle bytes size
subscriber_datagram    handle u32 u64 room size taken*
subscriber_take        handle u64 bytes size takings*
subscriber_expire      handle u64
subscriber_renew       handle u32 sets size
reader_enable          handle u32 u32
reader_disable         handle u32 u32
reader_why             handle u32 u32 u32*
reader_number          handle u32 u32 u16*
reader_age             handle u32 u32 u64 u64*
reader_is_fresh        handle u32 u32 u64 u64
reader_last_fault      handle u32 u32 fault*
reader_passed          handle u32 u32 passed*
reader_received        handle u32 u32 received*
read_group_refused     handle u32 refused*
read_group_last_taken  handle u32 last*
read_group_only        handle u32 u16
subscriber_due         handle u64 u64*
set_word               handle u32 u32 u32 u64
set_text               handle u32 u32 bytes size
set_bytes              handle u32 u32 bytes size
set_guid               handle u32 u32 bytes
set_field_status       handle u32 u32 u32
get_word               handle u32 u32 u32 u32 u64*
get_text               handle u32 u32 u32 room size size*
get_bytes              handle u32 u32 u32 room size size*
get_guid               handle u32 u32 u32 room
get_field_status       handle u32 u32 u32 u32*
"""


def loaded():
    beside = os.path.join(os.path.dirname(__file__), "libuapubsub.so.0")
    library = ctypes.CDLL(os.environ.get("UAPUBSUB_LIBRARY") or (beside if os.path.exists(beside) else "libuapubsub.so.0"))
    for name, *kinds in map(str.split, CALLS.strip().splitlines()):
        call = getattr(library, f"uapubsub_{name}")
        call.argtypes, call.restype = [TYPES[it] for it in kinds], c_uint32
    if divmod(library.uapubsub_version() // 1000, 1000) != VERSION:
        raise ImportError(f"this module is for version {VERSION[0]}.{VERSION[1]} of libuapubsub, and the library is of another: {library.uapubsub_version()}")
    return library


library = loaded()
