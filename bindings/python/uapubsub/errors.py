"""What calls answer: the statuses of include/uapubsub.h, and an exception for each that is a fault."""
import enum


class Status(enum.IntEnum):
    """UAP_OK and the others."""

    OK = 0
    NONE = 1
    NULL = 2
    CLOSED = 3
    OPENED = 4
    OTHER_SIDE = 5
    MEMORY = 6
    REFUSED = 7
    INDEX = 8
    MISFIT = 9
    ROOM = 10
    SPENT = 11
    BAD_TEXT = 12
    MANY_KEYS = 13
    NO_RING = 14
    EARLIER_TOKEN = 15
    NUMBERS_AGAIN = 16
    NO_KIND = 17
    STALE = 18
    UNSTORED = 19
    DAMAGED = 20
    OTHER_CONFIG = 21
    LATER_TOKEN = 22
    BEGUN = 23
    HEADER_SHORT = 101
    VERSION = 102
    DISCOVERY = 103
    PUBLISHER_TYPE = 104
    RESERVED = 105
    PUBLISHER_ID = 106
    NOT_OURS = 110
    NO_IDS = 111
    SIZES = 112
    MODE = 121
    FOOTER = 122
    KEY_RESET = 123
    NONCE = 124
    NO_SIGNATURE = 125
    UNKNOWN_TOKEN = 126
    OLD_TOKEN = 127
    SIGNATURE = 128
    REPEATED = 129
    TOO_OLD = 130


class Why(enum.IntEnum):
    """Why a reader waits, or waited before the row that it holds: UAP_WHY_START and the others."""

    START = 0
    GAP = 1
    TIMEOUT = 2
    NEW_TOKEN = 3
    JUMP = 4
    RESTARTED = 5


class Fault(enum.IntEnum):
    """Why a part of a reader couldn't be read: UAP_FAULT_NONE and the others."""

    NONE = 0
    SHORT = 1
    ENCODING = 2
    KIND = 3
    VALUE = 4
    INDEX = 5
    COUNT = 6
    TRAILING = 7
    NOT_VALID = 8
    EVENT = 9
    RESERVED = 10
    CHUNK = 20
    CHUNK_LENGTH = 21
    TOO_LONG = 22
    RANGE = 23
    DIFFERS = 24
    MISSING = 30


class Error(Exception):
    """A call answered neither OK nor NONE; `status` is what it answered."""

    status: Status
    _of_status: dict[int, type["Error"]] = {}

    def __init__(self, what: str = ""):
        super().__init__(f"{self.status.name}: {what}" if what else self.status.name)

    def __init_subclass__(cls, status: Status | None = None):
        if status is not None:
            cls.status = status
            Error._of_status[status] = cls


def demand(status: int, what: str = "") -> Status:
    """The status where it is OK or NONE, else its exception."""
    if status > Status.NONE:
        raise Error._of_status[status](what)
    return Status(status)


class Null(Error, status=Status.NULL):
    """A pointer is null."""


class Closed(Error, status=Status.CLOSED):
    """The publisher or subscriber is closed."""


class Opened(Error, status=Status.OPENED):
    """It is open already."""


class OtherSide(Error, status=Status.OTHER_SIDE):
    """It is a subscriber, and the call a publisher's, or the other way about."""


class NoMemory(Error, MemoryError, status=Status.MEMORY):
    """Memory ran out."""


class Refused(Error, ValueError, status=Status.REFUSED):
    """The configuration is refused; the text has the line that `uapubsub check` prints."""


class NoSuch(Error, LookupError, status=Status.INDEX):
    """There is no such data set, field, key group, group, writer, read group or reader, or the read group has no keys."""


class Misfit(Error, ValueError, status=Status.MISFIT):
    """The field can't have this value or this status."""


class Room(Error, status=Status.ROOM):
    """The buffer is too short."""


class Spent(Error, status=Status.SPENT):
    """A group that is due can have no turn: its token has too few numbers left, or all turns of its life are over."""


class BadText(Error, ValueError, status=Status.BAD_TEXT):
    """The text isn't UTF-8, or the text or the bytes are longer than any field may have."""


class BadKeys(Error, ValueError):
    """Key sets that can't be taken."""


class ManyKeys(BadKeys, status=Status.MANY_KEYS):
    """There are more than 16 key sets."""


class NoRing(BadKeys, status=Status.NO_RING):
    """There is no key set, or tokens and moments don't rise, or the first moment isn't 0."""


class EarlierToken(BadKeys, status=Status.EARLIER_TOKEN):
    """The key set of the moment is of an earlier token, and what was used under that isn't known."""


class NumbersAgain(BadKeys, status=Status.NUMBERS_AGAIN):
    """Numbers would be used again: the token is lower than the one in use, or is that one with a greater number used."""


class NoKind(Error, status=Status.NO_KIND):
    """No kind of a field, or no list, has this number."""


class Stale(Error, status=Status.STALE):
    """The row that the reader holds is older than that. `Subscriber.is_fresh` answers it, and raises none."""


class Unstored(Error, status=Status.UNSTORED):
    """A datagram waits until its number is in store: save, write, and call `stored`."""


class Damaged(Error, ValueError, status=Status.DAMAGED):
    """The bytes aren't those of `save`."""


class OtherConfig(Error, ValueError, status=Status.OTHER_CONFIG):
    """The bytes are of another configuration."""


class LaterToken(Error, status=Status.LATER_TOKEN):
    """The bytes have a later token of a key group than its key sets have at this moment."""


class Begun(Error, status=Status.BEGUN):
    """The group had a turn before."""


class Refusal(Error):
    """A datagram was refused. `Subscriber.take` hands these out, and raises none."""


class HeaderShort(Refusal, status=Status.HEADER_SHORT):
    """It ends before its header does."""


class Version(Refusal, status=Status.VERSION):
    """It isn't of UADP version 1."""


class Discovery(Refusal, status=Status.DISCOVERY):
    """It is a discovery message."""


class PublisherType(Refusal, status=Status.PUBLISHER_TYPE):
    """Its PublisherId has a type that the standard reserves."""


class Reserved(Refusal, status=Status.RESERVED):
    """Its header has bits that the standard reserves."""


class PublisherId(Refusal, status=Status.PUBLISHER_ID):
    """Its PublisherId is no String."""


class NotOurs(Refusal, status=Status.NOT_OURS):
    """It is another publisher's, another group's, of another version or class."""


class NoIds(Refusal, status=Status.NO_IDS):
    """It has no payload header, which a dynamic layout wants."""


class Sizes(Refusal, status=Status.SIZES):
    """The sizes of its messages pass its end."""


class Mode(Refusal, status=Status.MODE):
    """It isn't signed or encrypted as the read group wants it."""


class Footer(Refusal, status=Status.FOOTER):
    """It has a security footer."""


class KeyReset(Refusal, status=Status.KEY_RESET):
    """It asks for new keys."""


class Nonce(Refusal, status=Status.NONCE):
    """Its nonce hasn't 8 bytes."""


class NoSignature(Refusal, status=Status.NO_SIGNATURE):
    """There is no room for its signature."""


class UnknownToken(Refusal, status=Status.UNKNOWN_TOKEN):
    """No key set has its token."""


class OldToken(Refusal, status=Status.OLD_TOKEN):
    """A datagram of a higher token was taken before."""


class Signature(Refusal, status=Status.SIGNATURE):
    """Its signature is another."""


class Repeated(Refusal, status=Status.REPEATED):
    """One with its token and number was taken before."""


class TooOld(Refusal, status=Status.TOO_OLD):
    """Its number is 1,024 or more below the greatest one."""


__all__ = ["Status", "Why", "Fault", "Error", "BadKeys", "Refusal", *(it.__name__ for it in Error._of_status.values())]
