"""OPC UA PubSub for Python over libuapubsub.so; include/uapubsub.h says what each call does. The program keeps its sockets and its clock, whose moments
are milliseconds:

    with Publisher(text) as publisher:
        publisher["plant"]["reading"] = 7
        for datagram in publisher.datagrams(now_ms):
            socket.sendto(datagram, peer)

    with Subscriber(text) as subscriber:
        subscriber.take(datagram, now_ms)
        row = subscriber.row("peer", "plant_reader")        # {"reading": 7, ..}, or None

Groups, readers, data sets and fields go by the names of the configuration, or by their indexes. A publisher or subscriber belongs to the thread that
opened it; a call on another one raises RuntimeError."""
import ctypes, struct, threading, tomllib, uuid
from ctypes import byref, c_size_t, c_uint16, c_uint32, c_uint64
from typing import Any, Iterator, NamedTuple

from ._library import Handle, KeySet, LastFault, LastTaken, Passed, Place, Received, Refusals, Taken, Takings, library
from .errors import *
from .errors import demand

MOST_DATAGRAM_BYTES, MOST_TEXT_BYTES, MOST_LINE_BYTES, STATE_BYTES = 65536, 256, 256, 336
# The number of each kind of scalar, and how struct packs it into its word.
_SCALARS = {"Boolean": (1, "<?"), "SByte": (2, "<b"), "Byte": (3, "<B"), "Int16": (4, "<h"), "UInt16": (5, "<H"), "Int32": (6, "<i"), "UInt32": (7, "<I"),
            "Int64": (8, "<q"), "UInt64": (9, "<Q"), "Float": (10, "<f"), "Double": (11, "<d"), "DateTime": (13, "<q"), "StatusCode": (19, "<I")}


class Standing(NamedTuple):
    """The token in use of a key group, and the number used last under it."""

    token: int
    used: int


def version() -> tuple[int, int, int]:
    """That of the library."""
    number = library.uapubsub_version()
    return number // 1000000, number // 1000 % 1000, number % 1000


def check(text: str | bytes) -> None:
    """Raises Refused, with the line of the command `check`, where the text is no configuration."""
    text, line, written = _encoded(text), ctypes.create_string_buffer(MOST_LINE_BYTES), c_size_t()
    status = library.uapubsub_config_check(text, len(text), line, MOST_LINE_BYTES, byref(written))
    demand(status, line.raw[: written.value].decode())


def place(text: str | bytes) -> Place | None:
    """Where a configuration that is refused is at fault: the number of the fault, and the line. None: it is none that is refused."""
    text, place = _encoded(text), Place()
    return None if demand(library.uapubsub_config_place(text, len(text), byref(place)), "place") else place


def _encoded(text: str | bytes) -> bytes:
    return text.encode() if isinstance(text, str) else bytes(text)


def _ring(sets: list[KeySet]) -> tuple[Any, int]:
    """An array of the key sets, which is never empty memory, and their count."""
    return (KeySet * max(1, len(sets)))(*sets), len(sets)


def _index(tables: list[dict], name: str | int, what: str) -> int:
    """Where the table of this name stands. An index is taken as it is, where there is such a table."""
    found = [at for at, it in enumerate(tables) if name in (at, it["name"])]
    if not found:
        raise NoSuch(f"{what} {name}")
    return found[0]


class _Side:
    """An open handle, and what the configuration names. A side has the name that its calls begin with, and those of its tables of groups and of their
    members."""

    _side: str
    _groups: str
    _member: str

    def __init__(self, text: str | bytes):
        check(text)
        text = _encoded(text)
        self._tables = tomllib.loads(text.decode())
        self._handle, self._thread, self._is_closed = Handle(), threading.get_ident(), False
        self._call(f"{self._side}_open", text, len(text))

    def _call(self, name: str, *words: Any) -> Status:
        if threading.get_ident() != self._thread:
            raise RuntimeError("a publisher or subscriber belongs to the thread that opened it")
        return demand(getattr(library, f"uapubsub_{name}")(byref(self._handle), *words), name)

    def _table(self, kind: str, name: str | int) -> int:
        return _index(self._tables.get(kind, []), name, kind)

    def _places(self, group: str | int, member: str | int) -> tuple[int, int]:
        at = self._table(self._groups, group)
        return at, _index(self._tables[self._groups][at].get(self._member, []), member, self._member)

    def _value(self, calls: str, kind: str, *places: int) -> Any:
        """A field by the calls whose names begin so, or None where there is no row."""
        if kind in _SCALARS:
            number, form = _SCALARS[kind]
            word = c_uint64()
            return None if self._call(f"{calls}_word", *places, number, byref(word)) else struct.unpack_from(form, word.value.to_bytes(8, "little"))[0]
        buffer, length = ctypes.create_string_buffer(MOST_TEXT_BYTES), c_size_t()
        if kind == "Guid":
            return None if self._call(f"{calls}_guid", *places, buffer) else uuid.UUID(bytes_le=buffer.raw[:16])
        if self._call(f"{calls}_text" if kind == "String" else f"{calls}_bytes", *places, buffer, MOST_TEXT_BYTES, byref(length)):
            return None
        return buffer.raw[: length.value].decode() if kind == "String" else buffer.raw[: length.value]

    def _kinds(self, dataset: str) -> dict[str, str]:
        """The kind of each field of a data set, by its name."""
        return {it["name"]: it["kind"] for it in self._tables["dataset"][self._table("dataset", dataset)]["field"]}

    def enable(self, group: str | int, member: str | int) -> None:
        """Switches a writer of a group, or a reader of a read group, on."""
        self._call(f"{self._member}_enable", *self._places(group, member))

    def disable(self, group: str | int, member: str | int) -> None:
        self._call(f"{self._member}_disable", *self._places(group, member))

    def due(self, now_ms: int) -> int | None:
        """The first moment from now on at which there is something to do: a turn or a key of a publisher, a timeout of a subscriber. None: never."""
        moment = c_uint64()
        return None if self._call(f"{self._side}_due", now_ms, byref(moment)) else moment.value

    def close(self) -> None:
        """Gives back its memory. A second time it does nothing."""
        if not self._is_closed:
            self._call("close")
        self._is_closed = True

    def __enter__(self):
        return self

    def __exit__(self, *_: Any) -> None:
        self.close()


class Publisher(_Side):
    _side, _groups, _member = "publisher", "group", "writer"

    def __getitem__(self, dataset: str | int) -> "DataSet":
        return DataSet(self, self._table("dataset", dataset))

    def datagrams(self, now_ms: int) -> Iterator[bytes]:
        """Those that are due, one by one. Behind the last one Spent is raised where a group that is due can have no turn, and Unstored where a
        datagram waits until its number is in store."""
        buffer, length = ctypes.create_string_buffer(MOST_DATAGRAM_BYTES), c_size_t()
        while self._call("publisher_next", now_ms, buffer, MOST_DATAGRAM_BYTES, byref(length)) == Status.OK:
            yield ctypes.string_at(buffer, length.value)

    def group(self) -> str | None:
        """The name of the group whose datagram `datagrams` gave last."""
        group = c_uint32()
        return None if self._call("publisher_group", byref(group)) else self._tables["group"][group.value]["name"]

    def may_turn(self, group: str | int) -> bool:
        """Whether the group may have a turn: its token has numbers left, and its life turns."""
        try:
            self._call("group_may_turn", self._table("group", group))
        except Spent:
            return False
        return True

    def standing(self, keygroup: str | int) -> Standing:
        """What a device stores, with room above, before it sends."""
        token, used = c_uint32(), c_uint32()
        self._call("publisher_standing", self._table("keygroup", keygroup), byref(token), byref(used))
        return Standing(token.value, used.value)

    def resume(self, keygroup: str | int, now_ms: int, used: int) -> None:
        """A key group of the configuration goes on after `used` numbers: what a device calls after a restart."""
        self._call("publisher_resume", self._table("keygroup", keygroup), now_ms, used)

    def resume_with(self, keygroup: str | int, now_ms: int, standing: Standing, sets: list[KeySet]) -> None:
        """The same with the key sets that it was renewed with last."""
        self._call("publisher_resume_with", self._table("keygroup", keygroup), now_ms, *standing, *_ring(sets))

    def renew(self, keygroup: str | int, sets: list[KeySet]) -> None:
        """A key group goes on with other key sets."""
        self._call("publisher_renew", self._table("keygroup", keygroup), *_ring(sets))

    def save(self, ahead: int) -> bytes:
        """What to store: numbers so far ahead. From now on a datagram of a secured group waits until its number is in store."""
        buffer, length = ctypes.create_string_buffer(STATE_BYTES), c_size_t()
        self._call("publisher_save", ahead, buffer, STATE_BYTES, byref(length))
        return buffer.raw[: length.value]

    def stored(self) -> None:
        """The bytes of the last `save` are in store: written, and kept by the disk."""
        self._call("publisher_stored")

    def must_store(self) -> bool:
        """Whether to save and store now."""
        return self._call("publisher_must_store") == Status.OK

    def restore(self, now_ms: int, state: bytes) -> None:
        """Goes on after stored bytes."""
        self._call("publisher_restore", now_ms, state, len(state))

    def begin_at(self, group: str | int, writer: str | int, number: int) -> None:
        """The first data message of a writer has this number, where its group had no turn yet."""
        self._call("writer_begin_at", *self._places(group, writer), number)


class DataSet:
    """The row of a publisher's data set: `publisher["plant"]["reading"] = 7`."""

    def __init__(self, publisher: Publisher, at: int):
        self._publisher, self._at = publisher, at
        table = publisher._tables["dataset"][at]
        self._name, self._fields = table["name"], [(it["name"], it["kind"]) for it in table["field"]]

    def update(self, row: dict[str, Any]) -> None:
        """Sets the fields that the row has."""
        for field, value in row.items():
            self[field] = value

    def __setitem__(self, field: str | int, value: Any) -> None:
        at = self._field(field)
        kind, call = self._fields[at][1], self._publisher._call
        if kind in _SCALARS:
            call("set_word", self._at, at, _SCALARS[kind][0], _word(kind, value, field))
        elif kind == "Guid":
            call("set_guid", self._at, at, value.bytes_le)
        else:
            call("set_text" if kind == "String" else "set_bytes", self._at, at, _encoded(value), len(_encoded(value)))

    def __getitem__(self, field: str | int) -> Any:
        """The value that was set last."""
        at = self._field(field)
        return self._publisher._value("own", self._fields[at][1], self._at, at)

    def row(self) -> dict[str, Any]:
        """All values that were set last, by their fields' names."""
        return {name: self[name] for name, _ in self._fields}

    def status(self, field: str | int) -> int:
        """A field's StatusCode as it was set last, 0 being Good."""
        status = c_uint32()
        self._publisher._call("own_field_status", self._at, self._field(field), byref(status))
        return status.value

    def set_status(self, field: str | int, status: int) -> None:
        """Sets a field's StatusCode, 0 being Good, where the data set has quality."""
        self._publisher._call("set_field_status", self._at, self._field(field), status)

    def _field(self, field: str | int) -> int:
        return _index([{"name": name} for name, _ in self._fields], field, f"field of {self._name}")


def _word(kind: str, value: Any, field: str | int) -> int:
    """The word of a scalar."""
    if (kind == "Boolean") != isinstance(value, bool):
        raise Misfit(f"{field}: {value!r} for {kind}")
    try:
        return int.from_bytes(struct.pack(_SCALARS[kind][1], value), "little")
    except (struct.error, OverflowError) as error:
        raise Misfit(f"{field}: {error}") from None


def _answer(answer: Any) -> Taken | Refusal:
    """What a read group took, or its refusal as an exception."""
    try:
        demand(answer.status)
    except Refusal as refusal:
        return refusal
    return answer.taken


class Subscriber(_Side):
    _side, _groups, _member = "subscriber", "readgroup", "reader"

    def take(self, datagram: bytes, now_ms: int) -> list[Taken | Refusal]:
        """Gives a datagram to all read groups: what each one took, or why it refused it."""
        takings, datagram = Takings(), bytes(datagram)
        self._call("subscriber_take", now_ms, datagram, len(datagram), byref(takings))
        return [_answer(it) for it in takings.groups if it.status != Status.INDEX]

    def expire(self, now_ms: int) -> None:
        """Time goes on: a reader whose timeout has passed holds no row."""
        self._call("subscriber_expire", now_ms)

    def row(self, group: str | int, reader: str | int) -> dict[str, Any] | None:
        """The row that the reader holds, by its fields' names."""
        places = self._places(group, reader)
        kinds = self._kinds_of(*places)
        values = [self._value("get", kind, *places, at) for at, kind in enumerate(kinds.values())]
        return None if None in values else dict(zip(kinds, values))

    def status(self, group: str | int, reader: str | int, field: str | int) -> int | None:
        """The StatusCode of a field of the row that is held, 0 being Good."""
        places, status = self._places(group, reader), c_uint32()
        at = _index([{"name": it} for it in self._kinds_of(*places)], field, "field")
        return None if self._call("get_field_status", *places, at, byref(status)) else status.value

    def why(self, group: str | int, reader: str | int) -> Why:
        """Why a reader waits, or waited before the row that it holds."""
        why = c_uint32()
        self._call("reader_why", *self._places(group, reader), byref(why))
        return Why(why.value)

    def number(self, group: str | int, reader: str | int) -> int | None:
        """The number of the message that the held row was last made of; none also where the reader goes by no numbers."""
        number = c_uint16()
        return None if self._call("reader_number", *self._places(group, reader), byref(number)) else number.value

    def age(self, group: str | int, reader: str | int, now_ms: int) -> int | None:
        """How many milliseconds ago the row that is held was confirmed. A machine rests on this, and not on timeouts."""
        age = c_uint64()
        return None if self._call("reader_age", *self._places(group, reader), now_ms, byref(age)) else age.value

    def is_fresh(self, group: str | int, reader: str | int, now_ms: int, bound_ms: int) -> bool:
        """Whether a row is held that was confirmed at most `bound_ms` ago."""
        try:
            return self._call("reader_is_fresh", *self._places(group, reader), now_ms, bound_ms) == Status.OK
        except Stale:
            return False

    def last_fault(self, group: str | int, reader: str | int) -> LastFault:
        """Which parts of a reader couldn't be read."""
        fault = LastFault()
        self._call("reader_last_fault", *self._places(group, reader), byref(fault))
        return fault

    def passed(self, group: str | int, reader: str | int) -> Passed:
        """What a reader passed over."""
        passed = Passed()
        self._call("reader_passed", *self._places(group, reader), byref(passed))
        return passed

    def received(self, group: str | int, reader: str | int) -> Received:
        """What a reader received: how many messages it lost, how often it stored a row, and when it took the last message."""
        received = Received()
        self._call("reader_received", *self._places(group, reader), byref(received))
        return received

    def last_taken(self, group: str | int) -> LastTaken | None:
        """The token and the number of the last datagram that a read group accepted under a security header."""
        taken = LastTaken()
        return None if self._call("read_group_last_taken", self._table("readgroup", group), byref(taken)) else taken

    def refusals(self, group: str | int) -> Refusals:
        """What a read group refused."""
        refusals = Refusals()
        self._call("read_group_refused", self._table("readgroup", group), byref(refusals))
        return refusals

    def only(self, group: str | int, number: int) -> None:
        """A read group takes datagrams of this NetworkMessageNumber alone, of any where it is 0."""
        self._call("read_group_only", self._table("readgroup", group), number)

    def renew(self, group: str | int, sets: list[KeySet]) -> None:
        """A read group goes on with other key sets."""
        self._call("subscriber_renew", self._table("readgroup", group), *_ring(sets))

    def _kinds_of(self, group: int, reader: int) -> dict[str, str]:
        return self._kinds(self._tables["readgroup"][group]["reader"][reader]["dataset"])
