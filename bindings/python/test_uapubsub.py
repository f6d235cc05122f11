#!/usr/bin/env python3
"""The module over libuapubsub.so: the header's calls, structs and statuses, each kind there and back, exceptions, refusals, keys, threads."""
import ctypes, os, re, threading, unittest, uuid
import uapubsub as u
from uapubsub import _library

HEADER = os.path.join(os.path.dirname(os.path.realpath(__file__)), "..", "..", "include", "uapubsub.h")
# a value of each kind, its least or its greatest where it has one, and one that it can't have
KINDS = {"Boolean": (True, 1), "SByte": (-128, 128), "Byte": (255, 256), "Int16": (-(2**15), 2**15), "UInt16": (2**16 - 1, -1), "Int32": (-(2**31), 2**31),
         "UInt32": (2**32 - 1, 2**32), "Int64": (-(2**63), 2**63), "UInt64": (2**64 - 1, 2**64), "Float": (1.5, 1e39), "Double": (2.25, "2"),
         "String": ("grün\0x", "x" * 17), "DateTime": (134405825540000000, 0.5), "Guid": (uuid.UUID("72962b91-fa75-4ae6-8d28-b404dc7daf63"), None),
         "ByteString": (b"\0\xff" * 8, bytes(17)), "StatusCode": (0x80000000, True)}
KEY = dict(signing=bytes(range(32)), encrypting=bytes(range(16)), nonce=b"3333")
# the types of the header's parameters, as the module names them
TYPES = {"struct uap_handle *": "handle", "const uint8_t *": "bytes", "uint8_t *": "room", "size_t": "size", "size_t *": "size*", "uint16_t *": "u16*",
         "uint32_t": "u32", "uint32_t *": "u32*", "uint64_t": "u64", "uint64_t *": "u64*", "const struct uap_key_set *": "sets", "struct uap_taken *": "taken*", "struct uap_takings *": "takings*", "struct uap_place *": "place*",
         "const struct uap_guid *": "bytes", "struct uap_guid *": "room",
         "struct uap_fault *": "fault*", "struct uap_passed *": "passed*", "struct uap_received *": "received*", "struct uap_last_taken *": "last*",
         "struct uap_refused *": "refused*", "uint16_t": "u16"}


def text(secured=False):
    fields = "".join(f'[[dataset.field]]\nname = "{kind.lower()}"\nkind = "{kind}"\n' + "cap = 16\n" * (kind in ("String", "ByteString")) for kind in KINDS)
    keys = {name: value.hex() for name, value in KEY.items()}
    security = 'security = "encrypt"\nkeygroup = "keys"\n' if secured else ""
    return f'''[publisher]
id = "u8:9"
[[dataset]]
name = "all"
quality = true
{fields}
[[keygroup]]
name = "keys"
policy = "aes128"
random = "c1d5086e"
[[keygroup.key]]
token = 7
from = 0
signing = "{keys['signing']}"
encrypting = "{keys['encrypting']}"
nonce = "{keys['nonce']}"
[[group]]
name = "group"
id = 1
interval = 100
{security}[[group.writer]]
name = "writer"
id = 1
dataset = "all"
key_frame_count = 3
[[readgroup]]
name = "readers"
publisher = "u8:9"
group = 1
{security}[[readgroup.reader]]
name = "reader"
writer = 1
dataset = "all"
timeout = 1000
'''


class OfTheHeader(unittest.TestCase):
    """What the module says a second time is what the header says."""

    def setUp(self):
        with open(HEADER, encoding="utf-8") as file:
            self.header = file.read()

    def test_calls(self):
        told = dict(re.findall(r"^uint32_t uapubsub_(\w+)\(([^)]*)\);", self.header, re.M))
        ours = {name: kinds for name, *kinds in map(str.split, _library.CALLS.strip().splitlines())}
        self.assertEqual({name: [self.kind(it) for it in told[name].split(",") if it != "void"] for name in ours}, ours)

    def kind(self, parameter):
        """The kind of a parameter, by its type without its name."""
        found = re.fullmatch(r"\s*(.*?)(\w+)\s*", parameter)
        return TYPES[found[1].strip()]

    def test_statuses(self):
        told = self.numbers("What calls answer") | self.numbers("Why a reader waits")
        self.assertEqual(told, {it.name: int(it) for it in u.Status} | {f"WHY_{it.name}": int(it) for it in u.Why})
        self.assertEqual(self.numbers("Why a part of a reader"), {f"FAULT_{it.name}": int(it) for it in u.Fault})

    def test_kinds(self):
        told = self.numbers("The kinds of fields")
        self.assertEqual({name: told[name] for name in map(self.spelled, u._SCALARS)}, {self.spelled(kind): number for kind, (number, _) in u._SCALARS.items()})
        self.assertEqual(sorted(map(self.spelled, KINDS)), sorted(told))

    def numbers(self, comment):
        """The numbers of the enum that stands under this comment."""
        block = re.search(rf"^/\* {comment}.*?^enum {{\n(.*?)^}};", self.header, re.M | re.S)[1]
        return {name: int(number) for name, number in re.findall(r"^    UAP_(\w+) = (\d+)", block, re.M)}

    def spelled(self, kind):
        """A kind's name as the header spells it: BYTE_STRING."""
        return re.sub(r"(?<=[a-z])(?=[A-Z])", "_", kind).upper()

    def test_structs(self):
        sizes = {"handle": (_library.Handle, 16), "key_set": (u.KeySet, 80), "taken": (u.Taken, 12), "answer": (_library.Answer, 16), "takings": (_library.Takings, 68), "place": (u.Place, 16), "fault": (u.LastFault, 40), "passed": (u.Passed, 32),
                 "received": (u.Received, 32), "last_taken": (u.LastTaken, 8), "refused": (u.Refusals, 56)}
        for name, (ours, size) in sizes.items():
            block = re.search(rf"^struct uap_{name} {{\n(.*?)^}};", self.header, re.M | re.S)[1]
            fields = re.findall(r"(\w+)(?:\[\d+\])?[;,]", re.sub(r"/\*.*?\*/", "", block, flags=re.S))
            self.assertEqual([it for it, *_ in ours._fields_], fields)
            self.assertEqual(ctypes.sizeof(ours), size)

    def test_version(self):
        told = re.findall(r"^#define UAPUBSUB_VERSION_(?:MAJOR|MINOR|PATCH) (\d+)$", self.header, re.M)
        self.assertEqual(u.version(), tuple(map(int, told)))


class OverSides(unittest.TestCase):
    def opened(self, secured=False):
        publisher, subscriber = u.Publisher(text(secured)), u.Subscriber(text(secured))
        self.addCleanup(publisher.close)
        self.addCleanup(subscriber.close)
        return publisher, subscriber


class Sides(OverSides):
    def test_each_kind_goes_there_and_back(self):
        row = {kind.lower(): value for kind, (value, _) in KINDS.items()}
        for secured in (False, True):
            publisher, subscriber = self.opened(secured)
            self.assertIsNone(subscriber.row("readers", "reader"))
            self.assertIsNone(subscriber.number("readers", "reader"))
            self.assertEqual(subscriber.why("readers", "reader"), u.Why.START)
            self.assertIsNone(publisher.group())
            publisher["all"].update(row)
            publisher["all"].set_status("boolean", 0x40000000)
            self.assertEqual(publisher["all"].row(), row)
            self.assertEqual([publisher["all"].status(it) for it in ("boolean", "sbyte", 0)], [0x40000000, 0, 0x40000000])
            for datagram in publisher.datagrams(100):
                self.assertEqual(publisher.group(), "group")
                self.assertEqual([(it.parts, it.matched, it.bad) for it in subscriber.take(datagram, 100)], [(1, 1, 0)])
            self.assertEqual(subscriber.row("readers", "reader"), row)
            self.assertEqual([subscriber.status("readers", "reader", it) for it in ("boolean", "sbyte", 0)], [0x40000000, 0, 0x40000000])
            self.assertEqual(subscriber.number("readers", "reader"), 0)
            subscriber.expire(5000)
            self.assertIsNone(subscriber.row("readers", "reader"))
            self.assertIsNone(subscriber.status("readers", "reader", "boolean"))
            self.assertEqual(subscriber.why("readers", "reader"), u.Why.TIMEOUT)

    def test_values_that_a_kind_hasnt(self):
        publisher, _ = self.opened()
        for kind, (_, wrong) in KINDS.items():
            if wrong is not None:
                with self.assertRaises(u.Misfit, msg=kind):
                    publisher["all"][kind.lower()] = wrong

    def test_indexes_are_names_too(self):
        publisher, subscriber = self.opened()
        publisher[0][6] = 5
        for datagram in publisher.datagrams(100):
            subscriber.take(datagram, 100)
        self.assertEqual(subscriber.row(0, 0)["uint32"], 5)

    def test_what_isnt_there(self):
        publisher, subscriber = self.opened()
        wrong = [lambda: publisher["other"], lambda: publisher[1], lambda: publisher["all"]["other"], lambda: publisher["all"].status("other"), lambda: publisher["all"].set_status("other", 0), lambda: publisher.standing("other"),
                 lambda: publisher.enable("group", "other"), lambda: publisher.disable("other", 0), lambda: subscriber.row("readers", 1),
                 lambda: subscriber.status(0, 0, 16), lambda: subscriber.renew(1, []), lambda: publisher["all"].__setitem__("other", 1)]
        for call in wrong:
            with self.assertRaises(u.NoSuch):
                call()

    def test_faults_are_exceptions(self):
        with self.assertRaisesRegex(u.Refused, "^REFUSED: config: C2 "):
            u.Publisher("nonsense = 1")
        publisher, _ = self.opened()
        with self.assertRaises(u.OtherSide):
            publisher._call("subscriber_expire", 0)
        publisher.close()
        publisher.close()
        with self.assertRaises(u.Closed):
            publisher.standing("keys")

    def test_a_fault_has_a_line(self):
        self.assertIsNone(u.place(text()))
        place = u.place(text().replace("interval = 100", "interval = 0"))
        self.assertEqual((place.code, text().split("\n")[place.line - 1]), (9, "[[group]]"))

    def test_switches(self):
        publisher, subscriber = self.opened()
        publisher.disable("group", "writer")
        self.assertEqual(list(publisher.datagrams(100)), [])
        publisher.enable("group", "writer")
        for datagram in publisher.datagrams(200):
            subscriber.take(datagram, 200)
        self.assertIsNotNone(subscriber.row("readers", "reader"))
        subscriber.disable("readers", "reader")
        self.assertEqual((subscriber.row("readers", "reader"), subscriber.why("readers", "reader")), (None, u.Why.RESTARTED))

    def test_refusals_have_names(self):
        publisher, subscriber = self.opened(secured=True)
        datagram = next(publisher.datagrams(100))
        forged = datagram[:-1] + bytes([datagram[-1] ^ 1])
        told = [subscriber.take(it, 100)[0] for it in (datagram, datagram, forged, b"", b"\x02")]
        self.assertEqual([type(it) for it in told], [u.Taken, u.Repeated, u.Signature, u.HeaderShort, u.Version])
        self.assertEqual([it.status for it in told[1:]], [129, 128, 101, 102])

    def test_moments_and_ages(self):
        publisher, subscriber = self.opened()
        self.assertEqual(publisher.due(50), 100)
        self.assertIsNone(subscriber.due(50))
        self.assertIsNone(subscriber.age("readers", "reader", 50))
        self.assertFalse(subscriber.is_fresh("readers", "reader", 50, 1000))
        for datagram in publisher.datagrams(100):
            subscriber.take(datagram, 100)
        self.assertEqual((publisher.due(101), subscriber.due(101)), (200, 1100))
        self.assertEqual(subscriber.age("readers", "reader", 350), 250)
        self.assertEqual([subscriber.is_fresh("readers", "reader", 350, it) for it in (250, 249)], [True, False])
        self.assertTrue(publisher.may_turn("group"))

    def test_what_isnt_read_is_counted(self):
        publisher, subscriber = self.opened()
        datagram = next(publisher.datagrams(100))
        subscriber.take(datagram, 100)
        subscriber.take(datagram, 100)
        subscriber.take(datagram[:-1], 100)
        subscriber.take(b"\x02", 100)
        self.assertEqual(subscriber.passed("readers", "reader").older, 1)
        fault = subscriber.last_fault("readers", "reader")
        self.assertEqual((fault.bad, u.Fault(fault.fault)), (1, u.Fault.SHORT))
        received = subscriber.received("readers", "reader")
        self.assertEqual((received.lost, received.stored, received.seen_ms, received.has_seen), (0, 1, 100, 1))
        self.assertIsNone(subscriber.last_taken("readers"))
        refusals = subscriber.refusals("readers")
        self.assertEqual((refusals.count, u.Status(refusals.status)), (1, u.Status.VERSION))
        subscriber.only("readers", 7)
        self.assertEqual(type(subscriber.take(datagram, 100)[0]), u.NotOurs)

    def test_a_handle_is_of_its_thread(self):
        publisher, _ = self.opened()
        found = []

        def other():
            try:
                list(publisher.datagrams(100))
            except RuntimeError as error:
                found.append(error)

        thread = threading.Thread(target=other)
        thread.start()
        thread.join()
        self.assertEqual(len(found), 1)


class Keys(OverSides):
    def test_numbers_go_on(self):
        publisher, _ = self.opened(secured=True)
        publisher.resume("keys", 0, 500)
        self.assertEqual(publisher.standing("keys"), (7, 500))
        with self.assertRaises(u.NumbersAgain):
            publisher.resume("keys", 0, 499)
        self.assertTrue(issubclass(u.NumbersAgain, u.BadKeys))

    def test_keys_are_renewed_on_both_sides(self):
        publisher, subscriber = self.opened(secured=True)
        sets = [u.KeySet.of(7, 0, **KEY), u.KeySet.of(8, 250, **KEY)]
        publisher.renew("keys", sets)
        subscriber.renew("readers", sets)
        tokens = []
        self.assertIsNone(subscriber.last_taken("readers"))
        for now in (100, 200, 300, 400):
            for datagram in publisher.datagrams(now):
                self.assertEqual(subscriber.take(datagram, now)[0].matched, 1)
            tokens.append(publisher.standing("keys").token)
            taken = subscriber.last_taken("readers")
            self.assertEqual((taken.token, taken.number), publisher.standing("keys"))
        self.assertEqual(tokens, [7, 7, 8, 8])

    def test_a_spent_token(self):
        publisher, _ = self.opened(secured=True)
        publisher.resume_with("keys", 0, u.Standing(7, 2**32 - 6), [u.KeySet.of(7, 0, **KEY)])
        with self.assertRaises(u.Spent):
            list(publisher.datagrams(100))
        self.assertFalse(publisher.may_turn("group"))

    def test_a_restart_goes_on_after_what_was_stored(self):
        publisher, subscriber = self.opened(secured=True)
        self.assertTrue(publisher.must_store())
        state = publisher.save(2)
        self.assertEqual(len(state), u.STATE_BYTES)
        with self.assertRaises(u.Unstored):
            next(publisher.datagrams(100))
        publisher.stored()
        self.assertFalse(publisher.must_store())
        for now in (100, 200):
            for datagram in publisher.datagrams(now):
                self.assertEqual(subscriber.take(datagram, now)[0].matched, 1)
        again, _ = self.opened(secured=True)
        again.restore(300, state)
        self.assertEqual(again.standing("keys"), (7, 2))
        again.save(2)
        again.stored()
        for datagram in again.datagrams(300):
            self.assertEqual(subscriber.take(datagram, 300)[0].matched, 1)
        self.assertEqual((subscriber.last_taken("readers").number, subscriber.number("readers", "reader")), (3, 2))

    def test_states_that_arent_restored(self):
        publisher, _ = self.opened(secured=True)
        other, _ = self.opened()
        state = publisher.save(2)
        for wrong, status in ((state[:-1], u.Damaged), (state[:-1] + bytes([state[-1] ^ 1]), u.Damaged), (other.save(2), u.OtherConfig)):
            with self.assertRaises(status):
                publisher.restore(0, wrong)
        later, _ = self.opened(secured=True)
        later.renew("keys", [u.KeySet.of(8, 0, **KEY)])
        list(later.datagrams(100))
        with self.assertRaises(u.LaterToken):
            publisher.restore(0, later.save(2))

    def test_a_writer_begins_at_a_number(self):
        publisher, subscriber = self.opened()
        publisher.begin_at("group", "writer", 700)
        for datagram in publisher.datagrams(100):
            subscriber.take(datagram, 100)
        self.assertEqual(subscriber.number("readers", "reader"), 700)
        with self.assertRaises(u.Begun):
            publisher.begin_at("group", "writer", 800)

    def test_a_datagram_that_is_too_long(self):
        _, subscriber = self.opened()
        with self.assertRaises(u.Room):
            subscriber.take(bytes(65537), 100)

    def test_keys_of_another_length(self):
        for wrong in (dict(signing=bytes(31)), dict(encrypting=bytes(24)), dict(nonce=b"")):
            with self.assertRaises(ValueError):
                u.KeySet.of(7, 0, **(KEY | wrong))


if __name__ == "__main__":
    unittest.main()
