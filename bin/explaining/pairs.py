"""Whether a subscriber's configuration reads what a publisher's sends: what the laws of two devices ask of both files."""
from .places import Text, named
from .rules import keys, shown, toml
from .slots import is_secured

# The keys of a read group that are a group's own, with those that may also be 0 or absent for any.
OF_GROUPS = (("layout", False), ("security", False), ("version", True), ("class_id", True))
OF_FIELDS = ("name", "kind", "cap")
OF_DATASETS = ("name", "major", "minor", "quality")
OF_KEYS = ("token", "signing", "encrypting", "nonce")


class File:
    """A configuration, with the values that stand where a key is absent."""

    defaults = None

    def __init__(self, name, text, doc):
        self.name, self.doc, self.lines = name, doc, Text(text)
        File.defaults = File.defaults or keys()

    def value(self, path, key):
        """What the table at the path has for the key, or what stands for it there; None where it is absent."""
        table = self.at(path)
        if key in table:
            return table[key].lower() if key in ("signing", "encrypting", "nonce", "class_id") else table[key]
        return {"true": True, "false": False}.get(it := self.default(path, key), int(it) if it.isdigit() else it.strip('`"'))

    def default(self, path, key):
        table = ".".join(step for step in path if isinstance(step, str))
        told = self.defaults[table][key][1].strip("`")
        told = self.defaults["group"][key][1].strip("`") if told.startswith("as in") else told
        return "" if told in ("absent", "any", "required") else told

    def at(self, path):
        it = self.doc
        for step in path:
            it = it[step]
        return it

    def place(self, path, key=None):
        """`FILE:LINE` of the key, or of its table where the key is absent."""
        line = self.lines.line_of([*path, key] if key and key in self.at(path) else path)
        return f"{shown(self.name)}:{line if line else '?'}"

    def index(self, outer, name):
        return next((i for i, it in enumerate(self.doc.get(outer, [])) if it["name"] == name), None)


class Pair:
    """A reader of the subscriber beside a writer of the publisher: where their files differ."""

    def __init__(self, publisher, subscriber, writer, reader):
        self.publisher, self.subscriber, self.writer, self.reader = publisher, subscriber, writer, reader
        self.differences = []
        self.judge_groups()
        self.judge_slots()
        self.judge_datasets()
        self.judge_keys()

    def differ(self, key, there, here, what=None):
        """Notes a difference: the publisher's table `there` and the subscriber's `here`, each a path."""
        values = [toml(it) if it not in ("", None) else "absent" for it in (self.publisher.value(there, key), self.subscriber.value(here, key))]
        self.differences.append((what or f"`{key}`", f"{self.publisher.place(there, key)} has {values[0]}", f"{self.subscriber.place(here, key)} has {values[1]}"))

    def compare(self, wanted, there, here, what=None):
        for key in wanted:
            if self.publisher.value(there, key) != self.subscriber.value(here, key):
                self.differ(key, there, here, what and f"`{key}` of {what}")

    def judge_groups(self):
        there, here = self.writer[:2], self.reader[:2]
        if self.subscriber.value(here, "publisher") != self.publisher.value(["publisher"], "id"):
            values = (toml(self.publisher.value(["publisher"], "id")), toml(self.subscriber.value(here, "publisher")))
            self.differences.append(("the publisher's id", f"{self.publisher.place(['publisher'], 'id')} has {values[0]}",
                                     f"{self.subscriber.place(here, 'publisher')} has {values[1]}"))
        asked, has = self.subscriber.value(here, "group"), self.publisher.value(there, "id")
        if asked != has and not (asked == 0 and self.subscriber.value(here, "layout") == "dynamic"):
            self.differences.append(("the WriterGroupId", f"{self.publisher.place(there, 'id')} has {has}", f"{self.subscriber.place(here, 'group')} has {asked}"))
        for key, any_is_asked in OF_GROUPS:
            if not (any_is_asked and self.subscriber.value(here, key) in (0, "")) and self.publisher.value(there, key) != self.subscriber.value(here, key):
                self.differ(key, there, here)

    def judge_slots(self):
        if self.publisher.value(self.writer, "id") != self.subscriber.value(self.reader, "writer"):
            self.differences.append(("the DataSetWriterId", f"{self.publisher.place(self.writer, 'id')} has {self.publisher.value(self.writer, 'id')}",
                                     f"{self.subscriber.place(self.reader, 'writer')} has {self.subscriber.value(self.reader, 'writer')}"))
        if self.publisher.value(self.writer[:2], "layout") == "fixed":
            self.compare(("offset", "size"), self.writer, self.reader)

    def judge_datasets(self):
        there, here = (["dataset", file.index("dataset", file.at(path)["dataset"])] for file, path in ((self.publisher, self.writer), (self.subscriber, self.reader)))
        self.compare(OF_DATASETS, there, here, "the data set")
        fields = [file.at(path)["field"] for file, path in ((self.publisher, there), (self.subscriber, here))]
        if len(fields[0]) != len(fields[1]):
            self.differences.append(("the fields of the data set", f"{self.publisher.place(there)} has {len(fields[0])}", f"{self.subscriber.place(here)} has {len(fields[1])}"))
        for i in range(min(map(len, fields))):
            self.compare(OF_FIELDS, [*there, "field", i], [*here, "field", i], f"field {i + 1} of the data set")

    def judge_keys(self):
        if not (is_secured(self.publisher.at(self.writer[:2])) and is_secured(self.subscriber.at(self.reader[:2]))):
            return
        there, here = (["keygroup", file.index("keygroup", file.at(path[:2])["keygroup"])] for file, path in ((self.publisher, self.writer), (self.subscriber, self.reader)))
        self.compare(("policy", "first_block"), there, here, "the key group")
        counts = [len(file.at(path)["key"]) for file, path in ((self.publisher, there), (self.subscriber, here))]
        if counts[0] != counts[1]:
            self.differences.append(("the keys of the key group", f"{self.publisher.place(there)} has {counts[0]}", f"{self.subscriber.place(here)} has {counts[1]}"))
        for i in range(min(counts)):
            for key in OF_KEYS:
                if self.publisher.value([*there, "key", i], key) != self.subscriber.value([*here, "key", i], key):
                    places = (self.publisher.place([*there, "key", i], key), self.subscriber.place([*here, "key", i], key))
                    self.differences.append((f"`{key}` of key {i + 1}", f"{places[0]}", f"{places[1]} has another"))


def pairs(publisher, subscriber):
    """Of each reader its name and the pair with the writer that its file differs least from, or None where there is no writer."""
    writers = [["group", g, "writer", w] for g, group in enumerate(publisher.doc.get("group", [])) for w in range(len(group.get("writer", [])))]
    for r, group in enumerate(subscriber.doc.get("readgroup", [])):
        for i in range(len(group.get("reader", []))):
            path = ["readgroup", r, "reader", i]
            found = [Pair(publisher, subscriber, writer, path) for writer in writers]
            yield path, min(found, key=lambda pair: len(pair.differences), default=None)


def told(publisher, subscriber):
    """Of each reader the place of its table, whether it is paired, what is said of it, and rows below."""
    for path, pair in pairs(publisher, subscriber):
        name = named(subscriber.doc, path)
        if pair is None:
            yield subscriber.place(path), False, f"{name}: the publisher has no writer", []
            continue
        writer = named(publisher.doc, pair.writer)
        rows = [("differs", f"{what}: {there}, {here}") for what, there, here in pair.differences]
        said = f"reads {writer}" if not pair.differences else f"isn't matched; nearest is {writer}"
        yield subscriber.place(path), not pair.differences, f"{name}: {said}", rows
