"""What a refused line of a script has: what is wrong with it, and what would be right there."""
from . import values
from .config import MOST_WORDS, words_of
from .rules import KINDS, MOST as MOST_TABLES, one_of, shown

FORMS = {"write": "write THREAD DATASET F=V ..", "tick": "tick MS", "enable": "enable NAME", "disable": "disable NAME",
         "append": "append DATASET FIELD KIND, or with CAP behind it", "watch": "watch THREAD READER N",
         "fate": "fate K drop, fate K repeat N, fate K hold J or fate K again J"}
# The numbers of each line: the word's place, its name, and its range.
RANGES = {"write": [(1, "THREAD", 0, 7)], "tick": [(1, "MS", 1, 3600000)], "append": [(4, "CAP", 1, 256)], "watch": [(1, "THREAD", 0, 7), (3, "N", 1, 1000)]}
FATES = {"drop": None, "repeat": ("N", 2, 8), "hold": ("J", 0, 1000000), "again": ("J", 0, 1000000)}
MOST_FIELDS = MOST_TABLES["field"]
MOST = {"tick": (4096, "ticks"), "write": (32768, "writes"), "fate": (256, "fates"), "watch": (64, "watches"), "append": (16, "appends")}


def is_name(text):
    return 1 <= len(text) <= 32 and text[0].isalpha() and all(it in "abcdefghijklmnopqrstuvwxyz0123456789_" for it in text)


class Line:
    """A line of a script, with the configuration and the lines before it."""

    def __init__(self, raw, number, doc, command):
        lines = [it.decode("utf-8", "backslashreplace") for it in raw.split(b"\n")]
        self.raw = raw.split(b"\n")[number - 1] if number <= len(lines) else b""
        self.words = lines[number - 1].split(" ") if number <= len(lines) else []
        self.words = [it for it in self.words if it]
        self.before = [words for words in ([it for it in line.split(" ") if it] for line in lines[: number - 1]) if words and words[0][0] != "#"]
        self.doc, self.command = doc, command
        self.verb = self.words[0] if self.words else ""

    # ---- what is there at this line

    def set_named(self, name):
        return next((it for it in self.doc.get("dataset", []) if it.get("name") == name), None)

    def fields(self, name):
        """The fields that the data set has by then."""
        found = {it["name"]: (it["kind"], it.get("cap", 0)) for it in (self.set_named(name) or {}).get("field", [])}
        for words in self.before:
            if words[0] == "append" and len(words) > 3 and words[1] == name:
                found[words[2]] = (words[3], int(words[4]) if len(words) > 4 and words[4].isdigit() else 0)
        return found

    def components(self):
        tables = [(it, it.get(inner, [])) for outer, inner in (("group", "writer"), ("readgroup", "reader")) for it in self.doc.get(outer, [])]
        return ["root", "connection", *(name for it, inner in tables for name in (it["name"], *(below["name"] for below in inner)))]

    def readers(self):
        return [it["name"] for group in self.doc.get("readgroup", []) for it in group.get("reader", [])]

    def sets(self):
        return [it["name"] for it in self.doc.get("dataset", [])]

    def pairs(self):
        """The words of a line `write` that give fields a value: the field, the status where one is given, and the value."""
        for word in self.words[3:]:
            head, _, text = word.partition("=")
            field, mark, status = head.partition("!")
            yield field, status if mark else None, text

    # ---- what is wrong there, and what would be right

    def there(self, code):
        return getattr(self, f"there_{code}")()

    def there_1(self):
        place = next(it for it, byte in enumerate(self.raw) if not 0x20 <= byte <= 0x7e)
        names = {9: "a tab", 13: "a carriage return"}
        return f"{names.get(self.raw[place], f'the byte {self.raw[place]:02x}')} in column {place + 1}", None

    def there_2(self):
        return f"the line has {len(self.raw):,} bytes", None

    def there_3(self):
        if self.verb == "fate" and len(self.words) > 2:
            return f"`{shown(self.words[2])}` is no fate", one_of(self.words[2], FATES, "the fates are")
        return f"no line begins with `{shown(self.verb)}`", one_of(self.verb, FORMS, "lines begin with")

    def there_4(self):
        bare = next((it for it in self.words[3:] if "=" not in it), None) if self.verb == "write" and len(self.words) > 3 else None
        if bare:
            return f"`{shown(bare)}` has no `=`", f"`{shown(bare)}=V`, with a value V"
        return f"`{self.verb}` with {len(self.words) - 1 or 'no'} word{'' if len(self.words) == 2 else 's'} behind it", f"`{FORMS.get(self.verb, '')}`"

    def numbers(self):
        """The places of the line's numbers, with their names and ranges."""
        found = list(RANGES.get(self.verb, []))
        if self.verb == "fate":
            found.append((1, "K", 0, 1000000))
            if len(self.words) > 3 and FATES.get(self.words[2]):
                name, low, high = FATES[self.words[2]]
                number = self.words[1]
                found.append((3, name, int(number) + 1 if name == "J" and values.is_decimal(number, 0, high - 1) else low, high))
        return [it for it in found if it[0] < len(self.words)]

    def there_5(self):
        for place, name, low, high in self.numbers():
            word = self.words[place]
            if not values.is_decimal(word, low, high):
                number = values.number_in(word.lstrip("0") or "0")
                right = min(max(int(number), low), high) if number is not None else low
                zero = word.isdigit() and word[0] == "0" and len(word) > 1
                why = "has a leading zero" if zero else "is out of range" if word.isdigit() else "is no decimal number"
                return f"`{shown(word)}` {why}", f"`{right}` for {name}, which is {low} to {high}"
        return None, None

    def there_6(self):
        places = {"write": (2, self.sets(), "data set"), "append": (1, self.sets(), "data set"), "watch": (2, self.readers(), "reader")}
        place, there, what = places.get(self.verb, (1, self.components(), "component"))
        return f"there is no {what} `{shown(self.words[place])}`", one_of(self.words[place], there, "there are")

    def there_7(self):
        fields, seen = self.fields(self.words[2]), []
        for field, _, _ in self.pairs():
            if field not in fields:
                return f"`{self.words[2]}` has no field `{shown(field)}` at this line", one_of(field, fields, "its fields are")
            if field in seen:
                return f"`{field}` stands twice", "each field once in a line"
            seen.append(field)
        return None, None

    def there_8(self):
        if self.verb == "append":
            return f"`{shown(self.words[3])}` is no kind", one_of(self.words[3], KINDS, "the kinds are")
        fields, quality = self.fields(self.words[2]), (self.set_named(self.words[2]) or {}).get("quality", False)
        for field, status, text in self.pairs():
            kind, cap = fields.get(field, ("String", 256))
            if not values.is_text(kind, cap, text):
                right = f"`{field}={values.meant(kind, cap, text)}`; {kind}: {values.how(kind, cap)}"
                return f"`{shown(text)}` is no text of `{field}`, whose kind is {kind}", right
            if status is not None and not values.is_text("StatusCode", 0, status):
                right = f"`{field}!{values.meant('StatusCode', 0, status)}={text}`; a status: {values.how('StatusCode', 0)}"
                return f"`{shown(status)}` is no text of a status", right
            if status not in (None, "0x00000000") and not quality:
                return f"`{field}` has a status, and the data set `{self.words[2]}` has none", f"`{field}={text}`, or `quality = true` in the data set"
        return None, None

    def there_9(self):
        switches = [words[0] for words in self.before if words[0] in ("enable", "disable") and words[1:] == self.words[1:]]
        on = not switches or switches[-1] == "enable"
        return f"`{self.words[1]}` is {'enabled' if on else 'disabled'} at this line", f"`{'disable' if on else 'enable'} {self.words[1]}`, or no line"

    def there_10(self):
        most, what = MOST.get(self.verb, (0, "lines"))
        return f"{most:,} {what} stand before this line", f"{most:,} {what} at most"

    def there_11(self):
        if self.command == "run":
            return "`run` sends over a socket, which obeys no fates", "no `fate` line, or `play`"
        number = self.words[1]
        if any(words[0] == "fate" and words[1:2] == [number] for words in self.before):
            return f"datagram {number} has a fate already", "one fate for a datagram"
        return f"{self.words[3]} isn't above {number}", f"`fate {number} {self.words[2]} {int(number) + 1}`, or a greater number"

    def there_12(self):
        name, field = self.words[1], self.words[2]
        if not is_name(field):
            return f"`{shown(field)}` is no name", "1 to 32 of `a` to `z`, `0` to `9` and `_`, a letter first"
        if field in self.fields(name):
            return f"`{name}` has a field `{field}` already", f"`{field}_2`"
        for group in self.doc.get("group", []):
            for writer in group.get("writer", []):
                if writer.get("dataset") == name and not writer.get("versions"):
                    return f"the writer `{writer['name']}` of `{name}` has no `versions`, so its readers couldn't tell", f"`versions = true` in `{writer['name']}`"
                if writer.get("dataset") == name and group.get("layout") == "fixed":
                    return f"the writer `{writer['name']}` of `{name}` is in a fixed group", "a dynamic group"
        kind = self.words[3]
        if (kind in ("String", "ByteString")) != (len(self.words) > 4):
            capped = kind in ("String", "ByteString")
            return f"`{kind}` {'needs a CAP' if capped else 'has no CAP'}", f"`append {name} {field} {kind}{' 16' if capped else ''}`"
        return self.no_room(name, [*self.fields(name).values(), (kind, int(self.words[4]) if len(self.words) > 4 else 0)])

    def no_room(self, name, fields):
        """Why no further field fits: of the data set with it, or of a datagram."""
        it = self.set_named(name) or {}
        words = sum(words_of({"kind": kind, "cap": cap}) for kind, cap in fields) + ((len(fields) + 1) // 2 if it.get("quality") else 0)
        minor = it.get("minor", 0) + sum(words[0] == "append" and words[1:2] == [name] for words in self.before)
        if len(fields) > MOST_FIELDS or words > MOST_WORDS:
            return f"with it `{name}` has {len(fields)} fields of {words} words", f"at most {MOST_FIELDS} fields, and {MOST_WORDS} words"
        if minor >= 2**32 - 1:
            return f"`{name}` has the minor version {minor} at this line, the last", f"a smaller `minor` of `{name}`"
        return f"with it the messages of `{name}` are too long for a group", "a greater `max_size` of the group, or fewer fields"

    def there_13(self):
        return f"`lanes` has no line `{shown(self.verb)}`", "`write`, `tick` or `fate`, or `play` in place of `lanes`"
