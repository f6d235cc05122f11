"""What a refused configuration has: the key, what is wrong with it, and what would be right there."""
import re, tomllib
from .places import Text, at, header_line, named, steps, tables
from .rules import CHOICES, HEX, MOST, NUMBERS, SAMPLES, TRUTHS, keys, listed, one_of, shown, toml
from .slots import Slot

# The most words of a data set.
MOST_WORDS = 125
REFERENCES = {("group", "keygroup"), ("readgroup", "keygroup"), ("readgroup", "group"), ("group.writer", "dataset"), ("readgroup.reader", "dataset"),
              ("readgroup.reader", "writer")}


def header(table):
    """The table as its header has it."""
    return {".": "the document", "publisher": "[publisher]"}.get(table, f"[[{table}]]")


def is_number(value):
    return isinstance(value, int) and not isinstance(value, bool)


def wanted(table, key):
    """The type that the key wants."""
    if key in MOST and (table, key) not in REFERENCES:
        return "an array of tables"
    if key == "publisher" and table == ".":
        return "a table"
    return "a truth value" if key in TRUTHS else "a whole number" if key in NUMBERS and (table, key) != ("publisher", "id") else "a text"


def type_of(value):
    if isinstance(value, bool):
        return "a truth value"
    if isinstance(value, list):
        return "an array of tables" if all(isinstance(it, dict) for it in value) else "an array of other elements"
    names = {int: "a whole number", str: "a text", float: "a number with a point", dict: "a table"}
    return names.get(type(value), "a date or a time")


def is_publisher(text):
    number = re.fullmatch(r"u(8|16|32|64):(0|[1-9]\d*)", text)
    return int(number[2]) < 2 ** int(number[1]) if number else bool(re.fullmatch(r"text:[!-~]{1,64}", text))


def names_group(path):
    return "components" if path[0] in ("group", "readgroup") else (path[0], path[1] if len(path) > 2 else None, len(path))


def ids_group(path):
    return tuple(path[:2]) if path[0] == "readgroup" else (path[0], len(path))


def words_of(field):
    kind = field.get("kind")
    return 2 if kind == "Guid" else 1 + (field.get("cap", 0) + 7) // 8 if kind in ("String", "ByteString") else 1


class Refused:
    """A refusal of a configuration: the table, and of it the key that the refusal is of."""

    def __init__(self, doc, code, path):
        self.doc, self.code, self.path, self.other, self.key = doc, code, path, None, None
        self.listed = keys()[self.table]
        it = at(doc, path) if path else doc
        self.it = it if isinstance(it, dict) else {}
        self.outer = at(doc, path[:2]) if len(path) > 2 else {}
        finder = getattr(self, f"key_{code}", None)
        self.key = finder() if finder else None
        self.value = self.it.get(self.key)

    @property
    def table(self):
        return ".".join(step for step in self.path if isinstance(step, str)) or "."

    @property
    def kind(self):
        return header(self.table)

    def first(self, test):
        return next((key for key in self.it if test(key, self.it[key])), None)

    def names(self, outer):
        found = self.doc.get(outer)
        return [it["name"] for it in found if isinstance(it, dict) and isinstance(it.get("name"), str)] if isinstance(found, list) else []

    def earlier(self, key, group):
        """The table before this one that has the same value at the key, of those that are judged with it."""
        for steps_of, table in tables(self.doc):
            if steps_of == self.path:
                return None
            if group(steps_of) == group(self.path) and table.get(key) == self.it.get(key):
                return steps_of
        return None

    def sample(self, key):
        """A value that is right for a key of this table."""
        if wanted(self.table, key) == "an array of tables":
            return f"[{{..}}]`, or `[[{key if self.table == '.' else f'{self.table}.{key}'}]]"
        if wanted(self.table, key) == "a whole number":
            default = int(self.listed[key][1]) if self.listed[key][1].isdigit() else 0
            return SAMPLES.get(key, str(max(NUMBERS[key][0], default)))
        if key in ("dataset", "keygroup") and self.names(key):
            return toml(self.names(key)[0])
        if key in HEX:
            return '"' + "0" * self.digits(key)[0] + '"' if key == "random" else f'"..", {self.digits(key)[0]} hexadecimal digits'
        text = SAMPLES["publisher"] if (self.table, key) == ("publisher", "id") else SAMPLES.get(key, '"a_1"')
        return {"a truth value": "true", "a table": '{id = "u8:5"}'}.get(wanted(self.table, key), text)

    def digits(self, key):
        return (64 if self.outer.get("policy") == "aes256" else 32,) if key == "encrypting" else HEX[key]

    # ---- which key a refusal is of

    def key_2(self):
        return self.first(lambda key, _: key not in self.listed)

    def key_3(self):
        return next((key for key, row in self.listed.items() if row[1] == "required" and key not in self.it), None)

    def key_4(self):
        return self.first(lambda key, value: key in self.listed and type_of(value) != wanted(self.table, key))

    def key_6(self):
        return "name"

    def key_7(self):
        self.other = self.earlier("name", names_group)
        return "name"

    def key_8(self):
        return "id" if self.path == ["publisher"] else "publisher"

    def key_9(self):
        return self.first(lambda key, value: is_number(value) and key in NUMBERS and not NUMBERS[key][0] <= value <= NUMBERS[key][1])

    def key_10(self):
        return self.first(lambda key, value: key in CHOICES and value not in CHOICES[key])

    def key_11(self):
        return "class_id"

    def key_12(self):
        return self.first(lambda key, value: key in HEX and not (re.fullmatch("[0-9a-fA-F]*", value) and len(value) in self.digits(key)))

    def key_13(self):
        return "cap" if "cap" in self.it else "kind"

    def key_16(self):
        """The first key of the key group whose moment or token isn't above the one before."""
        listed_keys = self.it.get("key") or []
        for index, it in enumerate(listed_keys):
            before = listed_keys[index - 1] if index else None
            for key in ("from", "token"):
                if before and not before.get(key, 0) < it.get(key, 0) or key == "from" and not before and it.get(key) != 0:
                    self.path, self.it, self.before = [*self.path, "key", index], it, before
                    self.listed = keys()[self.table]
                    return key
        return None

    def key_17(self):
        return self.first(lambda key, value: key in ("dataset", "keygroup") and value not in self.names(key))

    def key_18(self):
        key = "writer" if self.path[0] == "readgroup" else "id"
        self.other = self.earlier(key, ids_group)
        return key

    def key_19(self):
        return "keygroup" if "keygroup" in self.it else "security"

    def key_20(self):
        return "keep_alive"

    def key_21(self):
        return "key_frame_count" if self.it.get("key_frame_count", 1) != 1 else "keep_alive" if self.it.get("keep_alive", 0) else "dataset"

    def key_22(self):
        return "offset"

    def key_23(self):
        return "size"

    key_24 = key_22

    def key_25(self):
        return "max_size"

    # ---- what is wrong there, and what would be right

    def there(self):
        """What is wrong there, and what would be right; the page's own words where nothing more is known."""
        teller = getattr(self, f"there_{self.code}", None)
        return teller() if teller else (None, None)

    def written(self):
        return f"`{shown(self.key)} = {toml(self.value)}`"

    def there_2(self):
        others = [header(table) for table, rows in keys().items() if self.key in rows]
        wrong = f"{self.kind} has no key `{shown(self.key)}`" + (f", which is one of {listed(others, form='{}')}" if others else "")
        return wrong, one_of(self.key, self.listed, "its keys are")

    def there_3(self):
        return f"{self.kind} has no `{self.key}`", f"`{self.key} = {self.sample(self.key)}`"

    def there_4(self):
        want = wanted(self.table, self.key)
        text = str(self.value).lower()
        same = text if want == "a whole number" and re.fullmatch(r"-?(0|[1-9]\d*)", text) or want == "a truth value" and text in ("true", "false") else None
        if is_number(self.value) and "publisher" in (self.key, self.table) and 0 <= self.value < 2**64:
            same = f'"u{next(it for it in (16, 32, 64) if self.value < 2**it)}:{self.value}"'
        if want == "a table":
            same = f"{{id = {same or toml(self.value if isinstance(self.value, str) and is_publisher(self.value) else 'u8:5')}}}"
        return f"{self.written()} is {type_of(self.value)}, and `{self.key}` wants {want}", f"`{self.key} = {same or self.sample(self.key)}`"

    def there_5(self):
        inner = self.path[-2]
        of = "all tables" if inner in ("writer", "reader") else self.kind
        return f"{named(self.doc, self.path)} is one too many", f"{MOST[inner]} in {of} at most" if of != self.kind else f"{MOST[inner]} at most"

    def there_6(self):
        name = self.value
        bad = next((it for it in name if not re.fullmatch("[a-z0-9_]", it)), None)
        why = ("it is empty" if not name else f"`{shown(bad)}` isn't one of `a` to `z`, `0` to `9` and `_`" if bad
               else f"it begins with `{name[0]}`, and a letter has to stand first" if not name[0].isalpha()
               else f"it has {len(name)} bytes, and 32 are the most")
        right = re.sub("[^a-z0-9_]", "_", name.lower()).strip("_")[:32]
        right = right if right[:1].isalpha() else ("a_" + right)[:32].rstrip("_")
        return f"{self.written()}: {why}", f'`name = "{right}"`'

    def there_7(self):
        taken = {table.get("name") for steps_of, table in tables(self.doc) if names_group(steps_of) == names_group(self.path)} | {"root", "connection"}
        free = next(it for it in (f"{self.value[:29]}_{n}" for n in range(2, 100)) if it not in taken)
        why = "is the name of a component that each device has" if self.value in ("root", "connection") and not self.other else "is there already"
        return f"{self.written()} {why}", f'`name = "{free}"`'

    def there_8(self):
        number, typed = re.fullmatch(r"u(8|16|32|64):(\d+)", self.value), re.fullmatch(r"[uU](8|16|32|64):(.*)", self.value, re.DOTALL)
        if number:
            width = next((it for it in (8, 16, 32, 64) if int(number[2]) < 2**it), None)
            why = f"u{number[1]} ends at {2 ** int(number[1]) - 1}" if int(number[2]) >= 2 ** int(number[1]) else "a number has no leading zero"
            right = f'"u{max(width, int(number[1]))}:{int(number[2])}"' if width else '"u64:18446744073709551615"'
        elif self.value.startswith("text:"):
            why, right = "a text has 1 to 64 bytes, each from `!` to `~`", toml("text:" + (re.sub("[^!-~]", "-", self.value[5:])[:64] or "a-1"))
        elif typed:
            digits = re.sub(r"\D", "", typed[2]).lstrip("0") or "1"
            small = self.value[0] == "u"
            why = f"`{shown(typed[2])}` is no decimal number" if small else "a publisher begins with `u`, not `U`"
            right = toml(f"u{typed[1]}:{digits if int(digits) < 2 ** int(typed[1]) else 1}")
        else:
            number, is_text = re.fullmatch(r"0*(\d{1,4})", self.value), re.fullmatch("[!-~]{1,64}", self.value)
            why = "a publisher begins with `u8:`, `u16:`, `u32:`, `u64:` or `text:`"
            right = f'"u16:{number[1]}"' if number else toml(f"text:{self.value}") if is_text else '"u16:2234"'
        return f"{self.written()}: {why}", f"`{self.key} = {right}`"

    def there_9(self):
        low, high = NUMBERS[self.key]
        return f"{self.written()} is out of range", f"`{self.key} = {min(max(self.value, low), high)}`; {low} to {high} are in range"

    def there_10(self):
        return f"{self.written()} is none of the choices", one_of(self.value, CHOICES[self.key], "there are", f'`{self.key} = "{{}}"`')

    def there_11(self):
        low = str(self.value).strip("{}").lower()
        right = low if re.fullmatch(r"[0-9a-f]{8}(-[0-9a-f]{4}){3}-[0-9a-f]{12}", low) else SAMPLES["class_id"].strip('"')
        return self.written(), f'`class_id = "{right}"`'

    def there_12(self):
        bad = next((it for it in self.value if not re.fullmatch("[0-9a-fA-F]", it)), None)
        why = f"`{shown(bad)}` is no hexadecimal digit" if bad else f"there are {len(self.value)} digits"
        return f"of `{self.key}` {why}", f"{' or '.join(map(str, self.digits(self.key)))} hexadecimal digits"

    def there_13(self):
        kind = self.it.get("kind")
        if "cap" in self.it:
            return f"{self.written()} with `kind = \"{shown(kind)}\"`", f"no `cap`, which is of a String or a ByteString alone"
        return f"{self.written()} without a `cap`", "`cap = 16`, the most bytes of its texts: 1 to 256"

    def there_15(self):
        fields = self.it.get("field", [])
        words = sum(map(words_of, fields)) + ((len(fields) + 1) // 2 if self.it.get("quality") else 0)
        return f"its fields take {words} words", f"{MOST_WORDS} at most: fewer fields, or smaller caps"

    def there_16(self):
        if self.key is None:
            return "the key group has no key", "a `[[keygroup.key]]`"
        least = (self.before or {}).get(self.key, -1) + 1
        return f"{self.written()}", f"`{self.key} = {least}`" + (" or more" if self.before else "")

    def there_17(self):
        there = self.names(self.key)
        return f"{self.written()}: there is no [[{self.key}]] of this name", one_of(self.value, there, "there are", f'`{self.key} = "{{}}"`')

    def there_18(self):
        taken = {table.get(self.key) for steps_of, table in tables(self.doc) if ids_group(steps_of) == ids_group(self.path)}
        return f"{self.written()} is there already", f"`{self.key} = {next(it for it in range(1, 65536) if it not in taken)}`"

    def there_19(self):
        if "keygroup" in self.it:
            return f"{self.written()}, and messages aren't secured", '`security = "sign"` or `"encrypt"` beside it, or no `keygroup`'
        there = self.names("keygroup")
        return f"{self.written()} without a key group", f"`keygroup = {toml(there[0])}` beside it" if there else "a `[[keygroup]]`, and its name as `keygroup` beside it"

    def there_20(self):
        interval = self.outer.get("interval")
        return f"{self.written()}, and the group's interval is {interval}", f"`keep_alive = {interval}` or more, or 0 for none"

    def there_21(self):
        if self.key == "dataset":
            return f"{self.written()} has quality", "a data set without `quality`, or a dynamic layout"
        return f"{self.written()} in a fixed layout", f"`{self.key} = {1 if self.key == 'key_frame_count' else 0}`"

    def there_22(self):
        return Slot(self.doc, self.path).there(self.code)

    there_23 = there_24 = there_22

    def there_25(self):
        size = self.it.get("max_size", 1400)
        wrong = f"`max_size = {size}`" + ("" if "max_size" in self.it else ", as it is absent") + " for the messages of all its writers"
        return wrong, f"a greater `max_size`, as {max(1400, min(65000, 2 * size))}, or fewer writers"


class Unread:
    """What is told of a configuration that Python's reader doesn't read."""

    def __init__(self, text, code, path_text, error):
        found = re.search(r"\(at (?:line (\d+), column \d+|(end of document))\)", str(error))
        self.line = int(found[1]) if found and found[1] else behind_the_last_document(text)
        self.table, self.notes = "the document", [f"the reader says: {shown(error)}"]
        if code != 1:
            # Python's reader is of TOML 1.0, the program's takes what 1.1 adds
            self.line, self.table = header_line(text, steps(path_text)), f"{path_text}, counted from 0"
            self.notes = [f"the key isn't looked for, since Python's reader says: {shown(error)}"]
        self.code, self.lines = code, text.removeprefix("\ufeff").split("\n")

    def there(self):
        """The line that can't be read, and that line put right, where one small change does it: then the text up to it is read."""
        if self.code != 1:
            return None, None
        front, wrong = self.lines[: self.line - 1], self.lines[self.line - 1].rstrip("\r")
        right = next((it for it in mended(wrong) if is_document([*front, it])), None)
        return f"`{shown(wrong.strip())}`", f"`{shown(right.strip())}`" if right else "nothing that one small change of this line gives: see what the reader says"


def behind_the_last_document(text):
    """The line from which on no front of the text is a document: where what isn't closed begins."""
    lines = text.removeprefix("\ufeff").split("\n")
    return next(count for count in range(len(lines) - 1, -1, -1) if is_document(lines[:count])) + 1


def is_document(lines):
    try:
        tomllib.loads("\n".join(lines))
    except tomllib.TOMLDecodeError:
        return False
    return True


def mended(line):
    """The line with one small change: an end that is missing, or too much of one, another sign between key and value, quotes round a value."""
    body, sign, comment = line.partition(" #")
    body, rest = body.rstrip(), sign + comment
    yield from (body + end + rest for end in ("]", "]]", '"', "'", "}", ")", "}]", "']", '"]'))
    yield from (body[:-count] + rest for count in (1, 2) if body[-1:] in "],;}\"'")
    found = re.match(r"\s*([\w-]+)\s*(?::=|==|:|=|\s)\s*(.*)$", body)
    if found:
        key, value = found[1], found[2].strip().strip("\"'").rstrip(",;")
        values = [found[2].rstrip(",;"), *[value.lower()] * (value.lower() in ("true", "false")), *[value.lstrip("0") or "0"] * value.isdigit(), f'"{value}"']
        yield from (f"{key} = {it}{rest}" for it in values if it)
    head = re.match(r"\s*\[+\s*([\w.-]+)\s*\]*\s*$", body)
    if head:
        yield from (it + rest for it in (f"[{head[1]}]", f"[[{head[1]}]]"))


def explain(text, code, path_text):
    """The line, the table, the key, notes, what is wrong there and what would be right."""
    try:
        doc = tomllib.loads(text.removeprefix("\ufeff"))
    except tomllib.TOMLDecodeError as error:
        unread = Unread(text, code, path_text, error)
        return unread.line, unread.table, None, unread.notes, *unread.there()
    refused, lines = Refused(doc, code, steps(path_text)), Text(text)
    path, key, other = refused.path, refused.key, refused.other
    key_line = lines.line_of([*path, key]) if key else None
    said = []
    if key and at(doc, [*path, key]) is None:
        said.append(f"`{shown(key)}` isn't there" + ("" if code in (3, 13, 25) else " and so 0"))
    if other:
        where = lines.line_of([*other, key])
        said.append(f"the other is {named(doc, other)}" + (f", in line {where}" if where else ""))
    if code in (22, 23, 24):
        said += Slot(doc, path).notes(code)
    if key in refused.listed:
        what, default = refused.listed[key]
        said.append(f"`{key}` is {what}" + (", and required" if default == "required" else f"; where it is absent {default}" if default != "absent" else ""))
    return key_line or (lines.line_of(path) if path else 1), named(doc, path), key, said, *refused.there()
