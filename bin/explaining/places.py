"""Where things stand in a configuration's text: Python's tomllib reads it, and the first lines that are a document with what is looked
for are those up to it."""
import itertools, re, tomllib
from .rules import INNER, shown


class Text:
    """A configuration's text: which line a table or a key begins at. Lines from the first on that are a document have what they define."""

    def __init__(self, text):
        self.lines = text.removeprefix("\ufeff").split("\n")
        self.parsed = {}

    def up_to(self, count, closing=""):
        """The document of the first lines, or None where they are none."""
        if (count, closing) not in self.parsed:
            try:
                self.parsed[count, closing] = tomllib.loads("\n".join(self.lines[:count]) + closing)
            except tomllib.TOMLDecodeError:
                self.parsed[count, closing] = None
        return self.parsed[count, closing]

    def first(self, path, counts, closings=("",)):
        """The first count of lines whose document has what stands at the path."""
        for count in counts:
            for closing in closings:
                found = self.up_to(count, closing)
                if found is not None and at(found, path) is not None:
                    return count
        return None

    def lacking(self, path):
        """A count of lines that lack what stands at the path, close below the first that have it: more lines define more."""
        low, high = 0, len(self.lines)
        while high - low > 1:
            middle = (low + high) // 2
            while middle > low and self.up_to(middle) is None:
                middle -= 1
            if middle == low:
                return low
            if at(self.up_to(middle), path) is None:
                low = middle
            else:
                high = middle
        return low

    def line_of(self, path):
        """The line, from 1, where what stands at the path begins to stand there; None where no line can be told."""
        last = self.first(path, range(self.lacking(path) + 1, len(self.lines) + 1))
        if last is None:
            return None
        begin = last - 1
        while begin > 0 and self.up_to(begin) is None:
            begin -= 1
        if begin + 1 < last:
            # a value of several lines: what is open behind one of them is closed by some of these
            closings = ["".join(it) for many in range(1, 7) for it in itertools.product("]}", repeat=many)]
            return self.first(path, range(begin + 1, last), closings) or last
        return last


def at(value, path):
    """What stands at the path of keys and indexes, or None."""
    for step in path:
        if isinstance(step, int):
            value = value[step] if isinstance(value, list) and step < len(value) else None
        else:
            value = value.get(step) if isinstance(value, dict) else None
        if value is None:
            return None
    return value


def steps(path):
    """`group[0].writer[1]` as steps of keys and indexes."""
    return [] if path == "." else [int(it[1:-1]) if it[0] == "[" else it for it in re.findall(r"\w+|\[\d+\]", path)]


def tables(doc):
    """Every table below the document with its steps, in the order in which they are judged."""
    for outer, inner in INNER:
        for i, it in enumerate(doc.get(outer, [])):
            yield [outer, i], it
            for j, below in enumerate(it.get(inner, [])):
                yield [outer, i, inner, j], below


def named(doc, path):
    """The table by its name and the names of the tables around it."""
    if not path:
        return "the document"
    words = []
    for end in range(1, len(path) + 1):
        if end == len(path) or isinstance(path[end - 1], int):
            it = at(doc, path[:end])
            name = it.get("name") if isinstance(it, dict) else None
            kind = ".".join(step for step in path[:end] if isinstance(step, str))
            place = f" {path[end - 1] + 1}" if isinstance(path[end - 1], int) else ""
            words.append(f"[{kind}]{place}" if end == 1 and not place else f"[[{kind}]]{place}" + (f' "{shown(name)}"' if name is not None else ""))
    return ", ".join(words)


def header_line(text, path):
    """The line of the table's header, by the headers alone; None where there is none."""
    lines, line, names = text.split("\n"), 0, []
    for step in path:
        if isinstance(step, str):
            names.append(step)
            pattern = re.compile(r"\s*\[\[?\s*" + r"\s*\.\s*".join(names) + r"\s*\]")
        found = [it for it, text_of in enumerate(lines[line:], line + 1) if pattern.match(text_of)]
        if isinstance(step, int) or step == "publisher":
            index = step if isinstance(step, int) else 0
            if index >= len(found):
                return None
            line = found[index]
    return line or (None if path else 1)
