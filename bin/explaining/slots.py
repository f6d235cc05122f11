"""What a fixed datagram needs: the header's bytes, the bytes of a slot, and where one may begin."""
from .places import at
from .rules import shown

WIDTHS = {"Boolean": 1, "SByte": 1, "Byte": 1, "Int16": 2, "UInt16": 2, "Int32": 4, "UInt32": 4, "Int64": 8, "UInt64": 8, "Float": 4, "Double": 8,
          "DateTime": 8, "Guid": 16, "StatusCode": 4}


def is_secured(group):
    return group.get("security", "none") != "none"


def header_bytes(doc, group):
    """The length of the header of a fixed group's datagrams (docs/CONFIGURATION.md, Where a fixed slot begins)."""
    kind, _, text = doc["publisher"]["id"].partition(":")
    extended = kind != "u8" or is_secured(group) or "class_id" in group
    publisher = 4 + len(text) if kind == "text" else int(kind[1:]) // 8
    return (1 + extended + publisher + 16 * ("class_id" in group) + 3 + 4 * (group.get("version", 0) != 0) + 2 * group.get("message_number", False)
            + 2 * group.get("sequence", True) + 14 * is_secured(group))


class Slot:
    """The slot of a writer or a reader of a fixed group, and the bounds that it has to keep."""

    def __init__(self, doc, path):
        self.group, self.it, self.earlier = at(doc, path[:2]), at(doc, path), at(doc, path[:3])[: path[3]]
        self.is_writer = path[0] == "group"
        self.header = header_bytes(doc, self.group) if self.is_writer else 0
        fields = next((d.get("field", []) for d in doc.get("dataset", []) if d.get("name") == self.it.get("dataset")), [])
        self.values = sum(WIDTHS.get(field["kind"], 4 + field.get("cap", 0)) for field in fields)
        self.front = 11 if self.is_writer and self.it.get("versions") else 3
        self.signed = 32 if is_secured(self.group) else 0
        self.limit = (self.group.get("max_size", 1400) if self.is_writer else 65000) - self.signed
        self.offset, self.size = self.it.get("offset", 0), self.it.get("size", 0)
        self.needs = self.front + self.values

    def free(self):
        """The first byte behind the header and all earlier slots."""
        return max([self.header, *(it.get("offset", 0) + it.get("size", 0) for it in self.earlier)])

    def notes(self, code):
        """What the refusal goes by: the header and the slots before, the bytes that it needs, or the limit."""
        if code == 22:
            ends = [f"the header has {self.header} bytes"] if self.is_writer else []
            begins = [(it["name"], it.get("offset", 0), it.get("size", 0)) for it in self.earlier]
            return ends + [f"slot of {shown(name)}: from {offset}, before {offset + size}" for name, offset, size in begins]
        if code == 23:
            return [f"{self.needs} bytes are needed: {self.front} and {self.values} of values"]
        return [f"the slot ends before {self.offset + self.size}, and may before {self.limit} at most"]

    def there(self, code):
        """What is wrong, and what would be right."""
        if code == 22:
            return f"`offset = {self.offset}`", f"`offset = {self.free()}`, the first byte behind what stands before"
        if code == 23:
            return f"`size = {self.size}`", f"`size = {self.needs}`"
        if self.size > self.limit:
            return f"`size = {self.size}`", f"`offset` and `size` together at most {self.limit}"
        larger = f", or `max_size` at least {self.offset + self.size + self.signed}" if self.is_writer else ""
        return f"`offset = {self.offset}` and `size = {self.size}`", f"`offset` at most {self.limit - self.size}{larger}"
