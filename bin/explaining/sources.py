"""Why a data set of a gateway's second configuration has no source in the first (docs/GATEWAY.md, Sources)."""
from .rules import listed, one_of


def fields_of(it):
    return [(field["name"], field["kind"], field.get("cap")) for field in it.get("field", [])]


def reader_named(doc, name):
    return next(((group, reader) for group in doc.get("readgroup", []) for reader in group.get("reader", []) if reader["name"] == name), None)


def is_matched(doc, group, reader):
    """Whether the reader reads a writer of the same program (its read group's settings aside)."""
    return group["publisher"] == doc["publisher"]["id"] and any(
        writer["id"] == reader["writer"] and writer["dataset"] == reader["dataset"] and group.get("group", 0) in (0, its["id"])
        for its in doc.get("group", []) for writer in its.get("writer", []))


def there(first, it):
    """What is wrong with this data set, and what would be right."""
    found = reader_named(first, it["name"])
    if not found:
        names = [reader["name"] for group in first.get("readgroup", []) for reader in group.get("reader", [])]
        right = one_of(it["name"], names, "its readers are", '`name = "{}"`')
        return f"no reader of the first configuration is named `{it['name']}`", right
    group, reader = found
    its = next(other for other in first["dataset"] if other["name"] == reader["dataset"])
    if reader.get("numbering", "message") != "message":
        return f"the reader `{it['name']}` has no numbers", '`numbering = "message"` there'
    if fields_of(its) != fields_of(it):
        fields = [f"{name} {kind}" + (f" {cap}" if cap else "") for name, kind, cap in fields_of(its)]
        return f"its fields aren't those of `{its['name']}`, which the reader `{it['name']}` has", f"the fields {listed(fields)}"
    for key, least in (("major", 1), ("quality", False)):
        if its.get(key, least) != it.get(key, least):
            return f"its `{key}` isn't that of `{its['name']}`", f"`{key} = {str(its.get(key, least)).lower()}`"
    if not is_matched(first, group, reader):
        right = "a reader whose `publisher`, `group`, `writer` and `dataset` are those of a writer there"
        return f"the reader `{it['name']}` reads no writer of the first configuration", right
    wrong = f"the reader `{it['name']}` isn't matched: its read group asks for other settings than its writer's group has"
    return wrong, "equal `layout`, `security`, `keygroup`, `version` and `class_id` in both"
