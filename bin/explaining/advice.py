"""Advice on a configuration that is accepted: what is likely not what was meant."""
from .places import Text, named
from .slots import is_secured


def sources(doc, group, reader):
    """The program's own groups and writers that a reader reads."""
    for its in doc.get("group", []):
        if group["publisher"] == doc["publisher"]["id"] and group.get("group", 0) in (0, its["id"]):
            yield from ((its, writer) for writer in its.get("writer", []) if writer["id"] == reader["writer"])


def of_timeout(its, writer, timeout):
    """What is likely wrong with a reader's timeout, beside the writer that it reads."""
    keep_alive = writer.get("keep_alive", 0)
    if timeout <= its["interval"]:
        return (f"`timeout = {timeout}` isn't above the `interval` of {its['interval']} at which `{its['name']}` sends: "
                "the reader gives up a writer that is well")
    if writer.get("key_frame_count", 1) == 1:
        return None
    if keep_alive and timeout <= keep_alive:
        return (f"`timeout = {timeout}` isn't above the `keep_alive` of {keep_alive} of `{writer['name']}`: "
                "while nothing changes the reader gives up a writer that is well")
    silent = its["interval"] * writer["key_frame_count"]
    if not keep_alive and timeout <= silent:
        return (f"`{writer['name']}` sends nothing while nothing changes, for up to {silent} ms, and has no `keep_alive`: "
                f"`timeout = {timeout}` passes then")
    return None


def advice(text, doc):
    """Each piece of advice with its line."""
    lines = Text(text)
    for r, group in enumerate(doc.get("readgroup", [])):
        for i, reader in enumerate(group.get("reader", [])):
            path = ["readgroup", r, "reader", i]
            said = [of_timeout(*it, reader["timeout"]) for it in sources(doc, group, reader)] if reader.get("timeout") else []
            yield from ((lines.line_of([*path, "timeout"]), named(doc, path), it) for it in said if it)
    secured = {it.get("keygroup") for it in doc.get("group", []) if is_secured(it)}
    for k, ring in enumerate(doc.get("keygroup", [])):
        if ring["name"] in secured and "used" not in ring:
            yield (lines.line_of(["keygroup", k]), named(doc, ["keygroup", k]),
                   "no `used`: a second start under the same token repeats the keystream; "
                   "keep the last number in a file, and set `used` above it")
