"""The rules, as docs/CONFIGURATION.md and docs/SCRIPT.md have them, and the ranges and words of values."""
import difflib, json, os, re

TOP = os.path.dirname(os.path.dirname(os.path.dirname(os.path.realpath(__file__))))
NUMBERS = {"major": (0, 2**32 - 1), "minor": (0, 2**32 - 1), "port": (0, 65535), "cap": (1, 256), "first_block": (0, 1), "used": (0, 2**32 - 1),
           "token": (0, 2**32 - 1), "from": (0, 2**40), "interval": (1, 3600000), "max_size": (128, 65000), "version": (0, 2**32 - 1),
           "key_frame_count": (1, 65535), "keep_alive": (0, 3600000), "first_number": (0, 65535), "offset": (0, 65000), "size": (0, 65000),
           "group": (0, 65535), "writer": (1, 65535), "timeout": (0, 3600000), "id": (1, 65535)}
TRUTHS = ("quality", "sequence", "message_number", "versions")
KINDS = "Boolean SByte Byte Int16 UInt16 Int32 UInt32 Int64 UInt64 Float Double String DateTime Guid ByteString StatusCode".split()
CHOICES = {"kind": KINDS, "policy": ["aes128", "aes256"], "layout": ["dynamic", "fixed"], "security": ["none", "sign", "encrypt"],
           "numbering": ["message", "none"]}
HEX = {"random": (8,), "signing": (64,), "nonce": (8,), "encrypting": (32, 64)}
MOST = {"dataset": 8, "keygroup": 4, "group": 4, "readgroup": 4, "field": 64, "key": 16, "writer": 16, "reader": 16}
INNER = (("dataset", "field"), ("keygroup", "key"), ("group", "writer"), ("readgroup", "reader"))
# Names that other languages have for kinds.
MEANT = {"int8": "SByte", "uint8": "Byte", "bool": "Boolean", "int": "Int32", "uint": "UInt32", "long": "Int64", "ulong": "UInt64", "short": "Int16",
         "ushort": "UInt16", "real": "Float", "float32": "Float", "float64": "Double", "text": "String", "bytes": "ByteString", "status": "StatusCode",
         "uuid": "Guid"}
# Texts that are right where a table has none of its own to take.
SAMPLES = {"name": '"a_1"', "kind": '"UInt32"', "policy": '"aes128"', "publisher": '"u8:5"', "class_id": '"72962b91-fa75-4ae6-8d28-b404dc7daf63"',
           "layout": '"dynamic"', "security": '"none"', "numbering": '"message"', "interval": "100", "max_size": "1400"}


def document(name):
    with open(os.path.join(TOP, "docs", name), encoding="utf-8") as file:
        return file.read()


def rules(name, letter):
    """Of each refusal of the page: where it holds, what is wrong, and what is right."""
    found = {}
    for line in document(name).splitlines():
        cells = [it.strip() for it in line.strip("|").split(" | ")]
        number = re.fullmatch(letter + r"(\d+)( .*)?", cells[0].strip())
        if number and len(cells) >= 4:
            found[int(number[1])] = cells[-3:]
    return found


def keys():
    """The rows of keys of each table: what a value is, and what stands where there is none."""
    found, table = {}, None
    for line in document("CONFIGURATION.md").splitlines():
        head = re.match(r"(?:### )?`\[+([a-z.]+)\]+`", line)
        table = head[1] if head else None if line.startswith("## ") else table
        if table and line.startswith("| `"):
            cells = line.strip("| ").split(" | ")
            names = re.findall(r"`(\w+)`", cells[0])
            defaults = cells[-1].split(", ") if cells[-1].count(", ") + 1 == len(names) else [cells[-1]] * len(names)
            for key, default in zip(names, defaults):
                found.setdefault(table, {})[key] = (cells[-2].split(". ")[0], default)
    found["."] = {it: ("a table", "required" if it == "publisher" else "absent") for it in ("publisher", *(outer for outer, _ in INNER))}
    for outer, inner in INNER:
        found[outer][inner] = ("an array of tables", "absent")
    return found


def shown(text):
    """The text with each character that a terminal would act on as an escape sequence of Python."""
    return "".join(it if it.isprintable() else it.encode("unicode_escape").decode() for it in str(text))


def toml(value):
    """The value as a TOML document has it."""
    if isinstance(value, bool):
        return str(value).lower()
    return shown(json.dumps(value, ensure_ascii=False)) if isinstance(value, str) else shown(value)


def closest(word, words):
    """That of the words which this one likely means, or is spelled most like, where one is."""
    lower = {it.lower(): it for it in words}
    known = MEANT.get(str(word).lower())
    found = [known.lower()] if known in words else difflib.get_close_matches(str(word).lower(), lower, 1, 0.65)
    return lower[found[0]] if found else None


def one_of(word, words, what, form="`{}`"):
    """That of the words which is likely meant, in this form, and all that there are."""
    near = closest(word, words)
    there = f"{what} {listed(words)}" if len(words) != 1 else f"the only one is {listed(words)}"
    return (form.format(near) + " is likely meant; " if near else "") + there


def listed(words, last="and", form="`{}`"):
    words = [form.format(shown(it)) for it in words]
    return words[0] if len(words) == 1 else ", ".join(words[:-1]) + f" {last} {words[-1]}" if words else "none"
