"""Elements of an SVG, as texts."""
import re
from xml.sax.saxutils import escape, quoteattr


def clean(words):
    """Without the characters that XML has no way to spell."""
    return re.sub(r"[^ -~\u00a0-\ud7ff\ue000-\ufffd]", "?", words)


def number(value):
    return str(value) if not isinstance(value, float) else f"{value:.1f}".removesuffix(".0")


def tag(name, inside="", **given):
    """An element; `class_` is the attribute `class`, and `data_x` is `data-x`."""
    words = "".join(f" {key.rstrip('_').replace('_', '-')}={quoteattr(clean(number(it)))}" for key, it in given.items() if it is not None)
    return f"<{name}{words}>{inside}</{name}>" if inside else f"<{name}{words}/>"


def words_in(name, words, **given):
    """An element that has words alone in it."""
    return tag(name, escape(clean(words)), **given)


def text(x, y, words, class_=None):
    return words_in("text", words, x=float(x), y=float(y), class_=class_) if words else ""


def titled(title, *parts, **given):
    """A group with a title, which a browser shows under the mouse."""
    return tag("g", words_in("title", title) + "".join(parts), **given)


def rect(x0, x1, y, height):
    return tag("rect", x=float(x0), y=float(y), width=float(max(x1 - x0, 1)), height=height)


def path(*words, class_=None):
    return tag("path", d=" ".join(number(float(it)) if isinstance(it, (int, float)) else it for it in words), class_=class_)


def room(words, size=11):
    """About how wide the words are."""
    return len(words) * size * 0.6


def fitting(width, *choices, size=11):
    """The first of the texts that has room; what doesn't stand there stands in the title."""
    return next((it for it in choices if room(it, size) <= width), "")


def cut(width, words, size=11):
    """The words, cut where they have no room."""
    most = int(width / (size * 0.6))
    return words if len(words) <= most else words[: most - 1] + "…" if most > 8 else ""
