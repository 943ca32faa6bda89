"""Elements of a picture as text."""
import html

from .wrong import printable


def number(value):
    """A place with at most one digit behind the point."""
    return f"{value:.1f}".rstrip("0").rstrip(".") if isinstance(value, float) else str(value)


def element(name, content=None, **attributes):
    """An element; in attributes `_` stands for `-`, and `cls` for class. Content is elements."""
    words = "".join(
        f' {"class" if key == "cls" else key.replace("_", "-")}="{html.escape(number(value) if isinstance(value, (int, float)) else value)}"'
        for key, value in attributes.items()
        if value is not None
    )
    return f"<{name}{words}/>" if content is None else f"<{name}{words}>{content}</{name}>"


def text(x, y, words, cls=None, anchor=None):
    return element("text", html.escape(printable(words), quote=False), x=x, y=y, cls=cls, text_anchor=anchor)


def rect(x, y, width, height, cls):
    return element("rect", x=x, y=y, width=width, height=height, cls=cls)


def path(d, cls):
    return element("path", d=d, cls=cls)


def line(x1, y1, x2, y2, cls):
    return element("line", x1=x1, y1=y1, x2=x2, y2=y2, cls=cls)


def title(words):
    """What a browser shows where the pointer rests."""
    return element("title", html.escape(printable(words), quote=False))


def group(parts, cls=None, place=None):
    return element("g", "".join(parts), cls=cls, transform=place)
