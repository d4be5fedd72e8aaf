"""Elements of SVG, as text that is the same every time."""
from __future__ import annotations

from html import escape


def decimal(value: float) -> str:
    """A coordinate, to a tenth."""
    return f"{value:.1f}".removesuffix(".0")


def attribute(name: str, value: str | float) -> str:
    """An attribute; in its name an underscore stands for a hyphen, and one at the end for none."""
    said = value if isinstance(value, str) else decimal(value)
    return f' {name.rstrip("_").replace("_", "-")}="{escape(said)}"'


def element(name: str, content: str = "", **attributes: str | float) -> str:
    """An element with this content, which is text of SVG already."""
    start = name + "".join(attribute(key, value) for key, value in attributes.items())
    return f"<{start}>{content}</{name}>" if content else f"<{start}/>"


def text(x: float, y: float, content: str, style: str, anchor: str = "middle") -> str:
    """A line of text, in a class of the style sheet."""
    return element("text", escape(content), x=x, y=y, class_=style, text_anchor=anchor)


def line(x1: float, y1: float, x2: float, y2: float, style: str, **more: str) -> str:
    """A straight line."""
    return element("line", x1=x1, y1=y1, x2=x2, y2=y2, class_=style, **more)


def polygon(points: list[tuple[float, float]], style: str) -> str:
    """A closed figure."""
    corners = " ".join(f"{decimal(x)},{decimal(y)}" for x, y in points)
    return element("polygon", points=corners, class_=style)


def document(width: float, height: float, title: str, description: str, parts: list[str]) -> str:
    """A whole picture on white, which is read on dark pages too, with what it says for who does not see it."""
    size = {"width": width, "height": height}
    first = [element("title", escape(title)), element("desc", escape(description))]
    ground = element("rect", fill="#fff", **size)
    content = "\n" + "\n".join([*first, ground, *parts]) + "\n"
    box = f"0 0 {decimal(width)} {decimal(height)}"
    return element("svg", content, xmlns="http://www.w3.org/2000/svg", viewBox=box, role="img", **size) + "\n"
