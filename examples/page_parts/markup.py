"""HTML that is XML too. Every text is escaped on its way in: only what `tag` or `trusted` made goes in as it is."""
from __future__ import annotations

import html
from typing import Iterable, Optional, Union

VOID = ("meta", "br", "hr", "col", "rect", "line", "polyline", "circle")


class Markup(str):
    """Text that is HTML already."""


Child = Union[str, int, Markup, None]


def trusted(text: str) -> Markup:
    """A text that is HTML: of our own, or drawn by a program from numbers alone."""
    return Markup(text)


def escaped(child: Child) -> Markup:
    """A child as HTML. Characters that XML can't have are written as a question mark."""
    if child is None:
        return Markup("")
    if isinstance(child, Markup):
        return child
    text = "".join(c if c in "\t\n" or c.isprintable() else "?" for c in str(child))
    return Markup(html.escape(text, quote=True))


def join(children: Iterable[Child]) -> Markup:
    """The children, one after another."""
    return Markup("".join(escaped(child) for child in children))


def tag(name: str, /, *children: Child, **attributes: Optional[Union[str, int, float]]) -> Markup:
    """An element. An attribute `class_` is `class`, `stroke_width` is `stroke-width`, and one that is None isn't there."""
    words = "".join(
        f' {key.rstrip("_").replace("_", "-")}="{escaped(str(value))}"' for key, value in attributes.items() if value is not None
    )
    if name in VOID:
        return Markup(f"<{name}{words}/>")
    return Markup(f"<{name}{words}>{join(children)}</{name}>")
