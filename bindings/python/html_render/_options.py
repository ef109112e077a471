"""Options of a page."""

from __future__ import annotations

from dataclasses import dataclass
from typing import Literal

from ._numbers import IMAGES, LINKS, STYLES, TABLES

Style = Literal["plain", "rich", "bare"]
Links = Literal["notes", "inline", "list", "none"]
Tables = Literal["data", "all", "none"]
Images = Literal["none", "always", "name"]


@dataclass(frozen=True)
class Options:
    """What is shown of a page. They are the options of htext.

    >>> Options(links="all")
    Traceback (most recent call last):
    ValueError: links is one of notes, inline, list, none, and not 'all'
    """

    style: Style | None = None
    """Signs around emphasis and numbers of links ("plain", the default of `render`), annotations ("rich", that of
    `render_lines`), or neither ("bare")."""
    links: Links | None = None
    """Targets of links: "notes" numbers links and writes the targets after the text (the default of style "plain"), "inline"
    writes them after each link, "list" after the text without numbers, "none" nowhere. Style "rich" annotates them."""
    base: str | None = None
    """Address of the page, against which targets are resolved."""
    wrap_links: bool = False
    """Cuts targets after the text at the width."""
    tables: Tables = "data"
    """Tables that are drawn with their cells side by side. The others are shown as the blocks and lines in their cells."""
    row_rules: bool = False
    """Draws a line under each row of a table, also between short rows."""
    raw_tables: bool = False
    """Stacks the cells of every table, without borders."""
    cut_words: bool = False
    """Doesn't give columns the width of their longest words."""
    no_borders: bool = False
    """Draws tables without borders."""
    fence_tables: bool = False
    """Puts each table that isn't nested between lines of three backquotes."""
    wrap_code: bool = False
    """Cuts lines of preformatted text at the width."""
    max_width: int | None = None
    """Maximum columns of the lines of paragraphs."""
    pad: bool = False
    """Pads lines with spaces."""
    images: Images = "none"
    """Images without a text: nothing, an empty text ("always"), or the name of their file ("name")."""
    image_title: str | None = None
    """Text of images without a text."""
    narrow: bool = False
    """Raises TooNarrow for a character or a prefix that is wider than its line, which otherwise passes the width."""
    title: bool = False
    """Shows the page's title above its text."""
    css: str = ""
    """The user's style sheet."""
    page_css: bool = False
    """Applies the page's own style sheets."""
    keep_controls: bool = False
    """Keeps control characters, with which a page can control a terminal."""
    max_nodes: int | None = None
    """Maximum number of the page's nodes, and of its attributes that are read; None for 5 million. A page that has more raises
    TooLarge. The document, html, head and body, which each page has, count."""

    def __post_init__(self) -> None:
        for name, numbers in (("style", {None: 0, **STYLES}), ("links", LINKS), ("tables", TABLES), ("images", IMAGES)):
            if getattr(self, name) not in numbers:
                known = ", ".join(it for it in numbers if it is not None)
                raise ValueError(f"{name} is one of {known}, and not {getattr(self, name)!r}")
        for name in ("max_width", "max_nodes"):
            number = getattr(self, name)
            if number is not None and not 0 < number < 1 << 64:
                raise ValueError(f"{name} is from 1 to 2^64 - 1, and not {number}")
