"""Lines of annotated strings, and the records by which the library gives them."""

from __future__ import annotations

import struct
from typing import Literal, NamedTuple, Union

Kind = Literal[
    "default",
    "link",
    "image",
    "emphasis",
    "strong",
    "strikeout",
    "code",
    "preformatted",
    "preformatted_continuation",
    "colour",
    "background",
]

_KINDS: dict[int, Kind] = {
    ord("d"): "default",
    ord("l"): "link",
    ord("i"): "image",
    ord("e"): "emphasis",
    ord("b"): "strong",
    ord("s"): "strikeout",
    ord("c"): "code",
    ord("p"): "preformatted",
    ord("q"): "preformatted_continuation",
    ord("f"): "colour",
    ord("g"): "background",
}


class Annotation(NamedTuple):
    """What a string is."""

    kind: Kind
    value: str | None = None
    """Target of a link, source of an image, or colour as `#rrggbb`."""


class Text(NamedTuple):
    """A string of a line, and its annotations, the outermost one first."""

    text: str
    annotations: tuple[Annotation, ...] = ()


class Fragment(NamedTuple):
    """Start of the part of the page that has this `id`. It takes no column."""

    name: str


Line = list[Union[Text, Fragment]]


class _Reader:
    """Records, and the position of the next one."""

    def __init__(self, records: bytes) -> None:
        self._records = records
        self._at = 0

    def has_more(self) -> bool:
        return self._at < len(self._records)

    def letter(self) -> int:
        self._at += 1
        return self._records[self._at - 1]

    def number(self) -> int:
        self._at += 4
        return struct.unpack_from("<I", self._records, self._at - 4)[0]

    def bytes(self, length: int) -> bytes:
        self._at += length
        return self._records[self._at - length : self._at]

    def text(self) -> str:
        return self.bytes(self.number()).decode("utf-8")

    def annotation(self) -> Annotation:
        kind = _KINDS[self.letter()]
        if kind in ("link", "image"):
            return Annotation(kind, self.text())
        if kind in ("colour", "background"):
            return Annotation(kind, "#" + self.bytes(3).hex())
        return Annotation(kind)

    def string(self) -> Text:
        annotations = tuple(self.annotation() for _ in range(self.number()))
        return Text(self.text(), annotations)


def read(records: bytes) -> list[Line]:
    """Returns the lines that records describe."""
    reader, lines = _Reader(records), []
    while reader.has_more():
        letter = reader.letter()
        if letter == ord("L"):
            lines.append([])
        else:
            lines[-1].append(reader.string() if letter == ord("S") else Fragment(reader.text()))
    return lines
