"""Rendering of a page."""

from __future__ import annotations

import operator

TYPE_CHECKING = False
if TYPE_CHECKING:
    from ._lines import Line
    from ._options import Options, Style

_Page = str | bytes | bytearray | memoryview


def render(html: _Page, width: int = 80, *, charset: str | None = None, options: Options | None = None) -> str:
    """Returns the text of a page of HTML, wrapped to `width` columns.

    `charset` names the encoding of bytes, as HTTP or a mail does. Without it the encoding is that of a byte order mark, what the
    page declares, or UTF-8 if all bytes are, or else windows-1252.

    Raises ValueError for a width out of range and for faulty options (`BadCharset`, `BadBase`, `BadStyleSheet`), `TooNarrow`,
    `TooLarge` or another `Error` for a page that can't be rendered, and MemoryError.
    """
    return _rendered("html_render_html", html, width, charset, options, "plain").decode("utf-8")


def render_lines(html: _Page, width: int = 80, *, charset: str | None = None, options: Options | None = None) -> list[Line]:
    """Returns the lines of a page of HTML, wrapped to `width` columns: lists of annotated strings (`Text`), and of marks
    (`Fragment`) at the places to which links within the page lead. Otherwise like `render`."""
    from ._lines import read

    return read(_rendered("html_render_html_lines", html, width, charset, options, "rich"))


def _rendered(call: str, html: _Page, width: int, charset: str | None, options: Options | None, style: Style) -> bytes:
    """Returns what a call of the library gives for a page. The first call loads the library."""
    from ._library import rendered

    page, charset = _bytes(html, charset)
    return rendered(call, page, _columns(width), options, style, charset)


def _columns(width: int) -> int:
    """Returns a width that the library can be told. Others would be taken modulo 2^64."""
    columns = operator.index(width)
    if not 0 <= columns < 1 << 64:
        raise ValueError(f"a width is from 0 to 2^64 - 1, and not {width}")
    return columns


def _bytes(html: _Page, charset: str | None) -> tuple[bytes, str | None]:
    """Returns the bytes of a page, and their charset."""
    if not isinstance(html, str):
        return bytes(html), charset
    if charset is not None:
        raise ValueError("a str has no charset")
    try:
        return html.encode("utf-8"), "utf-8"
    except UnicodeEncodeError:
        # a surrogate that isn't one of a pair becomes U+FFFD
        return html.encode("utf-16", "surrogatepass").decode("utf-16", "replace").encode("utf-8"), "utf-8"
