"""The shared library libhtml_render.so.0, which is loaded when this module is imported, and how it is told options."""

from __future__ import annotations

import ctypes
import os

from ._errors import BadBase, BadCharset, BadStyleSheet, CannotRender, Error, InternalFault, NoLibrary, TooLarge, TooNarrow
from ._numbers import FLAGS, IMAGE_REPLACE, IMAGES, LINKS, STYLES, TABLES

TYPE_CHECKING = False
if TYPE_CHECKING:
    from ._options import Options, Style

_NAME = "libhtml_render.so.0"
_CALLS = ("html_render_html", "html_render_html_lines")

# the statuses of html_render.h, but for out of memory
_FAULTS: dict[int, type[Error]] = {
    1: TooNarrow,
    2: CannotRender,
    7: TooLarge,
    9: BadCharset,
    10: BadBase,
    11: BadStyleSheet,
    12: InternalFault,
}
_OUT_OF_MEMORY = 3


def _path() -> str:
    """Returns the path of the library, or its name, by which the system finds it."""
    folder = os.environ.get("HTML_RENDER_LIB")
    if folder:
        return os.path.join(folder, _NAME)
    own = os.path.join(os.path.dirname(os.path.realpath(__file__)), _NAME)
    return own if os.path.exists(own) else _NAME


class _Record(ctypes.Structure):
    """`struct html_render_options` of html_render.h."""

    _fields_ = [
        ("size", ctypes.c_size_t),
        ("max_width", ctypes.c_size_t),
        ("charset", ctypes.c_char_p),
        ("base", ctypes.c_char_p),
        ("css", ctypes.c_char_p),
        ("image_title", ctypes.c_char_p),
        ("style", ctypes.c_uint32),
        ("links", ctypes.c_uint32),
        ("tables", ctypes.c_uint32),
        ("images", ctypes.c_uint32),
        ("flags", ctypes.c_uint64),
        ("max_nodes", ctypes.c_size_t),
    ]


def _loaded() -> ctypes.CDLL:
    """Returns the library, with the types of its functions. Calls of it leave the global lock free."""
    try:
        library = ctypes.CDLL(_path())
        calls = [getattr(library, name) for name in _CALLS]
    except (OSError, AttributeError) as error:
        raise NoLibrary(f"{_NAME} can't be loaded: {error}") from error
    size, place = ctypes.c_size_t, ctypes.POINTER
    for call in calls:
        call.restype = ctypes.c_int
        call.argtypes = [ctypes.c_char_p, size, size, place(_Record), place(ctypes.c_void_p), place(size)]
    library.html_render_free.restype, library.html_render_free.argtypes = None, [ctypes.c_void_p]
    return library


_library = _loaded()


def _record_of(options: Options | None, style: Style, charset: str | None) -> _Record:
    """Returns what the library is told: options if there are any, the style of those that name none, and the charset of a page."""
    record = _Record(size=ctypes.sizeof(_Record), charset=_text(charset), style=STYLES[style])
    if options is None:
        return record
    record.style = STYLES[options.style or style]
    record.links = LINKS[options.links]
    record.tables = TABLES[options.tables]
    record.images = IMAGES[options.images] if options.image_title is None else IMAGE_REPLACE
    record.max_width, record.max_nodes = options.max_width or 0, options.max_nodes or 0
    record.base, record.css, record.image_title = map(_text, (options.base, options.css, options.image_title))
    record.flags = sum(flag for name, flag in FLAGS.items() if getattr(options, name))
    return record


def _text(text: str | None) -> bytes | None:
    """Returns a text as the library takes it, which ends at a zero byte."""
    if text is not None and "\0" in text:
        raise ValueError("a text of an option has no U+0000")
    return None if text is None else text.encode("utf-8")


def rendered(call: str, page: bytes, width: int, options: Options | None, style: Style, charset: str | None) -> bytes:
    """Returns the bytes that a call of the library gives for a page. `style` is that of options which name none."""
    record, given, length = _record_of(options, style, charset), ctypes.c_void_p(), ctypes.c_size_t()
    status = getattr(_library, call)(page, len(page), width, ctypes.byref(record), ctypes.byref(given), ctypes.byref(length))
    if status == _OUT_OF_MEMORY:
        raise MemoryError
    if status != 0:
        fault = _FAULTS.get(status, InternalFault)
        raise fault(fault.__doc__)
    try:
        return ctypes.string_at(given, length.value)
    finally:
        _library.html_render_free(given)
