"""HTML as wrapped plain text, or as lines of annotated strings, as a browser shows the page.

    >>> from html_render import Options, render, render_lines
    >>> print(render("<p>Hello <em>wide</em> world</p>", width=11), end="")
    Hello
    *wide*
    world
    >>> print(render("<a href=b>a</a>", options=Options(base="https://c.example/", links="inline")), end="")
    a <https://c.example/b>
    >>> for line in render_lines("<p>a <em>b</em>"):
    ...     print(line)
    [Text(text='a ', annotations=()), Text(text='b', annotations=(Annotation(kind='emphasis', value=None),))]

The renderer is the shared library libhtml_render.so.0, which is loaded at the first call: from the folder that the variable
HTML_RENDER_LIB of the environment names, from the package's own folder, or else where the system keeps libraries. A call leaves
Python's global lock free, so that threads render in parallel.
"""

TYPE_CHECKING = False
if TYPE_CHECKING:
    from ._errors import BadBase, BadCharset, BadStyleSheet, CannotRender, Error, InternalFault, NoLibrary, TooLarge, TooNarrow
    from ._lines import Annotation, Fragment, Kind, Line, Text
    from ._options import Options
    from ._render import render, render_lines
else:
    # the last two import typing and dataclasses, which take longer than Python takes to start
    _MODULES = ("_render", "_errors", "_lines", "_options")

    def __getattr__(name):
        """Returns a name of the package that is read the first time, of the first module that has it."""
        for module in _MODULES if name in __all__ else ():
            __import__(f"{__name__}.{module}")
            names = vars(globals()[module])
            if name in names:
                return globals().setdefault(name, names[name])
        raise AttributeError(f"module {__name__!r} has no attribute {name!r}")


__version__ = "0.1.0"

__all__ = [
    "Annotation",
    "BadBase",
    "BadCharset",
    "BadStyleSheet",
    "CannotRender",
    "Error",
    "Fragment",
    "InternalFault",
    "Kind",
    "Line",
    "NoLibrary",
    "Options",
    "Text",
    "TooLarge",
    "TooNarrow",
    "render",
    "render_lines",
]


def __dir__() -> list[str]:
    return sorted({*globals(), *__all__})
