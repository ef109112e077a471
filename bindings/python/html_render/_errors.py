"""Reasons why nothing is rendered."""


class Error(Exception):
    """The page can't be rendered."""


class TooNarrow(Error):
    """The width is 0; or, under `Options.narrow`, a character or a prefix is wider than its line."""


class TooLarge(Error):
    """The page has more nodes, or attributes that rendering reads, than `Options.max_nodes`, by default 5 million."""


class CannotRender(Error):
    """The proved library refuses the page's document."""


class BadCharset(Error, ValueError):
    """The Encoding standard has no such charset."""


class BadBase(Error, ValueError):
    """The address of the page isn't an absolute URL."""


class BadStyleSheet(Error, ValueError):
    """The style sheet has a rule without a block."""


class InternalFault(Error):
    """The library is at fault. It wrote where to standard error."""


class NoLibrary(Error, ImportError):
    """The shared library isn't there, or isn't one of this version."""
