//! Why nothing is rendered.

use std::{fmt, io};

/// Why nothing is rendered.
///
/// Errors of the same cause are equal, but no two of `IoError`.
///
/// ```
/// use html_render::{render, Error};
///
/// assert_eq!(render("<p>text", 0), Err(Error::TooNarrow));
/// ```
#[derive(Debug)]
#[non_exhaustive]
pub enum Error {
    /// The width is too narrow for the document.
    TooNarrow,
    /// The document can't be rendered: a part of a table stands in no table, or its spans pass all bounds.
    Fail,
    /// Memory is out, or the document has more than 2^32 - 1 bytes of text or calls.
    OutOfMemory,
    /// The page has more nodes or attributes than [`Options::max_nodes`] says, by default 5 million.
    ///
    /// [`Options::max_nodes`]: crate::Options::max_nodes
    TooLarge,
    /// A rule of a style sheet has no block.
    CssParseError,
    /// There is no encoding of this label.
    UnknownCharset,
    /// The address of the page isn't absolute.
    NoAddress,
    /// The input can't be read.
    IoError(io::Error),
}

impl PartialEq for Error {
    fn eq(&self, other: &Error) -> bool {
        !matches!(self, Error::IoError(_)) && std::mem::discriminant(self) == std::mem::discriminant(other)
    }
}

impl fmt::Display for Error {
    fn fmt(&self, f: &mut fmt::Formatter<'_>) -> fmt::Result {
        match self {
            Error::TooNarrow => f.write_str("Output width not wide enough."),
            Error::Fail => f.write_str("The document can't be rendered."),
            Error::OutOfMemory => f.write_str("Out of memory"),
            Error::TooLarge => f.write_str("too large"),
            Error::CssParseError => f.write_str("A rule of the style sheet has no block."),
            Error::UnknownCharset => f.write_str("There is no such charset."),
            Error::NoAddress => f.write_str("This is no absolute address."),
            Error::IoError(error) => error.fmt(f),
        }
    }
}

impl std::error::Error for Error {
    fn source(&self) -> Option<&(dyn std::error::Error + 'static)> {
        match self {
            Error::IoError(error) => Some(error),
            _ => None,
        }
    }
}

impl From<io::Error> for Error {
    fn from(error: io::Error) -> Error {
        Error::IoError(error)
    }
}
