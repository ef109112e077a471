//! Statuses of a call that renders: `html_render_status` of `html_render.h`.

use html_render::Error;

/// Why nothing is rendered.
#[derive(Clone, Copy, Debug, PartialEq, Eq)]
pub enum Status {
    TooNarrow = 1,
    Fail = 2,
    OutOfMemory = 3,
    TooLarge = 7,
    BadArgument = 8,
    BadCharset = 9,
    BadBase = 10,
    BadCss = 11,
    InternalFault = 12,
}

impl From<Error> for Status {
    fn from(error: Error) -> Status {
        match error {
            Error::TooNarrow => Status::TooNarrow,
            Error::Fail => Status::Fail,
            Error::OutOfMemory => Status::OutOfMemory,
            Error::TooLarge => Status::TooLarge,
            Error::UnknownCharset => Status::BadCharset,
            Error::NoAddress => Status::BadBase,
            Error::CssParseError => Status::BadCss,
            // bytes in memory can be read
            _ => Status::InternalFault,
        }
    }
}
