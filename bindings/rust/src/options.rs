//! How a page is read, beyond what html2text can be told.

use crate::encoding;
use crate::error::Error;
use encoding_rs::Encoding;
use url::Url;

/// How the targets of links are shown in plain text. Equal targets have one number. A target isn't shown if the link's text is the
/// target, if it begins with `#`, or if its scheme is `javascript`.
#[derive(Clone, Copy, Debug, PartialEq, Eq)]
pub enum LinkMode {
    /// A number after each link, and the targets at the end: `fares[1]`.
    Notes,
    /// After each link: `fares <https://ferries.example/fares>`.
    Inline,
    /// At the end, without numbers.
    List,
    /// Not at all.
    None,
}

/// The tables of a page that are drawn, with their cells side by side. The others are shown as the blocks and lines in their cells.
#[derive(Clone, Copy, Debug, Default, PartialEq, Eq)]
pub enum Tables {
    /// All.
    All,
    /// Those with data in several columns: they have a `th`, a `caption`, a `thead`, a `summary` or a border, or two rows with
    /// something to show in several cells. Neither those with other tables in them, nor those whose `role` is `presentation` or `none`.
    #[default]
    Data,
    /// None.
    None,
}

/// How a page is read as a browser reads it: its encoding and its address, and what is shown of it. [`Config::as_shown`] takes it.
///
/// ```
/// use html_render::{config, Options};
///
/// let options = Options::new().charset("koi8-r").unwrap();
/// let text = config::plain().as_shown(options).string_from_read(&b"<p>\xcd\xc9\xd2<hr>"[..], 5).unwrap();
/// assert_eq!(text, "\u{43c}\u{438}\u{440}\n\n─────\n");
/// ```
///
/// [`Config::as_shown`]: crate::config::Config::as_shown
#[derive(Clone, Debug, Default)]
pub struct Options {
    pub(crate) charset: Option<&'static Encoding>,
    pub(crate) shows_title: bool,
    pub(crate) base: Option<Url>,
    pub(crate) links: Option<LinkMode>,
    pub(crate) wraps_links: bool,
    pub(crate) tables: Tables,
    pub(crate) is_padded: bool,
    pub(crate) wraps_code: bool,
    pub(crate) has_row_rules: bool,
    pub(crate) max_nodes: Option<usize>,
}

impl Options {
    /// Returns options for a page whose encoding isn't known.
    pub fn new() -> Options {
        Options::default()
    }

    /// Names the encoding of the page, as HTTP or a mail does. A byte order mark of the page wins over it, and it over what the page
    /// declares. Without it the encoding is declared in the page's first 1,024 bytes, or UTF-8 if all of its bytes are, or else
    /// windows-1252.
    ///
    /// # Errors
    ///
    /// `UnknownCharset`, where the Encoding standard has no such label.
    pub fn charset(self, label: &str) -> Result<Options, Error> {
        let charset = encoding::of_label(label).ok_or(Error::UnknownCharset)?;
        Ok(Options { charset: Some(charset), ..self })
    }

    /// Shows the page's title above its text.
    pub fn title(self) -> Options {
        Options { shows_title: true, ..self }
    }

    /// Names the address of the page. Targets of links are resolved against it, or against the page's first `base`, which is resolved
    /// against it.
    ///
    /// # Errors
    ///
    /// `NoAddress`, where it isn't an absolute address.
    pub fn base(self, address: &str) -> Result<Options, Error> {
        let base = Url::parse(address).map_err(|_| Error::NoAddress)?;
        Ok(Options { base: Some(base), ..self })
    }

    /// Says how the targets of links are shown in plain text. Without the call, that is `Notes` under [`Config::link_footnotes`] and
    /// else `None`. Rich text keeps the target of every link.
    ///
    /// [`Config::link_footnotes`]: crate::config::Config::link_footnotes
    pub fn links(self, mode: LinkMode) -> Options {
        Options { links: Some(mode), ..self }
    }

    /// Reports whether the targets at the end are cut at the width. Without the call they may pass it.
    pub fn wrap_links(self, wraps: bool) -> Options {
        Options { wraps_links: wraps, ..self }
    }

    /// Chooses the tables that are drawn. Without the call they are those of data.
    pub fn tables(self, tables: Tables) -> Options {
        Options { tables, ..self }
    }

    /// Reports whether lines of preformatted text are cut at the width. Without the call they may pass it.
    pub fn wrap_code(self, wraps: bool) -> Options {
        Options { wraps_code: wraps, ..self }
    }

    /// Draws a line under each row of a table. Without the call there is none between two short rows, unless one of them is a row of
    /// heads, or of a `tfoot`, and the other isn't.
    pub fn row_rules(self) -> Options {
        Options { has_row_rules: true, ..self }
    }

    /// Sets the maximum number of a page's nodes, and of its attributes that are read. A page that has more is refused, with `TooLarge`.
    /// Without the call that is 5 million, and at most it is 2^31. The document and the elements `html`, `head` and `body`, which each
    /// page has, count.
    ///
    /// ```
    /// use html_render::{config, Error, Options};
    ///
    /// let text = |nodes| config::plain().as_shown(Options::new().max_nodes(nodes)).string_from_read("<p>one".as_bytes(), 80);
    /// assert_eq!(text(6).unwrap(), "one\n");
    /// assert_eq!(text(5), Err(Error::TooLarge));
    /// ```
    pub fn max_nodes(self, nodes: usize) -> Options {
        Options { max_nodes: Some(nodes), ..self }
    }

    /// Keeps the spaces at the ends of lines that fill the last cells of tables.
    pub fn pad(self) -> Options {
        Options { is_padded: true, ..self }
    }
}
