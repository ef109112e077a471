//! HTML as wrapped plain text or tagged lines, by a proved renderer, under html2text's names.
//!
//! ```
//! let text = html_render::render("<p>Hello <em>wide</em> world</p>", 11).unwrap();
//! assert_eq!(text, "Hello\n*wide*\nworld\n");
//! ```
//!
//! Html5ever parses the HTML as browsers do into a tree, which is recorded as the steps of which the proved library builds the
//! document that it renders. A configuration says how, as html2text's does: [`config::plain`], [`config::rich`]. As it is, it reads
//! pages as html2text does, and so do [`from_read`] and [`from_read_rich`]; [`config::Config::as_shown`] makes it show what a browser
//! shows, in any encoding, and so does [`render()`]. [`parse`] and [`config::Config::parse_html`] parse a page for any number of
//! renderings.

#![deny(missing_docs)]

mod adapt;
mod characters;
mod classes;
mod columns;
pub mod config;
mod css;
mod direct;
mod document;
mod edits;
mod encoding;
mod error;
mod footnotes;
mod hiding;
#[cfg(test)]
mod html5ever_alone;
mod limits;
mod lines;
#[cfg(test)]
mod moves;
mod names;
mod options;
#[cfg(test)]
mod outline;
mod padding;
mod page;
mod pass;
#[cfg(test)]
mod random_pages;
mod reader;
mod record;
mod recorded;
mod records;
pub mod render;
#[cfg(feature = "serde")]
mod serialized;
mod sheets;
mod sink;
mod tree;
mod watched;
mod written;

pub use document::{RcDom, RenderTree};
pub use error::Error;
pub use lines::{Colour, RichAnnotation, TaggedLine, TaggedLineElement, TaggedString};
pub use options::{LinkMode, Options, Tables};
pub use page::RenderedPage;
pub use records::give_back_large_blocks;

use crate::render::TextDecorator;
use std::io::Read;

/// The plain text of HTML as a browser shows it, wrapped to `width` columns, with signs round emphasis and footnotes for links.
///
/// # Errors
///
/// `TooNarrow` where a character is wider than a line, or a prefix leaves too few columns.
pub fn render(html: &str, width: usize) -> Result<String, Error> {
    let options = Options::new().charset("utf-8")?;
    config::plain().as_shown(options).whole_words().string_from_read(html.as_bytes(), width)
}

/// The lines of rich text of HTML as a browser shows it, wrapped to `width` columns, with the page's title, language and links.
///
/// # Errors
///
/// As [`render()`].
///
/// ```
/// use html_render::{render_lines, RichAnnotation};
///
/// let page = render_lines("<html lang=en><title>Ferries</title><p>See <a href='/fares'>fares</a>", 80).unwrap();
/// assert_eq!((page.title.as_deref(), page.language.as_deref()), (Some("Ferries"), Some("en")));
/// assert_eq!(page.links, ["/fares"]);
/// let tags: Vec<_> = page.lines[0].tagged_strings().map(|string| (string.s.as_str(), string.tag.as_slice())).collect();
/// assert_eq!(tags, [("See ", &[][..]), ("fares", &[RichAnnotation::Link("/fares".to_owned())])]);
/// ```
pub fn render_lines(html: &str, width: usize) -> Result<RenderedPage, Error> {
    let options = Options::new().charset("utf-8")?;
    config::rich().as_shown(options).whole_words().page_from_read(html.as_bytes(), width)
}

/// The plain text of HTML in UTF-8 that is read, as html2text renders it.
///
/// # Errors
///
/// As [`render()`], and `IoError` where the input can't be read.
pub fn from_read<R: Read>(input: R, width: usize) -> Result<String, Error> {
    config::plain().string_from_read(input, width)
}

/// The lines of rich text of HTML that is read, wrapped to `width` columns.
///
/// # Errors
///
/// As [`from_read`].
pub fn from_read_rich<R: Read>(input: R, width: usize) -> Result<Vec<TaggedLine<Vec<RichAnnotation>>>, Error> {
    config::rich().lines_from_read(input, width)
}

/// The text of HTML that is read, as rich text: of each string what a function makes of it and its annotations, for example with the
/// colours of a terminal round it.
///
/// # Errors
///
/// As [`from_read`].
///
/// ```
/// use html_render::{from_read_coloured, RichAnnotation};
///
/// let text = from_read_coloured("every <b>hour</b>".as_bytes(), 80, |tag, text| match tag {
///     [RichAnnotation::Strong] => format!("\x1b[1m{text}\x1b[0m"),
///     _ => text.to_owned(),
/// });
/// assert_eq!(text.unwrap(), "every \x1b[1mhour\x1b[0m\n");
/// ```
pub fn from_read_coloured<R: Read>(input: R, width: usize, colour_map: impl Fn(&[RichAnnotation], &str) -> String) -> Result<String, Error> {
    config::rich().coloured(input, width, colour_map)
}

/// The text of HTML that is read, as a decorator has it, without signs round emphasis and footnotes for links.
///
/// # Errors
///
/// As [`from_read`].
///
/// ```
/// use html_render::from_read_with_decorator;
/// use html_render::render::PlainDecorator;
///
/// let text = from_read_with_decorator("<a href='/'><em>home</em></a>".as_bytes(), 80, PlainDecorator::new());
/// assert_eq!(text.unwrap(), "[home]\n");
/// ```
pub fn from_read_with_decorator<R: Read, D: TextDecorator>(input: R, width: usize, decorator: D) -> Result<String, Error> {
    config::with_decorator(decorator).string_from_read(input, width)
}

/// Parses HTML in UTF-8 that is read, as html2text reads it, to render it at any number of widths.
///
/// # Errors
///
/// `IoError` where the input can't be read; `TooLarge` or `OutOfMemory`.
///
/// ```
/// use html_render::{config, parse};
///
/// let tree = parse("<p>one two".as_bytes()).unwrap();
/// let heights = [80, 5].map(|width| config::rich().render_to_lines(tree.clone(), width).unwrap().len());
/// assert_eq!(heights, [1, 2]);
/// ```
pub fn parse(input: impl Read) -> Result<RenderTree, Error> {
    let config = config::plain_no_decorate();
    config.dom_to_render_tree(&config.parse_html(input)?)
}
