//! Pages that are parsed once, for any number of renderings.

use crate::adapt;
use crate::characters::Filter;
use crate::encoding;
use crate::error::Error;
use crate::limits::{self, Refusal};
use crate::options::Options;
use crate::reader::Reader;
use crate::record;
use crate::sheets::Sheets;
use crate::sink::{Sink, Wanted};
use crate::tree::Tree;
use html5ever::tree_builder::TreeBuilderOpts;
use std::fmt;
use std::io::Read;
use std::rc::Rc;

/// How a page is read.
#[derive(Clone, Debug, Default)]
pub(crate) struct Reading {
    /// Whether control characters are kept.
    pub keeps_controls: bool,
    /// How the page is adapted to what a browser shows; `None` for html2text's way.
    pub options: Option<Options>,
}

/// What is kept of a page beside its nodes.
#[derive(Clone, Copy, Debug, Default)]
pub(crate) struct Beside {
    /// Whether the texts of its style sheets are.
    pub css: bool,
    /// Whether its title is, even if it isn't shown.
    pub title: bool,
}

/// A page that is parsed.
#[derive(Debug)]
pub(crate) struct Parsed {
    pub tree: Tree,
    /// The texts of the page's style sheets, if they are kept.
    pub css: String,
    /// Whether the page is in quirks mode.
    pub is_quirky: bool,
    /// The page's title, if it has one and it is kept.
    pub title: Option<String>,
    /// The language that the page says it is in.
    pub language: Option<String>,
    pub reading: Reading,
}

impl Parsed {
    /// Reads and parses a page.
    ///
    /// # Errors
    ///
    /// `IoError` if the input can't be read; `TooLarge`; `OutOfMemory`.
    pub fn read(input: impl Read, reading: &Reading, beside: Beside) -> Result<Parsed, Error> {
        let bytes = bytes(input)?;
        let page = match &reading.options {
            Some(options) => encoding::decode(bytes, options.charset)?,
            None => encoding::decode_utf8(bytes)?,
        };
        let is_adapted = reading.options.is_some();
        let filter = Filter { keeps_controls: reading.keeps_controls, drops_soft_hyphens: is_adapted, drops_marks: is_adapted }.for_page(&page);
        let max_nodes = reading.options.as_ref().and_then(|options| options.max_nodes).unwrap_or(limits::MAX_NODES);
        let wanted = Wanted { is_asked: if is_adapted { adapt::is_asked } else { record::is_asked }, css: beside.css, max_nodes };
        let options = TreeBuilderOpts { drop_doctype: true, scripting_enabled: !is_adapted, ..TreeBuilderOpts::default() };
        let mut tree = Tree::new(filter);
        if !tree.make_room_for_text(page.len()) {
            return Err(Error::OutOfMemory);
        }
        let sink = Reader::read(&page, Sink::new(tree, wanted), wanted, options).map_err(|refusal| match refusal {
            Refusal::TooLarge => Error::TooLarge,
            Refusal::OutOfMemory => Error::OutOfMemory,
        })?;
        let Sink { tree, css, is_quirky, language, .. } = sink;
        let shows_title = reading.options.as_ref().map_or(false, |options| options.shows_title);
        let title = if beside.title || shows_title { adapt::title(&tree) } else { None };
        let language = language.map(|language| tree.filter.filtered(language.trim()).into_owned()).filter(|language| !language.is_empty());
        Ok(Parsed { tree, css, is_quirky, title, language, reading: reading.clone() })
    }

    /// Returns the page's title and language, and drops all else.
    pub fn into_title_and_language(self) -> (Option<String>, Option<String>) {
        (self.title, self.language)
    }

    /// Returns the filter of texts of the page's own style sheets.
    pub fn filter_of_sheets(&self) -> Filter {
        Filter { keeps_controls: self.reading.keeps_controls, drops_marks: self.reading.options.is_some(), ..Filter::default() }
    }

    /// Returns a copy of the text that the tree's nodes refer to, in memory that may be refused.
    pub fn copied_text(&self) -> Result<Vec<u8>, Error> {
        let mut text = Vec::new();
        text.try_reserve(self.tree.text.len()).map_err(|_| Error::OutOfMemory)?;
        text.extend_from_slice(&self.tree.text);
        Ok(text)
    }
}

/// Reads all bytes, in memory that may be refused.
fn bytes(mut input: impl Read) -> Result<Vec<u8>, Error> {
    const FIRST: usize = 1 << 13;
    let mut bytes = Vec::new();
    loop {
        bytes.try_reserve(FIRST.max(bytes.len())).map_err(|_| Error::OutOfMemory)?;
        let room = bytes.capacity() - bytes.len();
        if input.by_ref().take(room as u64).read_to_end(&mut bytes)? < room {
            return Ok(bytes);
        }
    }
}

/// A page that is parsed: [`Config::parse_html`] returns it, and [`Config::dom_to_render_tree`] takes it. Its nodes can't be looked at.
///
/// Clones share the page. It stays in the thread that parsed it.
///
/// ```
/// use html_render::config::{plain, plain_no_decorate};
///
/// let dom = plain().parse_html("<p>Every <b>hour</b>".as_bytes()).unwrap();
/// let text = |config: html_render::config::Config<_>| {
///     let tree = config.dom_to_render_tree(&dom).unwrap();
///     config.render_to_string(tree, 80).unwrap()
/// };
/// assert_eq!(text(plain()), "Every **hour**\n");
/// assert_eq!(text(plain_no_decorate()), "Every hour\n");
/// ```
///
/// [`Config::parse_html`]: crate::config::Config::parse_html
/// [`Config::dom_to_render_tree`]: crate::config::Config::dom_to_render_tree
#[derive(Clone)]
pub struct RcDom {
    pub(crate) page: Rc<Parsed>,
}

impl fmt::Debug for RcDom {
    fn fmt(&self, f: &mut fmt::Formatter<'_>) -> fmt::Result {
        f.debug_struct("RcDom").field("nodes", &self.page.tree.node_count()).finish_non_exhaustive()
    }
}

/// A page and the rules that style it, which can be rendered more than once, for example each time that a window changes its width.
///
/// [`parse`] returns it, and so does [`Config::dom_to_render_tree`]. Clones share the page, so that a clone for each rendering costs
/// nothing. It stays in the thread that parsed it.
///
/// ```
/// use html_render::config;
///
/// let config = config::rich();
/// let dom = config.parse_html("<p>one two".as_bytes()).unwrap();
/// let tree = config.dom_to_render_tree(&dom).unwrap();
/// let height = |width| config.render_to_lines(tree.clone(), width).unwrap().len();
/// assert_eq!((height(80), height(5)), (1, 2));
/// ```
///
/// [`parse`]: crate::parse
/// [`Config::dom_to_render_tree`]: crate::config::Config::dom_to_render_tree
#[derive(Clone)]
pub struct RenderTree {
    pub(crate) page: Rc<Parsed>,
    pub(crate) sheets: Rc<Sheets>,
}

impl fmt::Debug for RenderTree {
    fn fmt(&self, f: &mut fmt::Formatter<'_>) -> fmt::Result {
        f.debug_struct("RenderTree").field("nodes", &self.page.tree.node_count()).finish_non_exhaustive()
    }
}

#[cfg(test)]
mod tests {
    use super::*;
    use std::io;

    /// Bytes of which each call reads a few.
    struct Few<'a>(&'a [u8], usize);

    impl Read for Few<'_> {
        fn read(&mut self, to: &mut [u8]) -> io::Result<usize> {
            let most = self.1.min(to.len());
            self.0.read(&mut to[..most])
        }
    }

    #[test]
    fn all_bytes_are_read() {
        let page: Vec<u8> = (0..100_000).map(|number| number as u8).collect();
        for length in [0, 1, 8_191, 8_192, 8_193, 16_384, 100_000] {
            for few in [1, 4_096, 100_000] {
                assert!(bytes(Few(&page[..length], few)).unwrap() == page[..length], "{length} bytes, {few} at once");
            }
        }
    }
}
