//! How a document is rendered: a builder with html2text's names.

use crate::adapt::{Adaptation, Adapted, UNSIGNED_CLASS};
use crate::characters::Filter;
use crate::css::{self, Origin, Unsigned};
use crate::document::{Beside, Parsed, RcDom, Reading, RenderTree};
use crate::edits::{self, Edits};
use crate::error::Error;
use crate::footnotes::Footnotes;
use crate::hiding::Hiding;
use crate::lines::{RichAnnotation, TaggedLine, TaggedLineElement, TaggedString};
use crate::options::{LinkMode, Options};
use crate::page::{links_of, RenderedPage};
use crate::pass;
use crate::record::Recorder;
use crate::recorded::Recorded;
use crate::records::Setting;
#[cfg(test)]
use crate::records::Step;
use crate::render::{PlainDecorator, RichDecorator, TextDecorator};
use crate::sheets::{keep, Sheets};
use std::io::Read;
use std::marker::PhantomData;
use std::mem;
use std::rc::Rc;

/// What stands in the place of an image whose title is empty.
///
/// ```
/// use html_render::config::{plain, ImageRenderMode};
///
/// let shown = |mode| plain().empty_img_mode(mode).string_from_read("<img src='cats/ginger.png' alt=''>".as_bytes(), 80).unwrap();
/// assert_eq!(shown(ImageRenderMode::IgnoreEmpty), "");
/// assert_eq!(shown(ImageRenderMode::Replace("a cat")), "[a cat]\n");
/// assert_eq!(shown(ImageRenderMode::Filename), "[ginger.png]\n");
/// ```
#[derive(Clone, Copy, Debug, Default, PartialEq, Eq)]
#[non_exhaustive]
pub enum ImageRenderMode<'a> {
    /// Nothing.
    #[default]
    IgnoreEmpty,
    /// What the decorator writes for an image of an empty title.
    ShowAlways,
    /// The image with this title.
    Replace(&'a str),
    /// The image with the part of its address behind the last `/` as its title; nothing where that is empty.
    Filename,
}

/// The calls of a configuration, by their numbers.
mod call {
    pub const ALLOW_WIDTH_OVERFLOW: u32 = 1;
    pub const DO_DECORATE: u32 = 2;
    pub const LINK_FOOTNOTES: u32 = 3;
    pub const NO_LINK_WRAPPING: u32 = 4;
    pub const UNICODE_STRIKEOUT: u32 = 5;
    pub const EMPTY_IMG_MODE: u32 = 6;
    pub const PAD_BLOCK_WIDTH: u32 = 7;
    pub const MAX_WRAP_WIDTH: u32 = 8;
    pub const MIN_WRAP_WIDTH: u32 = 9;
    pub const RAW_MODE: u32 = 10;
    pub const NO_TABLE_BORDERS: u32 = 11;
    pub const FENCE_TABLES: u32 = 12;
    pub const WHOLE_WORDS: u32 = 14;
}

/// How documents are rendered.
#[derive(Clone, Debug)]
pub struct Config<D> {
    /// Rules of style sheets, and the signs around emphasis.
    sheets: Sheets,
    uses_doc_css: bool,
    reading: Reading,
    /// All other settings, over one text.
    settings: Vec<Setting>,
    text: String,
    max_wrap_width: Option<usize>,
    decorator: PhantomData<D>,
}

/// Rich text: lines whose characters are annotated.
pub fn rich() -> Config<RichDecorator> {
    Config::new()
}

/// Plain text with signs round emphasis, strong text and code, and with footnotes for links.
pub fn plain() -> Config<PlainDecorator> {
    plain_no_decorate().do_decorate().link_footnotes(true)
}

/// Plain text without signs and footnotes.
pub fn plain_no_decorate() -> Config<PlainDecorator> {
    Config::new()
}

/// Returns the configuration of a decorator, without signs and footnotes.
///
/// ```
/// use html_render::config::with_decorator;
/// use html_render::render::PlainDecorator;
///
/// let config = with_decorator(PlainDecorator::new()).do_decorate();
/// assert_eq!(config.string_from_read("<em>one</em>".as_bytes(), 80).unwrap(), "*one*\n");
/// ```
pub fn with_decorator<D: TextDecorator>(_decorator: D) -> Config<D> {
    Config::new()
}

impl<D: TextDecorator> Config<D> {
    fn new() -> Config<D> {
        Config {
            sheets: Sheets::default(),
            uses_doc_css: false,
            reading: Reading::default(),
            settings: Vec::new(),
            text: String::new(),
            max_wrap_width: None,
            decorator: PhantomData,
        }
    }

    fn with(mut self, kind: u32, number: usize) -> Config<D> {
        let number = u32::try_from(number).unwrap_or(u32::MAX);
        self.settings.push(Setting { kind, number, ..Setting::default() });
        self
    }

    /// Writes signs round emphasis (`*`), strong text (`**`) and code (a backquote).
    pub fn do_decorate(mut self) -> Config<D> {
        self.sheets.settings.push(Setting { kind: call::DO_DECORATE, ..Setting::default() });
        self
    }

    /// A character that is wider than a line stands alone on its line, where it would be too narrow otherwise.
    pub fn allow_width_overflow(self) -> Config<D> {
        self.with(call::ALLOW_WIDTH_OVERFLOW, 0)
    }

    /// Reports whether links are numbered, and their targets stand behind the document.
    pub fn link_footnotes(self, include_footnotes: bool) -> Config<D> {
        self.with(call::LINK_FOOTNOTES, include_footnotes.into())
    }

    /// The targets behind the document aren't cut, and may pass the width.
    pub fn no_link_wrapping(self) -> Config<D> {
        self.with(call::NO_LINK_WRAPPING, 0)
    }

    /// Reports whether text that is struck out has U+0336 behind its characters.
    pub fn unicode_strikeout(self, use_unicode: bool) -> Config<D> {
        self.with(call::UNICODE_STRIKEOUT, use_unicode.into())
    }

    /// What stands in the place of an image whose title is empty.
    pub fn empty_img_mode(mut self, mode: ImageRenderMode<'_>) -> Config<D> {
        let (number, title) = match mode {
            ImageRenderMode::IgnoreEmpty => (0, ""),
            ImageRenderMode::ShowAlways => (1, ""),
            ImageRenderMode::Replace(title) => (2, title),
            ImageRenderMode::Filename => (3, ""),
        };
        let (text, text_length) = keep(&mut self.text, title);
        self.settings.push(Setting { kind: call::EMPTY_IMG_MODE, number, text, text_length, ..Setting::default() });
        self
    }

    /// Lines are filled with spaces up to the width of their block.
    pub fn pad_block_width(self) -> Config<D> {
        self.with(call::PAD_BLOCK_WIDTH, 0)
    }

    /// A paragraph's lines have at most so many columns.
    pub fn max_wrap_width(mut self, wrap_width: usize) -> Config<D> {
        self.max_wrap_width = Some(wrap_width);
        self.with(call::MAX_WRAP_WIDTH, wrap_width)
    }

    /// A text needs so many columns, where it has more; without the call it is 3.
    pub fn min_wrap_width(self, min_wrap_width: usize) -> Config<D> {
        self.with(call::MIN_WRAP_WIDTH, min_wrap_width)
    }

    /// With `true` the cells of every table stand one below another. Tables have no borders then, with `false` too.
    pub fn raw_mode(self, raw: bool) -> Config<D> {
        self.with(call::RAW_MODE, raw.into())
    }

    /// Cells side by side have a space between them, and no borders are drawn.
    pub fn no_table_borders(self) -> Config<D> {
        self.with(call::NO_TABLE_BORDERS, 0)
    }

    /// Tables stand between lines of three backquotes.
    pub fn fence_tables(self) -> Config<D> {
        self.with(call::FENCE_TABLES, 0)
    }

    /// Columns side by side get the width of their longest words, as far as the width allows.
    pub fn whole_words(self) -> Config<D> {
        self.with(call::WHOLE_WORDS, 0)
    }

    fn with_css(mut self, css: &str, origin: Origin) -> Result<Config<D>, Error> {
        let as_it_is = Filter { keeps_controls: true, ..Filter::default() };
        if self.sheets.add(css, origin, as_it_is) {
            Ok(self)
        } else {
            Err(Error::CssParseError)
        }
    }

    /// The rules of this style sheet are added, as the user's: those that select by an element's name, an id and classes, and what
    /// they declare of `color`, `background-color`, `display: none`, `white-space` and `content`. Others are passed over.
    ///
    /// # Errors
    ///
    /// `CssParseError`, where a rule has no block.
    pub fn add_css(self, css: &str) -> Result<Config<D>, Error> {
        self.with_css(css, Origin::User)
    }

    /// The same, as the renderer's own rules, which those of the user and of the document win over.
    ///
    /// # Errors
    ///
    /// As [`Config::add_css`].
    pub fn add_agent_css(self, css: &str) -> Result<Config<D>, Error> {
        self.with_css(css, Origin::Agent)
    }

    /// The rules of the document's `<style>` elements are added, read as by [`Config::add_css`]; one without a block is passed over.
    pub fn use_doc_css(mut self) -> Config<D> {
        self.uses_doc_css = true;
        self
    }

    /// Shows what a browser shows of a page, in the encoding that it is in: `docs/HTML.md` tells it element by element. Without the call
    /// a page is read as html2text reads it, in UTF-8.
    pub fn as_shown(mut self, options: Options) -> Config<D> {
        self.reading.options = Some(options);
        self
    }

    /// Keeps control characters of the page, which can control a terminal that the text is written to. Without the call U+0000 to
    /// U+001F but tab and newline, U+007F to U+009F, U+202A to U+202E and U+2066 to U+2069 are dropped.
    pub fn keep_controls(mut self) -> Config<D> {
        self.reading.keeps_controls = true;
        self
    }

    /// Returns how targets of links are shown; `None` where links keep them.
    fn link_mode(&self, options: &Options) -> Option<LinkMode> {
        let mode = options.links.unwrap_or(if self.number_of(call::LINK_FOOTNOTES) != 0 { LinkMode::Notes } else { LinkMode::None });
        (!D::HAS_COLOURS).then(|| mode)
    }

    /// Returns the rules of the configuration, and those of a page's own style sheets, if they are used.
    fn sheets_of(&self, page: &Parsed) -> Sheets {
        let mut sheets = self.sheets.clone();
        if self.uses_doc_css {
            sheets.add(&page.css, Origin::Author, page.filter_of_sheets());
        }
        sheets
    }

    /// Returns how a page is adapted at a width. The rules that hide elements are taken out of the sheets.
    fn adaptation(&self, page: &Parsed, options: &Options, sheets: &mut Sheets, width: usize) -> Adaptation {
        let hiding = Hiding::take_from(&mut sheets.settings, &sheets.text);
        Adaptation {
            columns: width.min(self.max_wrap_width.unwrap_or(usize::MAX)).min(u32::MAX as usize) as u32,
            has_colours: D::HAS_COLOURS,
            title: page.title.clone().filter(|_| options.shows_title),
            is_quirky: page.is_quirky,
            has_signs: sheets.settings.iter().any(|setting| setting.kind == call::DO_DECORATE),
            is_styled: sheets.settings.iter().any(|setting| setting.kind != call::DO_DECORATE),
            links: self.link_mode(options),
            base: options.base.clone(),
            hiding,
            tables: options.tables,
            names_parts: sheets.names_parts,
            stacks_cells: self.number_of(call::RAW_MODE) != 0,
            shows_images: self.number_of(call::EMPTY_IMG_MODE) != 0,
            cuts_code: options.wraps_code || self.is_padded(Some(options)) || sheets.settings.iter().any(css::sets_white_space),
            drops_rules: self.drops_rules(Some(options)),
        }
    }

    /// Records a page under rules for a width. The text is that to which the page's nodes refer.
    fn record(&self, page: &Parsed, text: Vec<u8>, mut sheets: Sheets, width: usize) -> Result<Recorded, Error> {
        let options = page.reading.options.as_ref();
        let adaptation = options.map(|options| self.adaptation(page, options, &mut sheets, width));
        let filter = Filter { drops_soft_hyphens: false, ..page.tree.filter };
        let mut recorder = Recorder::new(text, filter);
        recorder.make_room(page.tree.node_count());
        let (mut recorder, adapted) = pass::record(&page.tree, recorder, adaptation);
        let settings = self.settings_of(&mut recorder, sheets, &adapted, options.is_some());
        if recorder.is_out_of_memory {
            return Err(Error::OutOfMemory);
        }
        let edits = Edits {
            is_padded: self.is_padded(options),
            joins_lines: adapted.has_long_lines,
            row_marks: adapted.row_marks,
            // a line of the page itself could be taken for a border
            drops_rules: adapted.has_tables && self.drops_rules(options) && !edits::has_crossings(&recorder.text),
        };
        let footnotes = Footnotes {
            targets: adapted.targets,
            are_numbered: options.and_then(|options| self.link_mode(options)) == Some(LinkMode::Notes),
            columns: options.filter(|options| options.wraps_links).map(|_| width),
        };
        Ok(Recorded { recorder, settings, decorator: D::NUMBER, width, edits, footnotes })
    }

    /// Returns the settings of a recorded page: rules, those that its adaptation needs, and all others. Their texts are kept.
    fn settings_of(&self, recorder: &mut Recorder, sheets: Sheets, adapted: &Adapted, is_adapted: bool) -> Vec<Setting> {
        let (start, _) = recorder.keep(&sheets.text);
        let mut settings = Vec::with_capacity(sheets.settings.len() + MAX_OWN_RULES + self.settings.len());
        for setting in sheets.settings {
            if setting.kind != call::DO_DECORATE {
                settings.push(setting.moved(start));
            } else if recorder.has_signed {
                settings.push(setting);
                if is_adapted {
                    push_rules_without_signs(recorder, adapted.has_unsigned_class, &mut settings);
                }
            }
        }
        adapted.rules.push_settings(sheets.most_classes, &mut settings, |text| recorder.keep(text));
        let (start, _) = recorder.keep(&self.text);
        settings.extend(self.settings.iter().map(|setting| setting.moved(start)));
        settings
    }

    /// Reads a page, and records it for a width.
    fn record_read(&self, input: impl Read, width: usize) -> Result<Recorded, Error> {
        let mut page = Parsed::read(input, &self.reading, Beside { css: self.uses_doc_css, title: false })?;
        self.record_parsed(&mut page, width)
    }

    /// Records a page for a width, the last time: its text is taken from it.
    fn record_parsed(&self, page: &mut Parsed, width: usize) -> Result<Recorded, Error> {
        let text = mem::take(&mut page.tree.text);
        self.record(page, text, self.sheets_of(page), width)
    }

    /// Records a page that is parsed for a width.
    fn record_tree(&self, tree: &RenderTree, width: usize) -> Result<Recorded, Error> {
        self.record(&tree.page, tree.page.copied_text()?, Sheets::clone(&tree.sheets), width)
    }

    /// Returns the number of the last setting of a kind, or 0.
    fn number_of(&self, kind: u32) -> u32 {
        self.settings.iter().rev().find(|setting| setting.kind == kind).map_or(0, |setting| setting.number)
    }

    /// Reports whether spaces at the ends of lines are kept.
    fn is_padded(&self, options: Option<&Options>) -> bool {
        options.map_or(true, |options| options.is_padded) || self.settings.iter().any(|setting| setting.kind == call::PAD_BLOCK_WIDTH)
    }

    /// Reports whether lines between rows of tables are dropped: if tables have any.
    fn drops_rules(&self, options: Option<&Options>) -> bool {
        let has_borders = |setting: &Setting| !matches!(setting.kind, call::NO_TABLE_BORDERS | call::RAW_MODE);
        options.map_or(false, |options| !options.has_row_rules) && self.settings.iter().all(has_borders)
    }

    /// Returns the steps of a page's document, their text and its footnotes.
    #[cfg(test)]
    pub(crate) fn recorded(&self, page: &str) -> (Vec<Step>, Vec<u8>, Vec<String>) {
        let Recorded { recorder, footnotes, .. } = self.record_read(page.as_bytes(), 20).expect("a page that is recorded");
        (recorder.steps, recorder.text, footnotes.lines().collect())
    }

    /// Calls a function with the settings, which have no texts.
    #[cfg(test)]
    pub(crate) fn with_settings<T>(&self, render: impl FnOnce(&[Setting]) -> T) -> T {
        assert!(self.text.is_empty() && self.sheets.text.is_empty());
        render(&[self.sheets.settings.as_slice(), &self.settings].concat())
    }

    /// The text of HTML that is read, wrapped to `width` columns.
    ///
    /// # Errors
    ///
    /// `IoError` where the input can't be read; `TooNarrow`, `Fail`, `TooLarge` or `OutOfMemory` where it can't be rendered.
    pub fn string_from_read<R: Read>(self, input: R, width: usize) -> Result<String, Error> {
        self.record_read(input, width)?.text()
    }

    /// The lines of HTML that is read, wrapped to `width` columns.
    ///
    /// # Errors
    ///
    /// As [`Config::string_from_read`].
    pub fn lines_from_read<R: Read>(self, input: R, width: usize) -> Result<Vec<TaggedLine<Vec<D::Annotation>>>, Error> {
        Ok(annotated_lines::<D>(self.record_read(input, width)?.lines()?))
    }

    /// Parses HTML that is read. [`Config::as_shown`] and [`Config::keep_controls`] say how; what other calls say is used later.
    ///
    /// # Errors
    ///
    /// `IoError` where the input can't be read; `TooLarge` or `OutOfMemory`.
    ///
    /// ```
    /// use html_render::{config, Options};
    ///
    /// let config = config::plain().as_shown(Options::new().charset("latin1").unwrap());
    /// let dom = config.parse_html(&b"<p>caf\xe9<hr>"[..]).unwrap();
    /// let tree = config.dom_to_render_tree(&dom).unwrap();
    /// assert_eq!(config.render_to_string(tree, 6).unwrap(), "caf\u{e9}\n\n──────\n");
    /// ```
    pub fn parse_html<R: Read>(&self, input: R) -> Result<RcDom, Error> {
        let page = Parsed::read(input, &self.reading, Beside { css: true, title: false })?;
        Ok(RcDom { page: Rc::new(page) })
    }

    /// Styles a page, by the rules of the configuration, and those of the page if [`Config::use_doc_css`] says so.
    ///
    /// # Errors
    ///
    /// None at present. A page that can't be rendered is refused when it is rendered.
    ///
    /// ```
    /// use html_render::config::plain;
    ///
    /// let dom = plain().parse_html("<nav>Home</nav><p>Ferries".as_bytes()).unwrap();
    /// let tree = plain().add_css("nav { display: none }").unwrap().dom_to_render_tree(&dom).unwrap();
    /// assert_eq!(plain().render_to_string(tree, 80).unwrap(), "Ferries\n");
    /// ```
    pub fn dom_to_render_tree(&self, dom: &RcDom) -> Result<RenderTree, Error> {
        Ok(RenderTree { page: Rc::clone(&dom.page), sheets: Rc::new(self.sheets_of(&dom.page)) })
    }

    /// The text of a page that is parsed, wrapped to `width` columns.
    ///
    /// # Errors
    ///
    /// `TooNarrow`, `Fail` or `OutOfMemory` where it can't be rendered.
    ///
    /// ```
    /// let config = html_render::config::plain();
    /// let tree = html_render::parse("<p>one two".as_bytes()).unwrap();
    /// assert_eq!(config.render_to_string(tree.clone(), 80).unwrap(), "one two\n");
    /// assert_eq!(config.render_to_string(tree, 5).unwrap(), "one\ntwo\n");
    /// ```
    pub fn render_to_string(&self, render_tree: RenderTree, width: usize) -> Result<String, Error> {
        self.record_tree(&render_tree, width)?.text()
    }

    /// The lines of a page that is parsed, wrapped to `width` columns.
    ///
    /// # Errors
    ///
    /// As [`Config::render_to_string`].
    ///
    /// ```
    /// let tree = html_render::parse("<p>one two".as_bytes()).unwrap();
    /// let lines = html_render::config::rich().render_to_lines(tree, 5).unwrap();
    /// assert_eq!(lines.len(), 2);
    /// ```
    pub fn render_to_lines(&self, render_tree: RenderTree, width: usize) -> Result<Vec<TaggedLine<Vec<D::Annotation>>>, Error> {
        Ok(annotated_lines::<D>(self.record_tree(&render_tree, width)?.lines()?))
    }
}

impl Config<RichDecorator> {
    /// The lines of HTML that is read, wrapped to `width` columns, with the page's title, language and links.
    ///
    /// # Errors
    ///
    /// As [`Config::string_from_read`].
    ///
    /// ```
    /// let page = html_render::config::rich().page_from_read("<title>Ferries</title><p>one".as_bytes(), 80).unwrap();
    /// assert_eq!((page.title.as_deref(), page.lines.len()), (Some("Ferries"), 1));
    /// ```
    pub fn page_from_read<R: Read>(self, input: R, width: usize) -> Result<RenderedPage, Error> {
        let mut page = Parsed::read(input, &self.reading, Beside { css: self.uses_doc_css, title: true })?;
        let recorded = self.record_parsed(&mut page, width)?;
        let (title, language) = page.into_title_and_language();
        let lines = recorded.lines()?;
        Ok(RenderedPage { title, language, links: links_of(&lines), lines })
    }

    /// The text of HTML that is read, wrapped to `width` columns: of each string of a line what a function makes of it and its
    /// annotations, for example with the colours of a terminal round it.
    ///
    /// # Errors
    ///
    /// As [`Config::string_from_read`].
    pub fn coloured<R: Read>(self, input: R, width: usize, colour_map: impl Fn(&[RichAnnotation], &str) -> String) -> Result<String, Error> {
        Ok(coloured(&self.lines_from_read(input, width)?, colour_map))
    }

    /// The text of a page that is parsed, as [`Config::coloured`] gives it.
    ///
    /// # Errors
    ///
    /// As [`Config::render_to_string`].
    ///
    /// ```
    /// use html_render::{config, parse, RichAnnotation};
    ///
    /// let capitals = |tag: &[RichAnnotation], text: &str| match tag {
    ///     [RichAnnotation::Strong] => text.to_uppercase(),
    ///     _ => text.to_owned(),
    /// };
    /// let tree = parse("<p>every <b>hour</b>".as_bytes()).unwrap();
    /// assert_eq!(config::rich().render_coloured(tree, 80, capitals).unwrap(), "every HOUR\n");
    /// ```
    pub fn render_coloured(&self, render_tree: RenderTree, width: usize, colour_map: impl Fn(&[RichAnnotation], &str) -> String) -> Result<String, Error> {
        Ok(coloured(&self.render_to_lines(render_tree, width)?, colour_map))
    }
}

/// Returns a text of lines: what a function makes of each string.
fn coloured(lines: &[TaggedLine<Vec<RichAnnotation>>], colour_map: impl Fn(&[RichAnnotation], &str) -> String) -> String {
    let mut text = String::new();
    for line in lines {
        text.extend(line.tagged_strings().map(|string| colour_map(&string.tag, &string.s)));
        text.push('\n');
    }
    text
}

/// Maximum number of the rules that `push_rules_without_signs` adds.
const MAX_OWN_RULES: usize = 4;

/// Adds the rules by which terms have no signs, nor the elements of the class of those without, if there are any.
fn push_rules_without_signs(recorder: &mut Recorder, has_class: bool, settings: &mut Vec<Setting>) {
    if recorder.has_terms {
        settings.extend(css::without_signs(Unsigned::Element(recorder.keep("dt"))));
    }
    if has_class {
        settings.extend(css::without_signs(Unsigned::Class(recorder.keep(UNSIGNED_CLASS))));
    }
}

/// Returns lines under the annotations of a decorator.
fn annotated_lines<D: TextDecorator>(lines: Vec<TaggedLine<Vec<RichAnnotation>>>) -> Vec<TaggedLine<Vec<D::Annotation>>> {
    lines.into_iter().map(|line| line.map(annotated::<D>)).collect()
}

/// An element of a line under the annotations of a decorator.
fn annotated<D: TextDecorator>(element: TaggedLineElement<Vec<RichAnnotation>>) -> TaggedLineElement<Vec<D::Annotation>> {
    match element {
        TaggedLineElement::Str(string) => TaggedLineElement::Str(TaggedString {
            s: string.s,
            tag: string.tag.into_iter().map(D::annotation).collect(),
        }),
        TaggedLineElement::FragmentStart(name) => TaggedLineElement::FragmentStart(name),
    }
}
