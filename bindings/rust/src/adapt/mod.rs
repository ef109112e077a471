//! What a browser shows of a page: adaptations of its elements, as they are recorded.
//!
//! `docs/HTML.md` has a row for each: the element, what a browser does, what is shown, and the option that changes it.

mod apart;
mod code;
mod contents;
mod drawings;
mod elements;
mod embedded;
mod emphasis;
mod flow;
mod forms;
mod gaps;
mod inline;
mod links;
mod lists;
mod margins;
mod numbers;
mod private;
mod rows;
mod style;
mod tables;
mod targets;

pub(crate) use elements::Run;
pub(crate) use emphasis::UNSIGNED_CLASS;
pub(crate) use lists::{is_blank, Holds};
pub(crate) use numbers::Numbers;
pub(crate) use private::{PrivateRules, RULE_CLASS};

use crate::characters::mark;
use crate::classes::Class;
use crate::hiding::Hiding;
use crate::options::{LinkMode, Tables};
use crate::pass::{End, Entered, Last, Place};
use crate::record::{self, Handle, Recorder};
use crate::tree::{Attr, Element, Id, Piece, Tree, DOCUMENT};
use code::Code;
use contents::Shown;
use elements::{change_in, Change, Field, Inner, List, Part};
use emphasis::{Emphasis, Signed, UNSIGNED_SUFFIX};
use html5ever::{local_name, namespace_url, ns, LocalName};
use inline::Inline;
use links::Links;
use lists::Filled;
use margins::{Margins, BULLET};
use numbers::Plan;
use rows::{Line, Row};
use std::rc::Rc;
use style::{InlineStyle, Styles};
use tables::Nesting;
use tendril::StrTendril;
use url::Url;

/// Form in which texts are recorded.
#[derive(Clone, Copy, Debug, Default, PartialEq, Eq)]
enum Texts {
    /// As they are.
    #[default]
    Own,
    /// Lines of a `pre`, which are indented.
    Code,
    /// The raised digits of a citation.
    Citation,
}

/// Properties of a place, or of the texts there, by the elements around it: bits of a number.
#[derive(Clone, Copy, Debug, Default, PartialEq, Eq)]
struct Flags(u8);

impl Flags {
    /// Texts are invisible.
    const INVISIBLE: Flags = Flags(1);
    /// Texts have a size of 0.
    const WITHOUT_SIZE: Flags = Flags(2);
    /// Only labels of a drawing are shown.
    const DRAWING: Flags = Flags(4);
    /// Texts aren't shown.
    const HIDDEN: Flags = Flags(7);
    /// A `pre` is around.
    const PRE: Flags = Flags(8);
    /// A list is around.
    const LIST: Flags = Flags(16);
    /// A table is around.
    const TABLE: Flags = Flags(32);
    /// Emphasis has no signs: in a heading, a `dt`, a `th`, a row that is set apart, or a `sup`.
    const UNSIGNED: Flags = Flags(64);
    /// A row of a table is around that needs a mark.
    const MARKED: Flags = Flags(128);

    /// Reports whether one of some flags is set.
    #[inline(always)]
    fn has(self, flags: Flags) -> bool {
        self.0 & flags.0 != 0
    }

    /// Sets a flag or takes it back. Returns whether it was set.
    fn set(&mut self, flag: Flags, is_set: bool) -> bool {
        let was_set = self.has(flag);
        self.0 = self.0 & !flag.0 | if is_set { flag.0 } else { 0 };
        was_set
    }

    /// Notes whether a style hides or shows texts.
    fn hide_by(&mut self, style: &InlineStyle) {
        if let Some(is_visible) = style.is_visible() {
            self.set(Flags::INVISIBLE, !is_visible);
        }
        if let Some(has_size) = style.has_size() {
            self.set(Flags::WITHOUT_SIZE, !has_size);
        }
    }
}

/// What is known of the elements around a place.
#[derive(Clone, Copy, Debug, Default)]
pub(crate) struct Context {
    flags: Flags,
    /// Number of quotations around.
    quotations: u8,
    texts: Texts,
    /// The part of a table that is directly around, as it is recorded.
    part: Option<Part>,
    line: Line,
    /// What the element directly around holds.
    pub holds: Holds,
    margins: Margins,
}

impl Context {
    /// Returns the context in an element that shows what is directly in a list.
    pub fn in_loose(self) -> Context {
        let mut context = self;
        if self.holds == Holds::Descriptions {
            context.margins.add(DESCRIPTION);
        }
        Context { holds: Holds::Anything, ..context }
    }

    /// Reports whether texts aren't shown.
    pub fn hides_texts(&self) -> bool {
        self.flags.has(Flags::HIDDEN)
    }

    /// Reports whether texts are those of a row that is one line, or of a cell that has nothing to show.
    pub fn is_in_line(&self) -> bool {
        self.line != Line::Elsewhere
    }

    /// Reports whether texts may not be recorded as they are.
    #[inline(always)]
    pub fn changes_texts(&self) -> bool {
        self.texts != Texts::Own || self.flags.has(Flags::MARKED)
    }

    /// Reports whether elements are recorded as in most places: outside of preformatted blocks, of rows that are one line, and of a `dl`
    /// directly around.
    #[inline]
    fn is_plain(&self) -> bool {
        self.texts != Texts::Code && self.line == Line::Elsewhere && self.holds != Holds::Descriptions
    }

    /// Reports whether texts are recorded as they are, outside of rows that are one line.
    #[inline(always)]
    fn shows_texts(&self) -> bool {
        !self.changes_texts() && !self.hides_texts() && !self.is_in_line()
    }

    /// Reports whether emphasis has no signs.
    fn drops_signs(&self) -> bool {
        self.flags.has(Flags(Flags::HIDDEN.0 | Flags::PRE.0 | Flags::UNSIGNED.0))
    }

    /// Enters the cell of a table that is drawn.
    fn enter_cell(&mut self, is_heading: bool) {
        self.flags.set(Flags::TABLE, true);
        if is_heading {
            self.flags.set(Flags::UNSIGNED, true);
        }
        self.part = Some(Part::Cell);
        self.margins.enter_cell();
    }

    /// Returns the context in an element, before what the element itself changes.
    #[inline]
    fn inside(self) -> Context {
        Context { part: None, line: self.line.inside(), holds: Holds::Anything, margins: self.margins.inside(), ..self }
    }
}

/// Columns of the prefix of a description.
const DESCRIPTION: u32 = 2;

/// How a page is adapted.
#[derive(Debug)]
pub(crate) struct Adaptation {
    /// Columns of a line of the document.
    pub columns: u32,
    /// Whether colours are annotated.
    pub has_colours: bool,
    /// The page's title, if it is shown.
    pub title: Option<String>,
    /// Whether the page is in quirks mode.
    pub is_quirky: bool,
    /// Whether signs are written around emphasis.
    pub has_signs: bool,
    /// Whether rules of style sheets select elements, beside those that hide them.
    pub is_styled: bool,
    /// How targets of links are shown; `None` where links keep them.
    pub links: Option<LinkMode>,
    /// The address that the page was read from.
    pub base: Option<Url>,
    /// The rules of style sheets that hide elements.
    pub hiding: Hiding,
    /// The tables that are drawn.
    pub tables: Tables,
    /// Whether a rule selects by the name of a part of a table.
    pub names_parts: bool,
    /// Whether cells are never side by side on a line.
    pub stacks_cells: bool,
    /// Whether images without an `alt` are shown.
    pub shows_images: bool,
    /// Whether lines of preformatted blocks are cut at the width.
    pub cuts_code: bool,
    /// Whether lines between short rows of tables are dropped after rendering.
    pub drops_rules: bool,
}

impl Adaptation {
    /// Reports whether a rule hides an element of these attributes, which say something of it.
    fn is_hidden_by_rule(&self, element: &Element, attributes: &[Attr], said: &Said) -> bool {
        let is_displayed = said.style.as_deref().map_or(false, InlineStyle::is_displayed);
        self.hiding.hides(&element.name, attributes, is_displayed)
    }
}

/// What an adapted document needs beside its steps.
#[derive(Default)]
pub(crate) struct Adapted {
    pub rules: PrivateRules,
    /// Whether elements have the class of those without signs.
    pub has_unsigned_class: bool,
    /// The targets of its links.
    pub targets: Vec<Rc<str>>,
    /// Whether lines of preformatted blocks are between marks.
    pub has_long_lines: bool,
    /// Whether a table is drawn.
    pub has_tables: bool,
    /// Number of rows that have a mark.
    pub row_marks: usize,
}

/// What is recorded of a link's target.
#[derive(Clone, Copy)]
enum Href {
    Kept,
    Dropped,
    Resolved(Piece),
}

/// Reports whether an adaptation asks for attributes of a name.
pub(crate) fn is_asked(name: &LocalName) -> bool {
    record::is_asked(name)
        || matches!(
            *name,
            local_name!("border")
                | local_name!("checked")
                | local_name!("data")
                | local_name!("hidden")
                | local_name!("multiple")
                | local_name!("open")
                | local_name!("reversed")
                | local_name!("role")
                | local_name!("selected")
                | local_name!("style")
                | local_name!("summary")
                | local_name!("title")
                | local_name!("type")
                | local_name!("value")
        )
}

/// What an element's attributes say of it.
#[derive(Default)]
struct Said {
    style: Option<Rc<InlineStyle>>,
    is_hidden: bool,
}

impl Said {
    /// Reports whether nothing is shown of the element, nor of what is in it.
    fn drops(&self) -> bool {
        match &self.style {
            Some(style) => style.drops(self.is_hidden),
            None => self.is_hidden,
        }
    }
}

/// An element that is being recorded.
struct Opened<'a> {
    node: Id,
    element: &'a Element,
    attributes: &'a [Attr],
    parent: Handle,
    said: Said,
    detail: Detail,
}

/// What is recorded of an element otherwise than its attributes say.
#[derive(Clone, Copy)]
enum Detail {
    Nothing,
    /// The number that an `ol` starts with, where it isn't 1.
    Start(i64),
    /// The target of a link.
    Target(Href),
    /// The private class of elements without signs follows the element's classes in the text.
    MayBeUnsigned,
}

impl<'a> Opened<'a> {
    #[inline(always)]
    fn new(node: Id, element: &'a Element, attributes: &'a [Attr], parent: Handle, said: Said) -> Opened<'a> {
        Opened { node, element, attributes, parent, said, detail: Detail::Nothing }
    }

    /// Keeps what follows the element's classes in the text.
    fn keep_after_classes(&self, recorder: &mut Recorder) {
        if matches!(self.detail, Detail::MayBeUnsigned) {
            recorder.keep(UNSIGNED_SUFFIX);
        }
    }
}

/// Records elements as a browser shows them.
pub(crate) struct Adapter<'a> {
    tree: &'a Tree,
    adaptation: Adaptation,
    filled: Filled,
    styles: Styles,
    inline: Inline,
    nesting: Nesting,
    row: Row,
    rules: PrivateRules,
    code: Code,
    has_tables: bool,
    /// Number of rows that have a mark.
    row_marks: usize,
    /// Whether no row follows the start of the last table that is drawn.
    is_first_row: bool,
    /// Number of steps where the last citation ends.
    end_of_citation: usize,
    /// Whether the last row that lines part from its neighbours has no mark yet.
    is_mark_missing: bool,
    /// The numbers of the items of the `ol` that was opened last, until they are taken.
    numbers: Option<Numbers>,
    /// The last horizontal line that others can follow in its division.
    last_rule: Option<LastRule>,
}

/// A division of horizontal lines.
#[derive(Clone, Copy)]
struct LastRule {
    handle: Handle,
    parent: Handle,
    /// Number of steps up to the last of its lines.
    end: usize,
}

impl<'a> Adapter<'a> {
    pub fn new(tree: &'a Tree, mut adaptation: Adaptation) -> Adapter<'a> {
        // annotations say which emphasis an element is
        let emphasis = Emphasis::new(adaptation.is_styled || adaptation.has_colours);
        let inline = Inline::new(Links::new(adaptation.links, adaptation.base.take()), adaptation.has_signs, emphasis);
        let (filled, styles, nesting, row, rules, code) = Default::default();
        Adapter { tree, adaptation, filled, styles, inline, nesting, row, rules, code, has_tables: false, row_marks: 0, is_first_row: false, end_of_citation: 0, is_mark_missing: false, numbers: None, last_rule: None }
    }

    /// Returns what the recorded document needs beside its steps.
    pub fn finish(self) -> Adapted {
        Adapted {
            rules: self.rules,
            has_unsigned_class: self.inline.has_unsigned_class(),
            targets: self.inline.links.into_targets(),
            has_long_lines: self.code.has_long_lines,
            has_tables: self.has_tables,
            row_marks: self.row_marks,
        }
    }

    /// Returns what is recorded of a text, where that isn't the text itself.
    #[inline(never)]
    pub fn changed_text(&mut self, recorder: &mut Recorder, context: &Context, piece: Piece) -> Piece {
        match context.texts {
            Texts::Code => self.code.indented(recorder, piece),
            Texts::Citation => {
                let raised: String = contents::text_of(&recorder.text, piece).chars().filter_map(raised).collect();
                recorder.keep(&raised)
            }
            Texts::Own => piece,
        }
    }

    /// Returns a text with the mark of the row around it before the first visible character, if it has one and the row needs a mark.
    pub fn marked_text(&mut self, recorder: &mut Recorder, context: &Context, piece: Piece) -> Piece {
        let text = contents::text_of(&recorder.text, piece);
        let (blank, shown) = text.split_at(flow::blank_start(text.as_bytes()));
        if shown.is_empty() || shown.starts_with(mark::STROKE) || !self.needs_mark(context) {
            return piece;
        }
        let marked = [blank, mark::APART, shown].concat();
        self.add_mark();
        recorder.keep(&marked)
    }

    /// Reports whether texts are in a row that needs a mark and has none yet.
    #[inline]
    fn needs_mark(&self, context: &Context) -> bool {
        self.is_mark_missing && context.flags.has(Flags::MARKED) && !context.hides_texts()
    }

    /// Notes that the row has its mark.
    fn add_mark(&mut self) {
        self.is_mark_missing = false;
        self.row_marks += 1;
    }

    /// Records the mark of a row before an element in which no text takes it: one that begins with a text of its own, and digits of a `sup`.
    #[inline(never)]
    fn mark_before(&mut self, recorder: &mut Recorder, opened: &Opened<'_>, change: Change) {
        let contents = self.adaptation.contents(self.tree, &recorder.text);
        let is_marked = match change {
            Change::Superscript => contents.is_number(opened.node),
            _ => contents.begins_with_own_text(opened.node, opened.element),
        };
        if is_marked {
            self.add_mark();
            let piece = recorder.keep(mark::APART);
            recorder.text(opened.parent, piece);
        }
    }

    /// Notes a text of the tree before it is recorded. Returns what of it is recorded.
    #[inline(always)]
    pub fn add_text(&mut self, recorder: &mut Recorder, piece: Piece) -> Piece {
        self.inline.add_text(recorder, piece)
    }

    /// Ends a recorded element.
    #[inline(always)]
    pub fn close(&mut self, recorder: &mut Recorder, handle: Handle, end: End) {
        match end {
            End::Inline => {}
            End::Run(run) => self.inline.end(handle, run),
            _ => self.close_with_text(recorder, handle, end),
        }
    }

    /// Ends a recorded element after whose contents a text may be recorded.
    #[inline(never)]
    fn close_with_text(&mut self, recorder: &mut Recorder, handle: Handle, end: End) {
        match end {
            End::Inline | End::Run(_) => {}
            End::Button => {
                let piece = recorder.keep(" ]");
                self.inline.record_text(recorder, handle, piece);
                self.inline.end(handle, Run::Apart);
            }
            End::Quotation(quotations) => {
                let mark = recorder.keep(quotation_marks(quotations).1);
                self.inline.record_text(recorder, handle, mark);
            }
            End::Label { is_in_line: true } if self.row.is_at_end() => {}
            End::Label { .. } => {
                let space = recorder.keep(" ");
                self.inline.record_text(recorder, handle, space);
            }
            End::BlockInCode(run) => {
                self.inline.end(handle, run);
                self.code.begin_line();
            }
            End::Code => {
                self.code.end_line(recorder, handle);
                self.inline.end(handle, Run::Parted);
            }
            End::Citation => {
                self.inline.end(handle, Run::Apart);
                self.end_of_citation = recorder.steps.len();
            }
            End::List { parent } => {
                self.inline.end(handle, Run::List);
                self.inline.gaps.part(recorder, parent);
            }
            End::Table { parent, is_drawn } => {
                self.inline.end(handle, Run::Block);
                if is_drawn {
                    self.inline.gaps.end_drawn(recorder, parent);
                } else {
                    self.inline.gaps.part(recorder, parent);
                }
            }
            End::Signed => self.inline.close_signed(recorder),
            End::Link => {
                let tree = self.tree;
                self.inline.close_link(recorder, handle, |image, link| embedded::image_name(tree, image, link));
            }
        }
    }

    /// Records what precedes the document: its title, if it is asked for.
    pub fn begin(&mut self, recorder: &mut Recorder) {
        if let Some(title) = &self.adaptation.title {
            let block = recorder.element(DOCUMENT, record::HTML, &local_name!("p"));
            let piece = recorder.keep(title);
            recorder.text(block, piece);
        }
    }

    /// Records an element, and what of its contents isn't in the tree. Returns where its children are recorded, if they are.
    #[inline]
    pub fn open(&mut self, recorder: &mut Recorder, node: Id, element: &'a Element, around: &Place) -> Option<Entered> {
        let is_bare = !element.has_attributes() && element.space == ns!(html) && !self.adaptation.hiding.has_rules();
        let change = change_in(element);
        if is_bare && around.context.is_plain() {
            self.open_bare(recorder, node, element, change, around)
        } else {
            self.open_any(recorder, node, element, change, around)
        }
    }

    /// Records a cell of a table that is drawn with its contents, if these are a text alone and its attributes are recorded as they are,
    /// as those of most cells. Returns whether they are.
    #[inline(always)]
    pub fn record_cell(&mut self, recorder: &mut Recorder, node: Id, element: &Element, around: &Place) -> bool {
        let context = &around.context;
        if element.class != Class::Cell || context.part != Some(Part::Row) || !context.shows_texts() || self.adaptation.hiding.has_rules() {
            return false;
        }
        let attributes = self.tree.attributes(element);
        let piece = match self.tree.only_text(node) {
            Some(piece) if element.space == ns!(html) && attributes.iter().all(is_kept_of_cell) => piece,
            _ => return false,
        };
        self.inline.begin(recorder, Run::Block);
        let handle = recorder.element(around.handle, record::HTML, &element.name);
        for attribute in attributes {
            recorder.attribute(handle, &attribute.name, &attribute.value);
        }
        self.inline.gaps.begin_place();
        let piece = self.inline.add_text(recorder, piece);
        if piece.1 > 0 {
            recorder.text(handle, piece);
        }
        self.inline.end(handle, Run::Block);
        true
    }

    /// Records an element of HTML without attributes, in a place as most. The most frequent elements take few instructions.
    fn open_bare(&mut self, recorder: &mut Recorder, node: Id, element: &'a Element, change: Change, around: &Place) -> Option<Entered> {
        match change {
            Change::Kept | Change::Block | Change::Item => Some(self.open_in_run(recorder, element, around, change.run())),
            Change::Division | Change::Paragraph if !self.is_spacer(recorder, node, around.context) => Some(self.open_in_run(recorder, element, around, change.run())),
            Change::Signed => {
                let step = recorder.steps.len();
                let entered = self.open_in_run(recorder, element, around, Run::Inline);
                Some(self.enter_signed(recorder, element, around.handle, step, None, entered))
            }
            Change::Table(Part::Cell) if around.context.part == Some(Part::Row) => {
                let mut entered = self.open_in_run(recorder, element, around, Run::Block);
                self.inline.gaps.begin_place();
                entered.context.enter_cell(element.name == local_name!("th"));
                Some(entered)
            }
            Change::Table(Part::Row) if around.context.part == Some(Part::Section) => {
                let mut entered = self.open_in_run(recorder, element, around, Run::Block);
                self.enter_row(&recorder.text, node, &mut entered.context);
                Some(entered)
            }
            _ => self.open_any(recorder, node, element, change, around),
        }
    }

    /// Records an element of HTML without attributes under its own name.
    #[inline]
    fn open_in_run(&mut self, recorder: &mut Recorder, element: &Element, around: &Place, run: Run) -> Entered {
        self.inline.begin(recorder, run);
        let handle = recorder.element(around.handle, record::HTML, &element.name);
        let end = if run == Run::Inline { End::Inline } else { End::Run(run) };
        Entered { end, ..Entered::new(handle, around.context.inside()) }
    }

    /// Records any element. Returns where its children are recorded, if they are.
    #[inline(never)]
    fn open_any(&mut self, recorder: &mut Recorder, node: Id, element: &'a Element, change: Change, around: &Place) -> Option<Entered> {
        if around.context.is_in_line() {
            self.row.reach(node);
        }
        let attributes = self.tree.attributes(element);
        let is_html = element.space == ns!(html);
        let said = self.said_by(attributes, is_html);
        let mut opened = Opened::new(node, element, attributes, around.handle, said);
        let mut context = around.context.inside();
        self.hide_texts(&mut context, &opened.said, change);
        if self.is_hidden(element, attributes, &opened.said) || context.flags.has(Flags::INVISIBLE) && is_picture(element) {
            return None;
        }
        if is_html && around.context.holds == Holds::Descriptions && element.name == local_name!("div") {
            context.holds = Holds::Descriptions;
            return Some(Entered::new(around.handle, context));
        }
        if matches!(change, Change::Division | Change::Paragraph) && self.is_spacer(recorder, node, context) {
            self.record_spacer(recorder, &opened);
            return None;
        }
        let is_piece_of_line = around.context.line == Line::Row && change == Change::Table(Part::Cell);
        let run = if is_piece_of_line { Run::Apart } else { change.run() };
        self.inline.begin(recorder, run);
        let is_in_code = context.texts == Texts::Code;
        if is_in_code {
            self.begin_in_code(recorder, &opened, change, run);
        }
        if self.needs_mark(&context) {
            self.mark_before(recorder, &opened, change);
        }
        let mut entered = self.open_changed(recorder, &mut opened, change, around, context);
        if let (Some(Entered { end: end @ End::Inline, .. }), true) = (&mut entered, run != Run::Inline) {
            *end = if is_in_code && run.is_block() { End::BlockInCode(run) } else { End::Run(run) };
        }
        entered
    }

    /// Records an element with what its name changes.
    #[inline(always)]
    fn open_changed(&mut self, recorder: &mut Recorder, opened: &mut Opened<'_>, change: Change, around: &Place, mut context: Context) -> Option<Entered> {
        let (node, attributes) = (opened.node, opened.attributes);
        match change {
            Change::Kept | Change::Block | Change::Division | Change::Item | Change::Paragraph => Some(Entered::new(self.record(recorder, opened), context)),
            Change::Preformatted => {
                let handle = self.record(recorder, opened);
                Some(self.enter_pre(recorder, opened, handle, context))
            }
            Change::Break => {
                self.inline.add_break(recorder.steps.len());
                Some(Entered::new(self.record(recorder, opened), context))
            }
            Change::Signed => Some(self.open_signed(recorder, opened, context)),
            Change::Superscript => Some(self.open_superscript(recorder, opened, context)),
            Change::Link => Some(self.open_link(recorder, opened, context)),
            Change::Image => Some(self.open_image(recorder, opened, context)),
            Change::Field(field) => self.open_field(recorder, opened, field, context),
            Change::Drawing => self.open_in_drawing(recorder, opened, context),
            Change::Dropped => None,
            Change::Within(inner) => Some(self.open_within(recorder, opened, inner, context)),
            Change::Dialog => {
                let is_open = attributes.iter().any(|attribute| attribute.name == local_name!("open"));
                is_open.then(|| self.open_within(recorder, opened, Inner::Division, context))
            }
            Change::Rule => {
                self.record_rule(recorder, opened, context);
                None
            }
            Change::Quotation => Some(self.open_quotation(recorder, opened, context)),
            Change::Object if !names_contents(attributes) => Some(Entered::new(self.record(recorder, opened), context)),
            Change::Embedded | Change::Object => {
                self.record_embedded(recorder, opened, context);
                None
            }
            Change::List(List::Unordered) => {
                let end = self.part_list(recorder, opened.parent, &mut context);
                context.holds = Holds::Items;
                context.margins.add_items(BULLET);
                Some(Entered { end, ..Entered::new(self.record(recorder, opened), context) })
            }
            Change::List(List::Ordered) => {
                let end = self.part_list(recorder, opened.parent, &mut context);
                let plan = Plan::of(self.tree, &recorder.text, node, |item| !self.is_hidden_item(item));
                context.holds = Holds::Items;
                context.margins.add_items(plan.columns);
                if plan.first != 1 {
                    opened.detail = Detail::Start(plan.first);
                }
                let handle = self.record(recorder, opened);
                self.numbers = Some(plan.numbers(around.handle));
                Some(Entered { end, ..Entered::new(handle, context) })
            }
            Change::Descriptions => {
                context.holds = Holds::Descriptions;
                self.inline.gaps.begin_descriptions();
                Some(Entered::new(self.record(recorder, opened), context))
            }
            Change::Heading(columns) => {
                context.margins.add(columns);
                context.flags.set(Flags::UNSIGNED, true);
                Some(self.open_heading(recorder, opened, context))
            }
            Change::Term => {
                context.flags.set(Flags::UNSIGNED, true);
                let handle = self.record(recorder, opened);
                self.inline.gaps.part_term(recorder, handle);
                Some(Entered::new(handle, context))
            }
            Change::Description => {
                context.margins.add(DESCRIPTION);
                Some(Entered::new(self.record(recorder, opened), context))
            }
            Change::Prefixed(columns) => {
                context.margins.add(columns);
                Some(Entered::new(self.record(recorder, opened), context))
            }
            Change::Table(part) => Some(self.open_part(recorder, opened, part, around.context, context)),
        }
    }

    /// Reports whether an element that isn't an item of the list around it has something to show.
    pub fn is_loose(&mut self, text: &[u8], node: Id, element: &Element) -> bool {
        let is_html = element.space == ns!(html);
        let attributes = self.tree.attributes(element);
        let is_shown = match change_in(element) {
            _ if !is_html => true,
            Change::Dropped => false,
            Change::Dialog => attributes.iter().any(|attribute| attribute.name == local_name!("open")),
            _ => true,
        };
        if !is_shown || !self.filled.has(self.tree, text, node) {
            return false;
        }
        let said = self.said_by(attributes, is_html);
        !self.is_hidden(element, attributes, &said)
    }

    /// Reports whether nothing of an element is shown, by its attributes or by a rule.
    #[inline(always)]
    fn is_hidden(&self, element: &Element, attributes: &[Attr], said: &Said) -> bool {
        said.drops() || self.adaptation.hiding.has_rules() && self.adaptation.is_hidden_by_rule(element, attributes, said)
    }

    #[inline]
    fn is_hidden_item(&self, item: Id) -> bool {
        self.tree.element(item).map_or(false, |element| {
            if !element.has_attributes() && !self.adaptation.hiding.has_rules() {
                return false;
            }
            let attributes = self.tree.attributes(element);
            self.is_hidden(element, attributes, &said_by(attributes, true, |text| InlineStyle::of(text).into()))
        })
    }

    /// Returns the numbers of the items of a list that was just opened, if it is an `ol`.
    pub fn take_numbers(&mut self) -> Option<Numbers> {
        self.numbers.take()
    }

    /// Counts an item of an `ol`. Returns the list that it is put in, if its number isn't the next one: lists count upwards one by one.
    pub fn open_item(&mut self, recorder: &mut Recorder, list: Id, item: Option<Id>, numbers: &mut Numbers) -> Option<Handle> {
        if item.map_or(false, |item| self.is_hidden_item(item)) {
            return None;
        }
        let start = numbers.count(item.and_then(|item| numbers::own_number(self.tree, item)))?;
        let element = self.tree.element(list)?;
        let attributes = self.tree.attributes(element);
        let said = self.said_by(attributes, true);
        let part = Opened { detail: Detail::Start(start), ..Opened::new(list, element, attributes, numbers.parent, said) };
        Some(self.record(recorder, &part))
    }

    /// Returns what is recorded of a text in a row that is one line, or in a cell that has nothing to show. The texts of the tree are
    /// ranges of `text`.
    pub fn cut_text(&mut self, text: &[u8], node: Id, piece: Piece) -> Option<Piece> {
        self.row.cut(text, node, piece)
    }

    /// Records the element that shows what is directly in a list: a division of the item before it, or an item or a description.
    pub fn open_loose(&mut self, recorder: &mut Recorder, place: Place, item: Option<Handle>) -> Handle {
        match (place.context.holds, item) {
            (Holds::Items, Some(item)) => recorder.element(item, record::HTML, &local_name!("div")),
            (Holds::Descriptions, _) => recorder.element(place.handle, record::HTML, &local_name!("dd")),
            _ => recorder.element(place.handle, record::HTML, &local_name!("li")),
        }
    }

    /// Records an element under its own name, with its attributes.
    #[inline]
    fn record(&mut self, recorder: &mut Recorder, opened: &Opened<'_>) -> Handle {
        self.record_as(recorder, opened, &opened.element.name, "")
    }

    /// Records an element under a name and a private class, with its attributes.
    #[inline]
    fn record_as(&mut self, recorder: &mut Recorder, opened: &Opened<'_>, name: &LocalName, class: &str) -> Handle {
        let handle = recorder.element(opened.parent, record::space(&opened.element.space), name);
        if !opened.attributes.is_empty() || !class.is_empty() || matches!(opened.detail, Detail::Start(_)) {
            self.record_attributes(recorder, handle, opened, class);
        }
        handle
    }

    /// Reports whether a block shows nothing but no-break spaces and white space.
    #[inline]
    fn is_spacer(&self, recorder: &Recorder, block: Id, context: Context) -> bool {
        !context.flags.has(Flags::PRE) && !context.is_in_line() && self.adaptation.contents(self.tree, &recorder.text).is_spacer(block)
    }

    /// Records a block that shows nothing: it ends a line, and parts what is around it.
    fn record_spacer(&mut self, recorder: &mut Recorder, opened: &Opened<'_>) {
        self.inline.begin(recorder, Run::Block);
        let handle = self.record_as(recorder, opened, &local_name!("div"), "");
        let space = recorder.keep(" ");
        recorder.text(handle, space);
        self.inline.gaps.part(recorder, handle);
        self.inline.end(handle, Run::Block);
    }

    /// Records an element and another in it, for its contents.
    fn open_within(&mut self, recorder: &mut Recorder, opened: &Opened<'_>, inner: Inner, mut context: Context) -> Entered {
        let end = if inner == Inner::List { self.part_list(recorder, opened.parent, &mut context) } else { End::Inline };
        let handle = self.record(recorder, opened);
        let handle = recorder.element(handle, record::HTML, &inner.name());
        match inner {
            Inner::Preformatted => return self.enter_pre(recorder, opened, handle, context),
            Inner::List => {
                context.holds = Holds::Items;
                context.margins.add_items(BULLET);
            }
            Inner::Division => {}
        }
        Entered { end, ..Entered::new(handle, context) }
    }

    /// Has a blank line part a list from what is before it, unless another list or the cell of a table is around. Returns what is done
    /// where it ends.
    fn part_list(&mut self, recorder: &mut Recorder, parent: Handle, context: &mut Context) -> End {
        if context.flags.set(Flags::LIST, true) || context.margins.is_in_cell() {
            return End::Inline;
        }
        self.inline.gaps.part_list(recorder, parent);
        End::List { parent }
    }

    /// Enters a recorded `pre`. Its lines are indented, unless it is in a cell of a table or in a row that is a line.
    fn enter_pre(&mut self, recorder: &mut Recorder, opened: &Opened<'_>, handle: Handle, mut context: Context) -> Entered {
        let is_outer = !context.flags.set(Flags::PRE, true);
        let mut entered = Entered::new(handle, context);
        if is_outer && !context.margins.is_in_cell() && !context.is_in_line() {
            let room = context.margins.room(self.adaptation.columns);
            let is_wrapped = opened.said.style.as_ref().map_or(false, |style| style.white_space.is_some());
            let contents = self.adaptation.contents(self.tree, &recorder.text);
            self.code.begin(contents, opened.node, room, self.adaptation.cuts_code || is_wrapped);
            self.inline.begin_lines();
            entered.context.texts = Texts::Code;
            entered.end = End::Code;
        }
        entered
    }

    /// Notes that an element begins in a `pre` whose lines are indented.
    #[inline(never)]
    fn begin_in_code(&mut self, recorder: &mut Recorder, opened: &Opened<'_>, change: Change, run: Run) {
        match run {
            Run::Break => self.code.end_line(recorder, opened.parent),
            // a terminal underlines the indentation in a link
            Run::Inline if change == Change::Link && self.adaptation.has_colours => self.code.indent(recorder, opened.parent),
            Run::Inline | Run::Apart if self.begins_line(recorder, opened, change) => self.code.indent(recorder, opened.parent),
            Run::Inline | Run::Apart => {}
            _ => self.code.begin_line(),
        }
    }

    /// Reports whether an element is the first to show something on a line of a `pre`, and shows more than texts in it, which are indented.
    fn begins_line(&self, recorder: &Recorder, opened: &Opened<'_>, change: Change) -> bool {
        if !self.code.is_at_start {
            return false;
        }
        let contents = self.adaptation.contents(self.tree, &recorder.text);
        match contents.shown(opened.node, opened.element) {
            Shown::Signs | Shown::Text => true,
            Shown::Image => self.inline.links.is_open(),
            Shown::Contents => {
                let is_label = change == Change::Drawing && drawings::is_label(opened.element);
                (is_label || change == Change::Superscript) && contents.has_any(opened.node)
            }
            _ => false,
        }
    }

    /// Records a form's field, as a text where its contents aren't in the tree.
    fn open_field(&mut self, recorder: &mut Recorder, opened: &Opened<'_>, field: Field, context: Context) -> Option<Entered> {
        let shown = match field {
            Field::Button if !self.adaptation.contents(self.tree, &recorder.text).has_any(opened.node) => None,
            Field::Button => Some("[ ".to_owned()),
            Field::Input => forms::input(self.tree, opened.node),
            Field::Lines => Some(String::new()),
            Field::Select => Some(forms::select(self.tree, &recorder.text, opened.node)),
        }?;
        let handle = self.record(recorder, opened);
        if !context.hides_texts() && !shown.is_empty() {
            let shown = self.tree.filter.filtered(&shown);
            let piece = recorder.keep(&shown);
            recorder.text(handle, piece);
            self.inline.add_object(recorder);
        }
        match field {
            Field::Button if context.hides_texts() => Some(Entered::new(handle, context)),
            Field::Button => Some(Entered { last: Last::Joined, end: End::Button, ..Entered::new(handle, context) }),
            Field::Lines => Some(Entered::new(recorder.element(handle, record::HTML, &local_name!("pre")), context)),
            Field::Input | Field::Select => None,
        }
    }

    /// Records a drawing, or a part of one. Groups dissolve.
    fn open_in_drawing(&mut self, recorder: &mut Recorder, opened: &Opened<'_>, mut context: Context) -> Option<Entered> {
        if opened.element.name == local_name!("svg") && !context.flags.has(Flags::DRAWING) {
            return Some(self.open_drawing(recorder, opened, context));
        }
        match drawings::part_of(self.tree, opened.node, opened.element) {
            drawings::Part::Hidden => None,
            drawings::Part::Group => Some(Entered::new(opened.parent, context)),
            drawings::Part::Label => {
                context.flags.set(Flags::DRAWING, false);
                Some(self.open_label(recorder, opened, context))
            }
        }
    }

    /// Records a drawing as an element of HTML, so that rules count for all of it, and one of SVG in it, whose title the library shows.
    fn open_drawing(&mut self, recorder: &mut Recorder, opened: &Opened<'_>, mut context: Context) -> Entered {
        let name = &opened.element.name;
        let handle = recorder.element(opened.parent, record::HTML, name);
        self.record_attributes(recorder, handle, opened, "");
        let space = record::space(&opened.element.space);
        let drawing = recorder.element(handle, space, name);
        for title in drawings::titles(self.tree, opened.node) {
            self.inline.add_object(recorder);
            let title_handle = recorder.element(drawing, space, &local_name!("title"));
            for piece in self.tree.children(title).filter_map(|child| self.tree.piece(child)) {
                recorder.text(title_handle, piece);
            }
        }
        context.flags.set(Flags::DRAWING, true);
        Entered::new(handle, context)
    }

    /// Records an element between spaces, which part its texts from those around it.
    fn open_label(&mut self, recorder: &mut Recorder, opened: &Opened<'_>, context: Context) -> Entered {
        let handle = self.record(recorder, opened);
        if context.hides_texts() {
            return Entered::new(handle, context);
        }
        let is_in_line = context.is_in_line();
        if !is_in_line || !self.row.is_at_start() {
            let space = recorder.keep(" ");
            self.inline.record_text(recorder, handle, space);
        }
        Entered { last: Last::Joined, end: End::Label { is_in_line }, ..Entered::new(handle, context) }
    }

    /// Records a `q`, and the mark at its start.
    fn open_quotation(&mut self, recorder: &mut Recorder, opened: &Opened<'_>, mut context: Context) -> Entered {
        let handle = self.record(recorder, opened);
        if context.hides_texts() {
            return Entered::new(handle, context);
        }
        let end = End::Quotation(context.quotations);
        let mark = recorder.keep(quotation_marks(context.quotations).0);
        context.quotations = context.quotations.wrapping_add(1);
        self.inline.record_text(recorder, handle, mark);
        Entered { last: Last::Joined, end, ..Entered::new(handle, context) }
    }

    /// Records emphasis: without signs if its texts are hidden or in a `pre`.
    fn open_signed(&mut self, recorder: &mut Recorder, opened: &mut Opened<'_>, context: Context) -> Entered {
        if self.inline.has_signs() {
            opened.detail = Detail::MayBeUnsigned;
        }
        let step = recorder.steps.len();
        let entered = Entered::new(self.record(recorder, opened), context);
        let class_step = recorder.class_step(step);
        self.enter_signed(recorder, opened.element, opened.parent, step, class_step, entered)
    }

    /// Enters emphasis that a step recorded in a node, and that another step may have given classes.
    fn enter_signed(&mut self, recorder: &mut Recorder, element: &Element, parent: Handle, step: usize, class_step: Option<usize>, entered: Entered) -> Entered {
        let is_starred = element.name != local_name!("code");
        let signed = Signed { handle: entered.handle, parent, step, class_step, is_starred, is_signed: true };
        self.inline.open_signed(recorder, signed, !entered.context.drops_signs());
        Entered { end: End::Signed, ..entered }
    }

    /// Records a `sup`: without signs around nothing and around brackets, and a number in brackets as raised digits, as citations have.
    fn open_superscript(&mut self, recorder: &mut Recorder, opened: &Opened<'_>, mut context: Context) -> Entered {
        let contents = self.adaptation.contents(self.tree, &recorder.text);
        context.flags.set(Flags::UNSIGNED, true);
        if !context.flags.has(Flags::PRE) && contents.is_citation(opened.node) {
            if self.end_of_citation == recorder.steps.len() {
                let space = recorder.keep(" ");
                self.inline.record_text(recorder, opened.parent, space);
            }
            let handle = self.record_as(recorder, opened, &local_name!("span"), "");
            context.texts = Texts::Citation;
            return Entered { end: End::Citation, ..Entered::new(handle, context) };
        }
        let is_bare = contents.begins_with_bracket(opened.node) || !contents.has_any(opened.node);
        let handle = if is_bare { self.record_as(recorder, opened, &local_name!("span"), "") } else { self.record(recorder, opened) };
        Entered::new(handle, context)
    }

    /// Records an `a`, with its target in rich text alone.
    fn open_link(&mut self, recorder: &mut Recorder, opened: &mut Opened<'_>, mut context: Context) -> Entered {
        let href = match opened.attributes.iter().find(|attribute| attribute.name == local_name!("href")) {
            Some(href) => recorder.filtered(&href.value),
            None => return Entered::new(self.record(recorder, opened), context),
        };
        let is_inside = href.starts_with('#') && !context.flags.has(Flags::PRE);
        if is_inside && self.adaptation.contents(self.tree, &recorder.text).is_citation(opened.node) {
            context.texts = Texts::Citation;
        }
        opened.detail = Detail::Target(self.recorded_href(recorder, &href));
        let step = recorder.steps.len();
        let is_bare = opened.attributes.len() == 1 && matches!(opened.detail, Detail::Target(Href::Dropped));
        let handle = if is_bare { recorder.element(opened.parent, record::HTML, &opened.element.name) } else { self.record(recorder, opened) };
        self.inline.links.open(self.tree, opened.node, step, &href);
        Entered { end: End::Link, ..Entered::new(handle, context) }
    }

    /// Returns what is recorded of a link's target.
    fn recorded_href(&mut self, recorder: &mut Recorder, href: &str) -> Href {
        if !self.inline.links.keeps_targets() {
            return Href::Dropped;
        }
        self.inline.links.resolved(self.tree, href).map_or(Href::Kept, |target| Href::Resolved(recorder.keep(&target)))
    }

    /// Records an image. One without a text may be named where the link around it ends.
    fn open_image(&mut self, recorder: &mut Recorder, opened: &Opened<'_>, context: Context) -> Entered {
        let handle = self.record(recorder, opened);
        let value = |name| opened.attributes.iter().find(|attribute| attribute.name == name).map_or("", |attribute| attribute.value.trim());
        if value(local_name!("src")).is_empty() {
        } else if value(local_name!("alt")).is_empty() {
            self.inline.add_image(handle, opened.node);
        } else {
            self.inline.add_object(recorder);
        }
        Entered::new(handle, context)
    }

    /// Records a heading. In rich text it is strong.
    fn open_heading(&mut self, recorder: &mut Recorder, opened: &Opened<'_>, context: Context) -> Entered {
        let handle = self.record(recorder, opened);
        let inner = if self.adaptation.has_colours { recorder.element(handle, record::HTML, &local_name!("strong")) } else { handle };
        Entered::new(inner, context)
    }

    /// Records a part of a table that is drawn under its name if it is in its right place, and as a division if not: the library refuses
    /// a table's parts outside of one.
    fn open_part(&mut self, recorder: &mut Recorder, opened: &Opened<'_>, part: Part, around: Context, mut context: Context) -> Entered {
        let is_drawn = match part {
            Part::Table => self.is_drawn(&recorder.text, opened.node),
            Part::Caption | Part::Section => around.part == Some(Part::Table),
            Part::Row => around.part == Some(Part::Section),
            Part::Cell => around.part == Some(Part::Row),
        };
        context.flags.set(Flags::TABLE, true);
        if !is_drawn {
            let mut entered = self.open_division(recorder, opened, part, around.line, context);
            if part == Part::Table && !around.flags.has(Flags::TABLE) {
                self.inline.gaps.part(recorder, entered.handle);
                entered.end = End::Table { parent: entered.handle, is_drawn };
            }
            return entered;
        }
        context.part = Some(part);
        match part {
            Part::Cell => context.enter_cell(opened.element.name == local_name!("th")),
            Part::Row => self.enter_row(&recorder.text, opened.node, &mut context),
            Part::Table => (self.has_tables, self.is_first_row) = (true, true),
            Part::Caption | Part::Section => {}
        }
        let entered = Entered::new(self.record(recorder, opened), context);
        match part {
            Part::Table => {
                self.inline.gaps.begin_drawn();
                Entered { end: End::Table { parent: opened.parent, is_drawn }, ..entered }
            }
            Part::Caption | Part::Cell => {
                self.inline.gaps.begin_place();
                entered
            }
            Part::Section | Part::Row => entered,
        }
    }

    /// Enters the row of a table that is drawn. The texts of the tree are ranges of `text`.
    fn enter_row(&mut self, text: &[u8], row: Id, context: &mut Context) {
        context.part = Some(Part::Row);
        let is_apart = apart::is_apart(self.adaptation.contents(self.tree, text), row, std::mem::take(&mut self.is_first_row));
        if is_apart {
            context.flags.set(Flags::UNSIGNED, true);
        }
        self.is_mark_missing = is_apart && self.adaptation.drops_rules;
        if self.is_mark_missing {
            context.flags.set(Flags::MARKED, true);
        }
    }

    /// Records a division with a line as wide as there is room for. One that directly follows another may be put in that one's division.
    fn record_rule(&mut self, recorder: &mut Recorder, opened: &Opened<'_>, context: Context) {
        let columns = context.margins.rule(self.adaptation.columns);
        let is_shown = columns > 0 && !context.flags.has(Flags::INVISIBLE);
        let can_join = is_shown && self.can_join_rules(opened, context);
        let last = self.last_rule.filter(|last| can_join && last.parent == opened.parent && last.end == recorder.steps.len());
        if let Some((last, line)) = last.and_then(|last| Some((last, recorder.next_rule(columns)?))) {
            recorder.text(last.handle, line);
            self.last_rule = Some(LastRule { end: recorder.steps.len(), ..last });
            return;
        }
        // only a rule of a style sheet asks for the class
        let class = if self.adaptation.is_styled { RULE_CLASS } else { "" };
        let handle = self.record_as(recorder, opened, &local_name!("div"), class);
        if is_shown {
            self.inline.gaps.add_contents(recorder);
            let line = recorder.rule(columns);
            recorder.text(handle, line);
            self.last_rule = can_join.then(|| LastRule { handle, parent: opened.parent, end: recorder.steps.len() });
        }
    }

    /// Reports whether horizontal lines may be in one division: each fills a line of the document, and no rule, attribute or annotation
    /// is for one of them alone.
    fn can_join_rules(&self, opened: &Opened<'_>, context: Context) -> bool {
        let fills_line = context.margins.rule(self.adaptation.columns) == self.adaptation.columns && !context.margins.is_in_cell();
        fills_line && opened.attributes.is_empty() && !self.adaptation.is_styled && !context.flags.has(Flags::PRE)
    }

    /// Records an element with a link to what it embeds, if that can be followed; that to a frame is a block.
    fn record_embedded(&mut self, recorder: &mut Recorder, opened: &Opened<'_>, context: Context) {
        let handle = self.record(recorder, opened);
        let name = &opened.element.name;
        let link = match embedded::link(self.tree, opened.node, name) {
            Some(link) if !context.hides_texts() => link,
            _ => return,
        };
        let parent = if *name == local_name!("frame") { recorder.element(handle, record::HTML, &local_name!("div")) } else { handle };
        let step = recorder.steps.len();
        let anchor = recorder.element(parent, record::HTML, &local_name!("a"));
        let target = recorder.filtered(&link.target);
        match self.recorded_href(recorder, &target) {
            Href::Kept => recorder.attribute(anchor, &local_name!("href"), &target),
            Href::Resolved(target) => recorder.attribute_of_piece(anchor, &local_name!("href"), target),
            Href::Dropped => {}
        }
        self.inline.links.open(self.tree, opened.node, step, &target);
        let shown = self.tree.filter.filtered(&link.name);
        let piece = recorder.keep(&shown);
        self.inline.record_text(recorder, anchor, piece);
        self.close_with_text(recorder, anchor, End::Link);
        self.inline.end(anchor, Run::Apart);
    }

    /// Returns what an element's attributes say of it.
    #[inline(always)]
    fn said_by(&mut self, attributes: &[Attr], is_html: bool) -> Said {
        if attributes.is_empty() {
            Said::default()
        } else {
            self.said_by_some(attributes, is_html)
        }
    }

    #[inline(never)]
    fn said_by_some(&mut self, attributes: &[Attr], is_html: bool) -> Said {
        said_by(attributes, is_html, |text| self.styles.of(text))
    }

    /// Notes whether an element hides or shows the texts in it.
    #[inline]
    fn hide_texts(&self, context: &mut Context, said: &Said, change: Change) {
        if context.flags.has(Flags::WITHOUT_SIZE) && self.has_own_size(change) {
            context.flags.set(Flags::WITHOUT_SIZE, false);
        }
        if let Some(style) = &said.style {
            context.flags.hide_by(style);
        }
    }

    /// Reports whether the size of an element's texts isn't that of the texts around it.
    fn has_own_size(&self, change: Change) -> bool {
        matches!(change, Change::Field(_)) || self.adaptation.is_quirky && change == Change::Table(Part::Table)
    }

    /// Records an element's attributes, and the private classes that its change and its style give it.
    fn record_attributes(&mut self, recorder: &mut Recorder, handle: Handle, opened: &Opened<'_>, class: &str) {
        let mut classes = class.to_owned();
        let mut id = None;
        if let Some(style) = &opened.said.style {
            if style.has_rules(self.adaptation.has_colours) {
                let found = opened.attributes.iter().find(|attribute| attribute.name == local_name!("id"));
                id = found.map(|attribute| recorder.keep_filtered(&attribute.value));
                self.rules.add(style, self.adaptation.has_colours, id, &mut classes);
            }
        }
        for attribute in opened.attributes.iter().filter(|attribute| record::is_asked(&attribute.name)) {
            if attribute.name == local_name!("start") {
                continue;
            }
            match (&attribute.name, id) {
                (name @ &local_name!("id"), Some(id)) => recorder.attribute_of_piece(handle, name, id),
                (name @ &local_name!("class"), _) if !classes.is_empty() => {
                    let (start, length) = recorder.keep_filtered(&attribute.value);
                    let (_, more) = recorder.keep(&[" ", &classes].concat());
                    opened.keep_after_classes(recorder);
                    recorder.attribute_of_piece(handle, name, (start, length + more));
                    classes.clear();
                }
                (name @ &local_name!("class"), _) => {
                    let piece = recorder.keep_filtered(&attribute.value);
                    opened.keep_after_classes(recorder);
                    recorder.attribute_of_piece(handle, name, piece);
                }
                (name @ &local_name!("href"), _) => match opened.detail {
                    Detail::Target(Href::Resolved(target)) => recorder.attribute_of_piece(handle, name, target),
                    Detail::Target(Href::Dropped) => {}
                    _ => recorder.attribute(handle, name, &attribute.value),
                },
                // without it an image may be named later
                (&local_name!("alt"), _) if attribute.value.trim().is_empty() => {}
                (name @ &local_name!("alt"), _) => {
                    let shown = self.tree.filter.filtered(&attribute.value);
                    recorder.attribute(handle, name, &shown);
                }
                (name, _) => recorder.attribute(handle, name, &attribute.value),
            }
        }
        if let Detail::Start(start) = opened.detail {
            recorder.attribute(handle, &local_name!("start"), &start.to_string());
        }
        if !classes.is_empty() {
            let piece = recorder.keep(&classes);
            opened.keep_after_classes(recorder);
            recorder.attribute_of_piece(handle, &local_name!("class"), piece);
        }
    }
}

/// Reports whether an attribute of a cell is recorded as it is.
fn is_kept_of_cell(attribute: &Attr) -> bool {
    matches!(attribute.name, local_name!("class") | local_name!("colspan") | local_name!("id") | local_name!("rowspan"))
}

/// Reports whether an `object` names contents to show in the place of its children.
fn names_contents(attributes: &[Attr]) -> bool {
    attributes.iter().any(|attribute| attribute.name == local_name!("data") && !attribute.value.trim().is_empty())
}

/// Returns what an element's attributes say of it; only HTML has `hidden`. `read` reads the value of a `style`.
#[inline]
fn said_by(attributes: &[Attr], is_html: bool, mut read: impl FnMut(&StrTendril) -> Rc<InlineStyle>) -> Said {
    let mut said = Said::default();
    for attribute in attributes {
        match attribute.name {
            local_name!("style") => said.style = Some(read(&attribute.value)),
            local_name!("hidden") => said.is_hidden = is_html,
            _ => {}
        }
    }
    said
}

/// Reports whether nothing is shown of an element of these attributes, nor of what is in it.
fn is_dropped(attributes: &[Attr], is_html: bool) -> bool {
    said_by(attributes, is_html, |text| InlineStyle::of(text).into()).drops()
}

/// Reports whether an element is an image or a drawing, which has a text of its own.
fn is_picture(element: &Element) -> bool {
    element.name == local_name!("img") || is_drawing(element)
}

fn is_drawing(element: &Element) -> bool {
    element.name == local_name!("svg") && element.space == ns!(svg)
}

/// Returns the raised character of a digit; `None` for other characters.
fn raised(c: char) -> Option<char> {
    const RAISED: [char; 10] = ['\u{2070}', '\u{b9}', '\u{b2}', '\u{b3}', '\u{2074}', '\u{2075}', '\u{2076}', '\u{2077}', '\u{2078}', '\u{2079}'];
    RAISED.get(c.to_digit(10)? as usize).copied()
}

/// Returns the marks around a quotation in so many others.
fn quotation_marks(quotations: u8) -> (&'static str, &'static str) {
    if quotations % 2 == 0 {
        ("\u{201c}", "\u{201d}")
    } else {
        ("\u{2018}", "\u{2019}")
    }
}

/// Returns the text of the page's first `title`, with single spaces, unless it is empty.
pub(crate) fn title(tree: &Tree) -> Option<String> {
    let is_title = |&node: &Id| matches!(tree.element(node), Some(element) if element.name == local_name!("title") && element.space == ns!(html));
    let node = tree.ids().find(is_title)?;
    let mut text = String::new();
    tree.push_text_of(node, &mut text);
    let words: Vec<&str> = text.split_ascii_whitespace().collect();
    (!words.is_empty()).then(|| words.join(" "))
}
