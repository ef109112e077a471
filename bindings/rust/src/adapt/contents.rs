//! What a cell has to show, and how many columns that takes on one line.

use super::elements::{change_in, Change, Field, Part};
use super::flow::bytes;
use super::{drawings, embedded, forms, is_drawing, is_dropped, names_contents, said_by, targets, Adaptation, InlineStyle};
use crate::columns;
use crate::options::LinkMode;
use crate::tree::{Attr, Data, Element, Id, Piece, Tree, NONE};
use html5ever::{local_name, namespace_url, ns};
use std::borrow::Cow;

/// Maximum number of columns of a link's number, if a page has fewer than 1,000.
const NUMBER: u32 = 5;

/// Columns of the signs around a target that follows its link.
const TARGET_SIGNS: u32 = 3;

/// Maximum number of nodes that are looked at for the first text in an element, or the first field.
const NODES_BEFORE_TEXT: usize = 16;

/// Columns of the spaces around a label of a drawing.
const LABEL_SPACES: u32 = 2;

/// Columns of the signs around an image or a drawing, in plain text.
const IMAGE_SIGNS: u32 = 2;

/// What an element shows.
pub(super) enum Shown {
    /// Neither the element nor what is in it.
    Nothing,
    /// What is in it.
    Contents,
    /// What is in it, as the text of a link.
    Link,
    /// Its name, if it is all that a link has to show.
    Image,
    /// Signs or a title, and what is in it.
    Signs,
    /// A text of its own, in the place of what is in it.
    Text,
    /// What is in it, on lines of their own.
    Block,
    /// A table.
    Table,
}

/// The part of a cell that has something to show.
#[derive(Clone, Copy, Debug, PartialEq, Eq)]
pub(super) struct Run {
    /// Columns on one line.
    pub columns: u32,
    /// The first text or element that is shown.
    pub first: Id,
    /// The last one.
    pub last: Id,
}

/// What a cell has to show.
#[derive(Clone, Copy, Debug, PartialEq, Eq)]
pub(super) enum Cell {
    Nothing,
    /// Inline contents that fit on a line.
    Inline(Run),
    /// Blocks, line breaks, or more than a line.
    Block,
}

/// The contents of a page's elements.
#[derive(Clone, Copy)]
pub(super) struct Contents<'a> {
    pub tree: &'a Tree,
    /// The text of which the tree's texts are ranges.
    pub text: &'a [u8],
    pub adaptation: &'a Adaptation,
}

/// Reports whether a text has a character that isn't white space and takes a column.
fn is_visible(text: &str) -> bool {
    text.bytes().any(|byte| byte.is_ascii_graphic()) || text.chars().any(|c| !c.is_whitespace() && columns::of_char(c) > 0)
}

/// Reports whether a text is a number: digits of ASCII alone.
fn is_number(text: &str) -> bool {
    !text.is_empty() && text.bytes().all(|byte| byte.is_ascii_digit())
}

/// Returns a piece of a text.
pub(super) fn text_of(text: &[u8], (start, length): Piece) -> &str {
    std::str::from_utf8(&text[start as usize..][..length as usize]).unwrap_or_default()
}

/// Reports whether a piece of a text can't be seen.
pub(super) fn is_unseen(text: &[u8], piece: Piece) -> bool {
    !bytes(text, piece).iter().any(u8::is_ascii_graphic) && !is_visible(text_of(text, piece))
}

/// Columns of a text on one line, as it is read.
#[derive(Default)]
struct Measure {
    columns: u32,
    /// Columns of the white space after the last visible character.
    gap: u32,
    is_after_space: bool,
}

impl Measure {
    fn add(&mut self, columns: u32) {
        let gap = if self.columns == 0 { 0 } else { self.gap };
        self.columns = self.columns.saturating_add(gap).saturating_add(columns);
        (self.gap, self.is_after_space) = (0, false);
    }

    /// Adds a text, up to where more columns than so many are passed.
    fn add_text(&mut self, text: &str, most: u32) {
        for c in text.chars() {
            if self.columns > most {
                return;
            } else if c == '\u{a0}' {
                self.gap = self.gap.saturating_add(1);
                self.is_after_space = false;
            } else if c.is_whitespace() {
                self.gap = self.gap.saturating_add(u32::from(!self.is_after_space));
                self.is_after_space = true;
            } else {
                self.add(columns::of_char(c) as u32);
            }
        }
    }
}

/// A link in a cell, as its contents are read.
struct Link {
    node: Id,
    /// The node after all that is in it, or `NONE`.
    end: Id,
    /// Whether something in it is shown.
    is_shown: bool,
    /// The first image in it without a text.
    image: Option<Id>,
}

/// A cell on one line, as it is read.
#[derive(Default)]
struct Line {
    measure: Measure,
    /// The first and the last text or element that is shown.
    ends: Option<(Id, Id)>,
    link: Option<Link>,
    /// Whether a drawing was read.
    has_drawing: bool,
}

impl Line {
    /// Notes a text or an element that is shown.
    fn show(&mut self, node: Id) {
        self.ends = Some((self.ends.map_or(node, |(first, _)| first), node));
        if let Some(link) = &mut self.link {
            link.is_shown = true;
        }
    }

    /// Leaves a link before a node that isn't in it.
    fn leave_link(&mut self, contents: Contents<'_>, node: Id) {
        if !matches!(&self.link, Some(link) if link.end == node) {
            return;
        }
        if let Some(link) = self.link.take() {
            self.end_link(contents, link);
        }
    }

    /// Notes what is shown where a link ends. It is named by an image, if it shows nothing else.
    fn end_link(&mut self, contents: Contents<'_>, Link { node, is_shown, image, .. }: Link) {
        if let Some(image) = image.filter(|_| !is_shown) {
            self.measure.add(contents.columns_of_image(&embedded::image_name(contents.tree, image, node)));
            self.show(image);
        }
        if let (Some(target), true) = (contents.tree.attribute(node, &local_name!("href")), is_shown || image.is_some()) {
            self.measure.add(contents.link_signs(target));
        }
    }
}

impl<'a> Contents<'a> {
    /// Returns the node after another in document order, or the one after all in it, among those in a third one.
    pub fn next(self, node: Id, is_entered: bool, top: Id) -> Id {
        let first = self.tree.first_child(node);
        if is_entered && first != NONE {
            return first;
        }
        let mut node = node;
        while node != top {
            let next = self.tree.next_sibling(node);
            if next != NONE {
                return next;
            }
            node = self.tree.parent(node);
        }
        NONE
    }

    /// Reports whether nothing is shown of an element.
    #[inline]
    pub fn is_hidden(self, element: &Element) -> bool {
        (element.has_attributes() || self.adaptation.hiding.has_rules()) && self.is_hidden_by_any(element)
    }

    /// Reports whether an attribute or a rule hides an element. Its style is read only where it can say so.
    fn is_hidden_by_any(self, element: &Element) -> bool {
        let attributes = self.tree.attributes(element);
        let is_html = element.space == ns!(html);
        let can_hide = |attribute: &Attr| match attribute.name {
            local_name!("style") => InlineStyle::can_drop(&attribute.value),
            local_name!("hidden") => is_html,
            _ => false,
        };
        attributes.iter().any(can_hide) && is_dropped(attributes, is_html) || self.adaptation.hiding.has_rules() && self.is_hidden_by_rule(element, attributes)
    }

    fn is_hidden_by_rule(self, element: &Element, attributes: &[Attr]) -> bool {
        let said = said_by(attributes, true, |text| InlineStyle::of(text).into());
        self.adaptation.is_hidden_by_rule(element, attributes, &said)
    }

    /// Returns the cells of a row that aren't hidden.
    pub fn cells_of(self, row: Id) -> impl Iterator<Item = Id> + 'a {
        let is_shown = move |element: &Element| matches!(element.name, local_name!("td") | local_name!("th")) && !self.is_hidden(element);
        self.tree.children(row).filter(move |&cell| self.tree.element(cell).map_or(false, is_shown))
    }

    /// Reports whether a cell has something to show: a visible text, an image with one or in a link, a field, or a table.
    pub fn has_any(self, cell: Id) -> bool {
        let (mut has_drawing, mut end_of_link) = (false, None);
        let mut node = self.tree.first_child(cell);
        while node != NONE {
            if end_of_link == Some(node) {
                end_of_link = None;
            }
            let shown = match self.tree.data(node) {
                &Data::Text { start, length, .. } if !is_unseen(self.text, (start, length)) && !(has_drawing && self.is_in_drawing(node)) => return true,
                Data::Element(element) => {
                    has_drawing |= element.space == ns!(svg);
                    self.shown(node, element)
                }
                _ => Shown::Nothing,
            };
            let is_entered = match shown {
                Shown::Signs | Shown::Text | Shown::Table => return true,
                Shown::Image if end_of_link.is_some() => return true,
                Shown::Image | Shown::Nothing => false,
                Shown::Contents | Shown::Block => true,
                Shown::Link => {
                    end_of_link = end_of_link.or_else(|| Some(self.next(node, false, cell)));
                    true
                }
            };
            node = self.next(node, is_entered, cell);
        }
        false
    }

    /// Reports whether a cell begins with a field of a form, or with few nodes before one.
    pub fn has_field(self, cell: Id) -> bool {
        let mut node = self.tree.first_child(cell);
        for _ in 0..NODES_BEFORE_TEXT {
            if node == NONE {
                return false;
            }
            if let Data::Element(element) = self.tree.data(node) {
                let is_field = element.space == ns!(html) && matches!(change_in(element), Change::Field(_));
                if is_field && !matches!(self.shown(node, element), Shown::Nothing) {
                    return true;
                }
            }
            node = self.next(node, true, cell);
        }
        false
    }

    /// Reports whether all in a block are no-break spaces and white space.
    pub fn is_spacer(self, block: Id) -> bool {
        let mut has_spaces = false;
        let mut node = self.tree.first_child(block);
        while node != NONE {
            match self.tree.data(node) {
                &Data::Text { start, length, .. } => {
                    let piece = (start, length);
                    if matches!(bytes(self.text, piece), [first, ..] if first.is_ascii_graphic()) {
                        return false;
                    }
                    let text = text_of(self.text, piece);
                    if !text.chars().all(char::is_whitespace) {
                        return false;
                    }
                    has_spaces |= !text.is_ascii();
                }
                Data::Element(element) if element.space == ns!(html) => match change_in(element) {
                    Change::Kept | Change::Signed | Change::Link => {}
                    _ => return false,
                },
                Data::Element(_) => return false,
                Data::Comment | Data::Root => {}
            }
            node = self.next(node, true, block);
        }
        has_spaces
    }

    /// Reports whether the text that an element shows begins with a bracket.
    pub fn begins_with_bracket(self, top: Id) -> bool {
        let mut node = self.tree.first_child(top);
        for _ in 0..NODES_BEFORE_TEXT {
            if node == NONE {
                return false;
            }
            let is_entered = match self.tree.data(node) {
                &Data::Text { start, length, .. } => match text_of(self.text, (start, length)).trim_start().chars().next() {
                    Some(first) => return first == '[',
                    None => false,
                },
                Data::Element(element) => match self.shown(node, element) {
                    Shown::Contents | Shown::Link => true,
                    Shown::Image | Shown::Nothing => false,
                    Shown::Block | Shown::Signs | Shown::Table | Shown::Text => return false,
                },
                Data::Comment | Data::Root => false,
            };
            node = self.next(node, is_entered, top);
        }
        false
    }

    /// Reports whether an element begins with signs or a text of its own: neither with a text of the tree nor with white space.
    pub fn begins_with_own_text(self, node: Id, element: &Element) -> bool {
        let is_after_space = match element.name {
            local_name!("img") => self.tree.attribute(node, &local_name!("alt")).map_or(false, |alt| alt.starts_with(char::is_whitespace)),
            _ if is_drawing(element) => self.title_of(node).starts_with(char::is_whitespace),
            _ => false,
        };
        !is_after_space && matches!(self.shown(node, element), Shown::Signs | Shown::Text)
    }

    /// Reports whether an element shows digits alone, which the library raises in a `sup`.
    pub fn is_number(self, top: Id) -> bool {
        self.number_in(top).map_or(false, |found| is_number(found.trim()))
    }

    /// Reports whether an element shows a number in brackets alone, as that of a citation.
    pub fn is_citation(self, top: Id) -> bool {
        let found = self.number_in(top).unwrap_or_default();
        found.trim().strip_prefix('[').and_then(|found| found.strip_suffix(']')).map_or(false, is_number)
    }

    /// Returns the text that an element shows, if it is of digits, brackets and white space in few nodes.
    fn number_in(self, top: Id) -> Option<String> {
        let mut found = String::new();
        let mut node = self.tree.first_child(top);
        for _ in 0..NODES_BEFORE_TEXT {
            if node == NONE {
                return Some(found);
            }
            let is_entered = match self.tree.data(node) {
                &Data::Text { start, length, .. } => {
                    let text = text_of(self.text, (start, length));
                    if !text.chars().all(|c| c.is_ascii_digit() || c.is_whitespace() || matches!(c, '[' | ']')) {
                        return None;
                    }
                    found.push_str(text);
                    false
                }
                Data::Element(element) => match self.shown(node, element) {
                    Shown::Contents | Shown::Link => true,
                    Shown::Image | Shown::Nothing => false,
                    Shown::Block | Shown::Signs | Shown::Table | Shown::Text => return None,
                },
                Data::Comment | Data::Root => false,
            };
            node = self.next(node, is_entered, top);
        }
        None
    }

    /// Returns what a cell has to show on a line of at most so many columns.
    pub fn of_cell(self, cell: Id, room: u32) -> Cell {
        let mut line = Line::default();
        let mut node = self.tree.first_child(cell);
        while node != NONE {
            line.leave_link(self, node);
            let is_entered = match self.tree.data(node) {
                &Data::Text { start, length, .. } => {
                    self.read_text(&mut line, node, (start, length), room);
                    false
                }
                Data::Element(element) => match self.shown(node, element) {
                    Shown::Block | Shown::Table => return Cell::Block,
                    shown => self.read_element(&mut line, node, element, shown, cell),
                },
                Data::Comment | Data::Root => false,
            };
            if line.measure.columns > room {
                return Cell::Block;
            }
            node = self.next(node, is_entered, cell);
        }
        line.leave_link(self, NONE);
        match line.ends {
            _ if line.measure.columns > room => Cell::Block,
            Some((first, last)) => Cell::Inline(Run { columns: line.measure.columns, first, last }),
            None => Cell::Nothing,
        }
    }

    fn read_text(self, line: &mut Line, node: Id, piece: Piece, room: u32) {
        if line.has_drawing && self.is_in_drawing(node) {
            return;
        }
        let text = text_of(self.text, piece);
        line.measure.add_text(text, room);
        if is_visible(text) {
            line.show(node);
        }
    }

    /// Reads an element of a cell that is shown on the line. Returns whether what is in it is shown.
    fn read_element(self, line: &mut Line, node: Id, element: &Element, shown: Shown, cell: Id) -> bool {
        line.has_drawing |= element.space == ns!(svg);
        match shown {
            Shown::Nothing | Shown::Block | Shown::Table => return false,
            Shown::Contents | Shown::Signs => line.measure.add(self.signs(node, element)),
            Shown::Text => line.measure.add(self.columns_of(node, element)),
            Shown::Link if line.link.is_some() => {}
            Shown::Link => line.link = Some(Link { node, end: self.next(node, false, cell), is_shown: false, image: None }),
            Shown::Image => {
                if let Some(link) = line.link.as_mut().filter(|link| !link.is_shown) {
                    link.image = link.image.or(Some(node));
                }
                return false;
            }
        }
        if matches!(shown, Shown::Signs | Shown::Text) {
            line.show(node);
        }
        !matches!(shown, Shown::Text)
    }

    pub fn shown(self, node: Id, element: &Element) -> Shown {
        if self.is_hidden(element) {
            return Shown::Nothing;
        }
        let attributes = self.tree.attributes(element);
        match change_in(element) {
            Change::Dropped => Shown::Nothing,
            Change::Kept if matches!(element.name, local_name!("script") | local_name!("style") | local_name!("template")) => Shown::Nothing,
            Change::Kept | Change::Signed | Change::Superscript => Shown::Contents,
            Change::Link if attributes.iter().any(|attribute| attribute.name == local_name!("href")) => Shown::Link,
            Change::Link => Shown::Contents,
            Change::Image => self.shown_of_image(node),
            Change::Drawing => self.shown_in_drawing(node, element),
            Change::Block if element.name == local_name!("head") => Shown::Nothing,
            Change::Block | Change::Break | Change::Division | Change::Heading(_) | Change::Paragraph | Change::Preformatted => Shown::Block,
            Change::Description | Change::Item | Change::Term | Change::Within(_) => Shown::Block,
            Change::Dialog if self.tree.attribute(node, &local_name!("open")).is_none() => Shown::Nothing,
            Change::Dialog | Change::Rule | Change::List(_) | Change::Descriptions | Change::Prefixed(_) => Shown::Block,
            Change::Object if !names_contents(attributes) => Shown::Contents,
            Change::Embedded | Change::Object if embedded::link(self.tree, node, &element.name).is_none() => Shown::Nothing,
            Change::Embedded if element.name == local_name!("frame") => Shown::Block,
            Change::Embedded | Change::Object => Shown::Text,
            Change::Field(Field::Button) if !self.has_any(node) => Shown::Nothing,
            Change::Quotation | Change::Field(Field::Button) => Shown::Signs,
            Change::Field(Field::Input) if forms::input(self.tree, node).is_none() => Shown::Nothing,
            Change::Field(Field::Input | Field::Select) => Shown::Text,
            Change::Field(Field::Lines) => Shown::Block,
            Change::Table(Part::Table) => Shown::Table,
            Change::Table(_) => Shown::Block,
        }
    }

    fn shown_of_image(self, node: Id) -> Shown {
        match self.tree.attribute(node, &local_name!("src")) {
            Some(source) if !source.trim().is_empty() => match self.image_of(node) {
                Some(_) => Shown::Text,
                None => Shown::Image,
            },
            _ => Shown::Nothing,
        }
    }

    /// Returns the text of an image, if it has one.
    fn image_of(self, node: Id) -> Option<&'a str> {
        match self.tree.attribute(node, &local_name!("alt")) {
            Some(name) if is_visible(name) => Some(name.trim()),
            _ if self.adaptation.shows_images => self.tree.attribute(node, &local_name!("src")).map(|source| embedded::file_name(source)),
            _ => None,
        }
    }

    /// Returns what a drawing shows, or an element in one.
    fn shown_in_drawing(self, node: Id, element: &Element) -> Shown {
        if is_drawing(element) && !self.is_in_drawing(node) {
            return if is_visible(&self.title_of(node)) { Shown::Signs } else { Shown::Contents };
        }
        match drawings::part_of(self.tree, node, element) {
            drawings::Part::Hidden => Shown::Nothing,
            drawings::Part::Group | drawings::Part::Label => Shown::Contents,
        }
    }

    /// Reports whether a node is in a drawing, and not in a label of one.
    fn is_in_drawing(self, node: Id) -> bool {
        self.tree.element(self.tree.parent(node)).map_or(false, |around| around.space == ns!(svg) && !drawings::is_label(around))
    }

    /// Returns the titles of a drawing.
    fn title_of(self, drawing: Id) -> String {
        let mut found = String::new();
        for child in drawings::titles(self.tree, drawing).flat_map(|title| self.tree.children(title)) {
            if let Some(piece) = self.tree.piece(child) {
                found.push_str(text_of(self.text, piece));
            }
        }
        found
    }

    /// Returns the columns of an image or a drawing of a name.
    fn columns_of_image(self, name: &str) -> u32 {
        let signs = if self.adaptation.has_colours { 0 } else { IMAGE_SIGNS };
        (columns::of_text(name.trim()) as u32).saturating_add(signs)
    }

    /// Returns the columns of an element that is shown by a text of its own.
    pub fn columns_of(self, node: Id, element: &Element) -> u32 {
        let text: Cow<'_, str> = match element.name {
            local_name!("img") => return self.columns_of_image(self.image_of(node).unwrap_or_default()),
            local_name!("input") => forms::input(self.tree, node).unwrap_or_default().into(),
            local_name!("select") => forms::select(self.tree, self.text, node).into(),
            _ => match embedded::link(self.tree, node, &element.name) {
                Some(link) => return (columns::of_text(&link.name) as u32).saturating_add(self.link_signs(&link.target)),
                None => return 0,
            },
        };
        columns::of_text(&text) as u32
    }

    /// Returns the columns of the signs around what is in an element, and of a drawing's title.
    fn signs(self, node: Id, element: &Element) -> u32 {
        match element.name {
            _ if element.space == ns!(svg) => self.signs_in_drawing(node, element),
            local_name!("button") => 4,
            local_name!("q") => 2,
            local_name!("sup") if self.begins_with_bracket(node) || !self.has_any(node) => 0,
            local_name!("sup") => 3,
            local_name!("b") | local_name!("strong") if self.adaptation.has_signs => 4,
            local_name!("code") | local_name!("em") if self.adaptation.has_signs => 2,
            _ => 0,
        }
    }

    /// Returns the columns of a drawing's title, or of the spaces around a label.
    fn signs_in_drawing(self, node: Id, element: &Element) -> u32 {
        if drawings::is_label(element) {
            return LABEL_SPACES;
        }
        match &*self.title_of(node) {
            title if is_drawing(element) && is_visible(title) && !self.is_in_drawing(node) => self.columns_of_image(title),
            _ => 0,
        }
    }

    /// Returns the columns of what follows a link to a target, as far as it is written.
    pub fn link_signs(self, target: &str) -> u32 {
        let written = targets::written(target);
        match self.adaptation.links {
            _ if !targets::leads_out(&written) => 0,
            Some(LinkMode::Notes) => NUMBER,
            Some(LinkMode::Inline) => (columns::of_text(&written) as u32).saturating_add(TARGET_SIGNS),
            Some(LinkMode::List | LinkMode::None) | None => 0,
        }
    }
}

#[cfg(test)]
pub(super) mod tests {
    use super::*;
    use crate::adapt::is_asked;
    use crate::characters::Filter;
    use crate::hiding::Hiding;
    use crate::options::Tables;
    use crate::reader::Reader;
    use crate::sink::{Sink, Wanted};
    use html5ever::tree_builder::TreeBuilderOpts;
    use html5ever::LocalName;

    /// Returns the tree of a page.
    pub(in crate::adapt) fn tree_of(page: &str) -> Tree {
        let wanted = Wanted { is_asked, css: false, max_nodes: usize::MAX };
        let sink = Sink::new(Tree::new(Filter::default()), wanted);
        Reader::read(page, sink, wanted, TreeBuilderOpts { scripting_enabled: false, ..TreeBuilderOpts::default() }).unwrap().tree
    }

    /// Returns the first element of a name.
    pub(in crate::adapt) fn element_of(tree: &Tree, name: &str) -> Id {
        let name = LocalName::from(name);
        tree.ids().find(|&node| matches!(tree.element(node), Some(element) if element.name == name)).unwrap()
    }

    /// Returns how a page is adapted for plain text of 20 columns.
    pub(in crate::adapt) fn adaptation() -> Adaptation {
        Adaptation {
            columns: 20,
            has_colours: false,
            title: None,
            is_quirky: false,
            has_signs: true,
            is_styled: false,
            links: Some(LinkMode::Notes),
            base: None,
            hiding: Hiding::default(),
            tables: Tables::Data,
            names_parts: false,
            stacks_cells: false,
            shows_images: false,
            cuts_code: false,
            drops_rules: true,
        }
    }

    fn has_any(cell: &str) -> bool {
        let tree = tree_of(&format!("<table><tr><td>{cell}<td>x</table>"));
        adaptation().contents(&tree, &tree.text).has_any(element_of(&tree, "td"))
    }

    /// Returns the columns of a cell on a line of at most 20, and 0 if it has nothing to show.
    fn columns(cell: &str, adaptation: &Adaptation) -> Option<u32> {
        let tree = tree_of(&format!("<table><tr><td>{cell}<td>x</table>"));
        match adaptation.contents(&tree, &tree.text).of_cell(element_of(&tree, "td"), 20) {
            Cell::Nothing => Some(0),
            Cell::Inline(run) => Some(run.columns),
            Cell::Block => None,
        }
    }

    #[test]
    fn cells_with_something_to_show() {
        for cell in [
            "a",
            "<p><b>\u{754c}</b></p>",
            "<img src=i alt=b>",
            "<input>",
            "<select></select>",
            "<button>a</button>",
            "<table></table>",
            "<iframe src=c></iframe>",
            "<svg><title>d</title></svg>",
            "<svg><g><text>d</text></g></svg>",
            "<a href=c><b></b><img src=i></a>",
        ] {
            assert!(has_any(cell), "{cell}");
        }
        for cell in [
            "",
            " &nbsp;\u{200b}\u{34f}",
            "<img src=i><img alt=b>",
            "<input type=hidden>",
            "<button> </button>",
            "<script>a</script><style>b</style><template>c</template>",
            "<span style='color: red; DISPLAY: none'>a</span><b hidden>b</b>",
            "<p></p><hr><svg></svg>",
            "<svg><g>a</g><text></text><desc>b</desc></svg>",
            "<a href=c></a><img src=i><a><img src=i></a>",
        ] {
            assert!(!has_any(cell), "{cell}");
        }
    }

    #[test]
    fn columns_of_cells() {
        for (cell, wanted) in [
            ("", Some(0)),
            (" a \n b ", Some(3)),
            ("&nbsp;a&nbsp; &nbsp;\u{754c}&nbsp;", Some(6)),
            ("<a href=x>ab</a> <b>c</b>", Some(13)),
            ("<i>a</i><a>b</a><span hidden>c</span>", Some(2)),
            ("<sup>1</sup><sup> <i></i><b hidden>a</b><a>[</a>2]</sup>", Some(8)),
            ("<img src=i alt=abc>", Some(5)),
            ("<input value=ab>", Some(8)),
            ("<a href='#b'>a</a><a href=' JavaScript:b'>a</a>", Some(2)),
            ("<a href=x><img src='b/cd.png'><b></b></a>a<a href=y> </a>", Some(18)),
            ("<a href=x>a<img src='b/cd.png'></a> <img src=b>", Some(6)),
            ("<svg><title>ab</title><text>c</text>d</svg>", Some(7)),
            ("abcdefghijklmnopqrst", Some(20)),
            ("abcdefghijklmnopqrstu", None),
            ("a<br>b", None),
            ("<p>a", None),
            ("<table></table>", None),
        ] {
            assert_eq!(columns(cell, &adaptation()), wanted, "{cell}");
        }
    }

    #[test]
    fn columns_of_signs() {
        let cell = "<a href=xy>a</a> <b>b</b>";
        for (links, has_signs, wanted) in [
            (Some(LinkMode::Notes), true, 12),
            (Some(LinkMode::Inline), true, 12),
            (Some(LinkMode::List), true, 7),
            (Some(LinkMode::None), false, 3),
            (None, false, 3),
        ] {
            assert_eq!(columns(cell, &Adaptation { links, has_signs, ..adaptation() }), Some(wanted));
        }
        let named = |has_colours| columns("<img src=i alt=abc>", &Adaptation { has_colours, ..adaptation() });
        assert_eq!((named(false), named(true)), (Some(5), Some(3)));
    }
}
