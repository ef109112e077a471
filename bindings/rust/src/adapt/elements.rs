//! What becomes of HTML's elements, by their names.

use crate::classes::Class;
use crate::tree::Element;
use html5ever::{local_name, namespace_url, ns, LocalName};

/// What becomes of an element.
#[derive(Clone, Copy, Debug, PartialEq, Eq)]
pub(crate) enum Change {
    /// It is recorded as it is, among the text around it.
    Kept,
    /// A `sup`, which ends a word.
    Superscript,
    /// A `br`.
    Break,
    /// It is recorded as it is, on lines of its own.
    Block,
    /// A `div`.
    Division,
    /// A `p`.
    Paragraph,
    /// An `li`.
    Item,
    /// A `dt`.
    Term,
    /// A `dd`.
    Description,
    /// A `pre`.
    Preformatted,
    /// An `a`.
    Link,
    /// An `img`.
    Image,
    /// A heading, whose lines have a prefix of so many columns.
    Heading(u32),
    /// Nothing of it is recorded.
    Dropped,
    /// Its contents are recorded in an element of their own, inside it.
    Within(Inner),
    /// A `dialog`: a block if it is open.
    Dialog,
    /// An `hr`.
    Rule,
    /// A `q`.
    Quotation,
    /// Its contents are dropped; a link stands for what it embeds.
    Embedded,
    /// An `object`: embedded contents if it names any.
    Object,
    /// A list, whose items have prefixes.
    List(List),
    /// A `dl`.
    Descriptions,
    /// A block whose lines have a prefix of so many columns.
    Prefixed(u32),
    /// A part of a table.
    Table(Part),
    /// It has signs around its texts: none if these are hidden.
    Signed,
    /// A form's field, whose texts have a size of their own.
    Field(Field),
    /// A drawing, or a part of one.
    Drawing,
}

/// An element in which contents are recorded.
#[derive(Clone, Copy, Debug, PartialEq, Eq)]
pub(crate) enum Inner {
    Division,
    List,
    Preformatted,
}

impl Inner {
    pub fn name(self) -> LocalName {
        match self {
            Inner::Division => local_name!("div"),
            Inner::List => local_name!("ul"),
            Inner::Preformatted => local_name!("pre"),
        }
    }
}

#[derive(Clone, Copy, Debug, PartialEq, Eq)]
pub(crate) enum List {
    Ordered,
    Unordered,
}

/// A form's field.
#[derive(Clone, Copy, Debug, PartialEq, Eq)]
pub(crate) enum Field {
    Button,
    Input,
    Lines,
    Select,
}

/// A part of a table, by what it is in.
#[derive(Clone, Copy, Debug, PartialEq, Eq)]
pub(crate) enum Part {
    Table,
    Caption,
    Section,
    Row,
    Cell,
}

/// What an element is to the text around it.
#[derive(Clone, Copy, Debug, PartialEq, Eq)]
pub(crate) enum Run {
    /// Its text continues that around it.
    Inline,
    /// It ends a word.
    Apart,
    /// It ends a line.
    Break,
    /// It is on lines of its own.
    Block,
    /// It is on lines of its own, and the library makes blank lines around it.
    Parted,
    /// A list.
    List,
    /// An item or a description, whose lines are rendered apart.
    Item,
}

impl Run {
    /// Reports whether an element is on lines of its own.
    #[inline]
    pub fn is_block(self) -> bool {
        matches!(self, Run::Block | Run::Parted | Run::List | Run::Item)
    }
}

impl Change {
    /// Returns what an element is to the text around it.
    pub fn run(self) -> Run {
        match self {
            Change::Kept | Change::Drawing | Change::Dropped | Change::Image | Change::Link | Change::Quotation | Change::Signed => Run::Inline,
            Change::Break => Run::Break,
            Change::Embedded | Change::Field(_) | Change::Object | Change::Superscript => Run::Apart,
            Change::Heading(_) | Change::Paragraph | Change::Prefixed(_) | Change::Preformatted | Change::Within(Inner::Preformatted) => Run::Parted,
            Change::List(_) | Change::Descriptions | Change::Within(Inner::List) => Run::List,
            Change::Description | Change::Item => Run::Item,
            _ => Run::Block,
        }
    }
}

/// Returns what becomes of an element.
#[inline(always)]
pub(crate) fn change_in(element: &Element) -> Change {
    match element.space {
        ns!(html) => change_by_class(element),
        ns!(svg) => Change::Drawing,
        _ => Change::Kept,
    }
}

/// Returns what becomes of an HTML element. The class says it of the most frequent ones.
#[inline(always)]
fn change_by_class(element: &Element) -> Change {
    match element.class {
        Class::Anchor => Change::Link,
        Class::Caption => Change::Table(Part::Caption),
        Class::Cell => Change::Table(Part::Cell),
        Class::Formatting if is_signed(&element.name) => Change::Signed,
        Class::Formatting => Change::Kept,
        Class::Item => Change::Item,
        Class::Paragraph => Change::Paragraph,
        Class::Row => Change::Table(Part::Row),
        Class::Rule => Change::Rule,
        Class::Section => Change::Table(Part::Section),
        Class::Table => Change::Table(Part::Table),
        _ => change_of(&element.name),
    }
}

/// Reports whether signs are written around elements of a name.
#[inline]
fn is_signed(name: &LocalName) -> bool {
    matches!(*name, local_name!("b") | local_name!("code") | local_name!("em") | local_name!("strong"))
}

/// Returns what becomes of an HTML element.
#[inline(never)]
pub(crate) fn change_of(name: &LocalName) -> Change {
    match *name {
        // the most frequent ones
        local_name!("a") => Change::Link,
        local_name!("br") => Change::Break,
        local_name!("div") => Change::Division,
        local_name!("li") => Change::Item,
        local_name!("p") => Change::Paragraph,
        local_name!("i") | local_name!("span") => Change::Kept,
        local_name!("img") => Change::Image,
        local_name!("canvas") | local_name!("datalist") | local_name!("noembed") | local_name!("noframes") | local_name!("title") => Change::Dropped,
        local_name!("address")
        | local_name!("article")
        | local_name!("aside")
        | local_name!("center")
        | local_name!("details")
        | local_name!("fieldset")
        | local_name!("figcaption")
        | local_name!("figure")
        | local_name!("footer")
        | local_name!("form")
        | local_name!("header")
        | local_name!("hgroup")
        | local_name!("legend")
        | local_name!("main")
        | local_name!("nav")
        | local_name!("optgroup")
        | local_name!("option")
        | local_name!("section")
        | local_name!("summary") => Change::Within(Inner::Division),
        local_name!("dialog") => Change::Dialog,
        local_name!("dir") | local_name!("menu") => Change::Within(Inner::List),
        local_name!("listing") | local_name!("plaintext") | local_name!("xmp") => Change::Within(Inner::Preformatted),
        local_name!("hr") => Change::Rule,
        local_name!("q") => Change::Quotation,
        local_name!("audio") | local_name!("embed") | local_name!("frame") | local_name!("iframe") | local_name!("video") => Change::Embedded,
        local_name!("object") => Change::Object,
        local_name!("ol") => Change::List(List::Ordered),
        local_name!("ul") => Change::List(List::Unordered),
        local_name!("dl") => Change::Descriptions,
        local_name!("blockquote") => Change::Prefixed(2),
        local_name!("dd") => Change::Description,
        local_name!("dt") => Change::Term,
        local_name!("h1") => Change::Heading(2),
        local_name!("h2") => Change::Heading(3),
        local_name!("h3") => Change::Heading(4),
        local_name!("h4") => Change::Heading(5),
        local_name!("h5") => Change::Heading(6),
        local_name!("h6") => Change::Heading(7),
        local_name!("table") => Change::Table(Part::Table),
        local_name!("caption") => Change::Table(Part::Caption),
        local_name!("tbody") | local_name!("tfoot") | local_name!("thead") => Change::Table(Part::Section),
        local_name!("tr") => Change::Table(Part::Row),
        local_name!("td") | local_name!("th") => Change::Table(Part::Cell),
        local_name!("body") | local_name!("caption") | local_name!("frameset") | local_name!("head") | local_name!("html") => Change::Block,
        local_name!("pre") => Change::Preformatted,
        local_name!("sup") => Change::Superscript,
        local_name!("button") => Change::Field(Field::Button),
        local_name!("input") => Change::Field(Field::Input),
        local_name!("select") => Change::Field(Field::Select),
        local_name!("textarea") => Change::Field(Field::Lines),
        _ if is_signed(name) => Change::Signed,
        // newer than html5ever's table of names
        _ if name.len() == 6 && **name == *"search" => Change::Within(Inner::Division),
        _ => Change::Kept,
    }
}

#[cfg(test)]
mod tests {
    use super::*;
    use crate::characters::Filter;
    use crate::tree::Tree;
    use html5ever::QualName;

    #[test]
    fn classes_say_what_names_say() {
        let names = "a abbr address b big br button caption code dd div dl dt em font h1 hr i img input li menu ol p pre q s search small span strike strong sup table tbody td tfoot th thead tr tt u ul";
        for name in names.split(' ').map(LocalName::from) {
            let mut tree = Tree::new(Filter::default());
            let node = tree.add_element(QualName::new(None, ns!(html), name.clone()), Vec::new(), |_| true);
            assert_eq!(tree.element(node).map(change_in), Some(change_of(&name)), "{name}");
        }
    }

    #[test]
    fn names() {
        assert_eq!(change_of(&LocalName::from("search")), Change::Within(Inner::Division));
        assert_eq!(change_of(&LocalName::from("span")), Change::Kept);
        assert_eq!(change_of(&local_name!("h6")), Change::Heading(7));
        for (name, run) in [("span", Run::Inline), ("b", Run::Inline), ("br", Run::Break), ("sup", Run::Apart), ("input", Run::Apart), ("li", Run::Item), ("p", Run::Parted), ("ul", Run::List), ("dd", Run::Item), ("div", Run::Block), ("menu", Run::List), ("xmp", Run::Parted), ("td", Run::Block), ("hr", Run::Block)] {
            assert_eq!(change_of(&LocalName::from(name)).run(), run, "{name}");
        }
    }
}
