//! Classes of HTML elements, by which the rules of HTML's tree construction differ.

use html5ever::{local_name, LocalName};

/// What opens and closes elements of a name, in HTML's rules "in body" and in those of tables.
#[derive(Clone, Copy, Debug, PartialEq, Eq)]
pub(crate) enum Class {
    /// Any element without rules of its own, as `span`.
    Phrase,
    /// An element that the next text reopens where it wasn't closed, as `b`.
    Formatting,
    /// `a`: as `Formatting`, and no other is in it.
    Anchor,
    /// An element without contents, as `br`.
    Void,
    /// `hr`.
    Rule,
    /// `div` and `address`: as `Block`, and items look past them for the one that they close.
    Division,
    /// A block that closes a `p`, as `ul`.
    Block,
    /// `p`.
    Paragraph,
    /// `h1` to `h6`.
    Heading,
    /// `li`.
    Item,
    /// `dt` and `dd`.
    Term,
    /// `table`.
    Table,
    /// `tbody`, `thead` and `tfoot`.
    Section,
    /// `tr`.
    Row,
    /// `td` and `th`.
    Cell,
    /// `caption`.
    Caption,
    /// `button`.
    Button,
    /// An element in which other elements are opened anew, as `object`.
    Boundary,
    /// An element that only html5ever opens and closes, as `form`, and which is special in HTML's sense.
    Special,
    /// One that isn't special, as `option`.
    Ordinary,
    /// An element in which other rules apply, as `select`.
    Other,
}

impl Class {
    /// Reports whether texts and elements that aren't parts of tables are moved out of such an element.
    #[inline]
    pub fn is_table_part(self) -> bool {
        matches!(self, Class::Table | Class::Section | Class::Row)
    }
}

/// Returns the class of HTML elements of a name.
pub(crate) fn class_of(name: &LocalName) -> Class {
    match *name {
        local_name!("b")
        | local_name!("big")
        | local_name!("code")
        | local_name!("em")
        | local_name!("font")
        | local_name!("i")
        | local_name!("s")
        | local_name!("small")
        | local_name!("strike")
        | local_name!("strong")
        | local_name!("tt")
        | local_name!("u") => Class::Formatting,
        local_name!("a") => Class::Anchor,
        local_name!("area") | local_name!("br") | local_name!("embed") | local_name!("img") | local_name!("wbr") => Class::Void,
        local_name!("hr") => Class::Rule,
        local_name!("address") | local_name!("div") => Class::Division,
        local_name!("article")
        | local_name!("aside")
        | local_name!("blockquote")
        | local_name!("center")
        | local_name!("details")
        | local_name!("dir")
        | local_name!("dl")
        | local_name!("fieldset")
        | local_name!("figcaption")
        | local_name!("figure")
        | local_name!("footer")
        | local_name!("header")
        | local_name!("hgroup")
        | local_name!("main")
        | local_name!("menu")
        | local_name!("nav")
        | local_name!("ol")
        | local_name!("section")
        | local_name!("summary")
        | local_name!("ul") => Class::Block,
        local_name!("p") => Class::Paragraph,
        local_name!("h1") | local_name!("h2") | local_name!("h3") | local_name!("h4") | local_name!("h5") | local_name!("h6") => Class::Heading,
        local_name!("li") => Class::Item,
        local_name!("dd") | local_name!("dt") => Class::Term,
        local_name!("table") => Class::Table,
        local_name!("tbody") | local_name!("tfoot") | local_name!("thead") => Class::Section,
        local_name!("tr") => Class::Row,
        local_name!("td") | local_name!("th") => Class::Cell,
        local_name!("caption") => Class::Caption,
        local_name!("button") => Class::Button,
        local_name!("applet") | local_name!("marquee") | local_name!("object") => Class::Boundary,
        local_name!("base")
        | local_name!("basefont")
        | local_name!("bgsound")
        | local_name!("body")
        | local_name!("col")
        | local_name!("form")
        | local_name!("frame")
        | local_name!("html")
        | local_name!("iframe")
        | local_name!("input")
        | local_name!("isindex")
        | local_name!("link")
        | local_name!("listing")
        | local_name!("meta")
        | local_name!("noembed")
        | local_name!("noframes")
        | local_name!("noscript")
        | local_name!("param")
        | local_name!("plaintext")
        | local_name!("pre")
        | local_name!("script")
        | local_name!("source")
        | local_name!("style")
        | local_name!("textarea")
        | local_name!("title")
        | local_name!("track")
        | local_name!("xmp") => Class::Special,
        local_name!("dialog")
        | local_name!("image")
        | local_name!("keygen")
        | local_name!("math")
        | local_name!("optgroup")
        | local_name!("option")
        | local_name!("rb")
        | local_name!("rp")
        | local_name!("rt")
        | local_name!("rtc")
        | local_name!("svg") => Class::Ordinary,
        local_name!("colgroup") | local_name!("frameset") | local_name!("head") | local_name!("nobr") | local_name!("select") | local_name!("template") => Class::Other,
        _ => Class::Phrase,
    }
}

/// What HTML's rules look up among the open elements, for the innermost one: bits of a number, and above them the number of formatting
/// elements that a text would reopen.
#[derive(Clone, Copy, Debug, Default, PartialEq, Eq)]
pub(crate) struct Scope(u32);

impl Scope {
    /// A `p` is "in button scope".
    const PARAGRAPH: u32 = 1;
    /// An `li` closes another one.
    const ITEM: u32 = 2;
    /// A `dt` or a `dd` closes another one.
    const TERM: u32 = 4;
    /// An `a` closes another one.
    const ANCHOR: u32 = 8;
    /// A formatting element.
    const FORMATTING: u32 = 16;

    pub fn has_paragraph(self) -> bool {
        self.0 & Scope::PARAGRAPH != 0
    }

    pub fn has_item(self) -> bool {
        self.0 & Scope::ITEM != 0
    }

    pub fn has_term(self) -> bool {
        self.0 & Scope::TERM != 0
    }

    pub fn has_anchor(self) -> bool {
        self.0 & Scope::ANCHOR != 0
    }

    /// Returns the number of formatting elements that a text would reopen.
    pub fn formatting(self) -> u32 {
        self.0 / Scope::FORMATTING
    }

    /// Returns the scope in an element of a class that is in an element of this one.
    #[inline]
    pub fn inside(self, class: Class) -> Scope {
        let special = self.0 & !(Scope::ITEM | Scope::TERM);
        Scope(match class {
            Class::Phrase | Class::Void | Class::Ordinary | Class::Other | Class::Division => self.0,
            Class::Formatting => self.0 + Scope::FORMATTING,
            Class::Anchor => (self.0 | Scope::ANCHOR) + Scope::FORMATTING,
            Class::Paragraph => self.0 | Scope::PARAGRAPH,
            Class::Item => special | Scope::ITEM,
            Class::Term => special | Scope::TERM,
            Class::Rule | Class::Block | Class::Heading | Class::Section | Class::Row | Class::Special => special,
            Class::Table | Class::Button => special & !Scope::PARAGRAPH,
            Class::Cell | Class::Caption | Class::Boundary => 0,
        })
    }
}
