//! Lines of tagged strings, under html2text's names.

use crate::columns;
use std::fmt;

/// A colour of red, green and blue parts. It is displayed as CSS writes it.
///
/// ```
/// use html_render::Colour;
///
/// assert_eq!(Colour { r: 170, g: 0, b: 7 }.to_string(), "#aa0007");
/// ```
#[derive(Clone, Copy, Debug, PartialEq, Eq, Hash)]
pub struct Colour {
    /// The red part.
    pub r: u8,
    /// The green part.
    pub g: u8,
    /// The blue part.
    pub b: u8,
}

impl fmt::Display for Colour {
    fn fmt(&self, f: &mut fmt::Formatter<'_>) -> fmt::Result {
        write!(f, "#{:02x}{:02x}{:02x}", self.r, self.g, self.b)
    }
}

/// What a character of rich text is.
#[derive(Clone, Debug, Default, PartialEq, Eq, Hash)]
#[non_exhaustive]
pub enum RichAnnotation {
    /// Nothing that has an annotation of its own.
    #[default]
    Default,
    /// A link to this target.
    Link(String),
    /// The title of an image of this source.
    Image(String),
    /// Emphasised text.
    Emphasis,
    /// Strong text.
    Strong,
    /// Text that is struck out.
    Strikeout,
    /// Code.
    Code,
    /// Text that keeps its white space; `true` on a continuation line.
    Preformat(bool),
    /// Text of this colour.
    Colour(Colour),
    /// Text on this background.
    BgColour(Colour),
}

/// A text under one tag.
#[derive(Clone, Debug, Default, PartialEq, Eq, Hash)]
pub struct TaggedString<T> {
    /// The text.
    pub s: String,
    /// The tag of each of its characters: its annotations, the outermost one first.
    pub tag: T,
}

impl<T> TaggedString<T> {
    /// Returns its number of columns.
    ///
    /// ```
    /// let lines = html_render::from_read_rich("a\u{4e16}".as_bytes(), 80).unwrap();
    /// assert_eq!(lines[0].tagged_strings().next().map(|string| string.width()), Some(3));
    /// ```
    pub fn width(&self) -> usize {
        columns::of_text(&self.s)
    }
}

/// A part of a line.
#[derive(Clone, Debug, PartialEq, Eq, Hash)]
pub enum TaggedLineElement<T> {
    /// A text under one tag.
    Str(TaggedString<T>),
    /// The place where a part of the document with this name begins. It takes no column.
    FragmentStart(String),
}

/// A line: texts under tags, and the names of what begins between them.
#[derive(Clone, Debug, Default, PartialEq, Eq, Hash)]
pub struct TaggedLine<T> {
    elements: Vec<TaggedLineElement<T>>,
}

impl<T> TaggedLine<T> {
    /// The line of what a function makes of its elements.
    pub(crate) fn map<U>(self, made: impl FnMut(TaggedLineElement<T>) -> TaggedLineElement<U>) -> TaggedLine<U> {
        TaggedLine { elements: self.elements.into_iter().map(made).collect() }
    }

    /// Removes the spaces at its end, in strings of which a function says so by their tags.
    pub(crate) fn trim_end(&mut self, is_trimmed: impl Fn(&T) -> bool) {
        for at in (0..self.elements.len()).rev() {
            if let TaggedLineElement::Str(string) = &mut self.elements[at] {
                if is_trimmed(&string.tag) {
                    string.s.truncate(string.s.trim_end_matches(' ').len());
                }
                if !string.s.is_empty() {
                    return;
                }
                self.elements.remove(at);
            }
        }
    }

    /// Returns its strings as one text.
    pub(crate) fn text(&self) -> String {
        self.tagged_strings().map(|string| string.s.as_str()).collect()
    }

    /// Removes each place of a text in its strings, with a suffix where that follows.
    pub(crate) fn remove(&mut self, text: &str, suffix: &str) {
        self.elements.retain_mut(|element| match element {
            TaggedLineElement::Str(string) if string.s.contains(text) => {
                string.s = string.s.replace(&[text, suffix].concat(), "").replace(text, "");
                !string.s.is_empty()
            }
            _ => true,
        });
    }

    /// Removes so many characters at its start.
    pub(crate) fn remove_start(&mut self, characters: usize) {
        let mut rest = characters;
        self.elements.retain_mut(|element| match element {
            TaggedLineElement::Str(string) if rest > 0 => {
                let end = string.s.char_indices().nth(rest).map_or(string.s.len(), |(at, _)| at);
                rest -= string.s[..end].chars().count();
                string.s.drain(..end);
                !string.s.is_empty()
            }
            _ => true,
        });
    }

    /// Removes its strings, and keeps the places where parts of the document begin.
    pub(crate) fn clear(&mut self) {
        self.elements.retain(|element| matches!(element, TaggedLineElement::FragmentStart(_)));
    }

    /// Appends the elements of another line.
    pub(crate) fn append(&mut self, mut other: TaggedLine<T>) {
        if self.elements.is_empty() {
            *self = other;
        } else {
            self.elements.append(&mut other.elements);
        }
    }

    /// Its elements, in order.
    pub fn iter(&self) -> impl Iterator<Item = &TaggedLineElement<T>> + '_ {
        self.elements.iter()
    }

    /// Reports whether it has neither strings nor places where parts of the document begin.
    ///
    /// ```
    /// let lines = html_render::from_read_rich("<p>a<p>b".as_bytes(), 80).unwrap();
    /// assert_eq!(lines.iter().map(|line| line.is_empty()).collect::<Vec<_>>(), [false, true, false]);
    /// ```
    pub fn is_empty(&self) -> bool {
        self.elements.is_empty()
    }

    /// Returns its number of columns.
    ///
    /// ```
    /// let lines = html_render::from_read_rich("<p id=top>a <em>\u{4e16}</em>".as_bytes(), 80).unwrap();
    /// assert_eq!(lines[0].width(), 4);
    /// ```
    pub fn width(&self) -> usize {
        self.tagged_strings().map(TaggedString::width).sum()
    }

    /// Returns its strings, in order, without the places where parts of the document begin.
    ///
    /// ```
    /// let lines = html_render::from_read_rich("<p id=top>a <em>b</em>".as_bytes(), 80).unwrap();
    /// let texts: Vec<String> = lines.into_iter().flat_map(|line| line.into_tagged_strings()).map(|string| string.s).collect();
    /// assert_eq!(texts, ["a ", "b"]);
    /// ```
    pub fn into_tagged_strings(self) -> impl Iterator<Item = TaggedString<T>> {
        self.elements.into_iter().filter_map(|element| match element {
            TaggedLineElement::Str(string) => Some(string),
            TaggedLineElement::FragmentStart(_) => None,
        })
    }

    /// Its strings, in order.
    pub fn tagged_strings(&self) -> impl Iterator<Item = &TaggedString<T>> + '_ {
        self.elements.iter().filter_map(|element| match element {
            TaggedLineElement::Str(string) => Some(string),
            TaggedLineElement::FragmentStart(_) => None,
        })
    }
}

impl<T> IntoIterator for TaggedLine<T> {
    type Item = TaggedLineElement<T>;
    type IntoIter = std::vec::IntoIter<TaggedLineElement<T>>;

    /// Returns its elements, in order.
    fn into_iter(self) -> Self::IntoIter {
        self.elements.into_iter()
    }
}

impl<'a, T> IntoIterator for &'a TaggedLine<T> {
    type Item = &'a TaggedLineElement<T>;
    type IntoIter = std::slice::Iter<'a, TaggedLineElement<T>>;

    /// Returns its elements, in order.
    fn into_iter(self) -> Self::IntoIter {
        self.elements.iter()
    }
}

impl<A> TaggedLine<Vec<A>> {
    /// Returns a line of a text without annotations.
    pub(crate) fn of_text(text: String) -> TaggedLine<Vec<A>> {
        let string = TaggedLineElement::Str(TaggedString { s: text, tag: Vec::new() });
        TaggedLine { elements: vec![string] }
    }
}

/// What is left of the records that the library gave.
struct Records<'a> {
    rest: &'a [u8],
}

impl<'a> Records<'a> {
    fn take(&mut self, length: usize) -> Option<&'a [u8]> {
        if self.rest.len() < length {
            return None;
        }
        let (taken, rest) = self.rest.split_at(length);
        self.rest = rest;
        Some(taken)
    }

    fn letter(&mut self) -> Option<u8> {
        self.take(1).map(|taken| taken[0])
    }

    fn number(&mut self) -> Option<usize> {
        let taken = self.take(4)?;
        Some(u32::from_le_bytes([taken[0], taken[1], taken[2], taken[3]]) as usize)
    }

    fn text(&mut self) -> Option<String> {
        let length = self.number()?;
        let taken = self.take(length)?;
        Some(std::str::from_utf8(taken).ok()?.to_owned())
    }

    fn colour(&mut self) -> Option<Colour> {
        let taken = self.take(3)?;
        Some(Colour { r: taken[0], g: taken[1], b: taken[2] })
    }

    fn annotation(&mut self) -> Option<RichAnnotation> {
        Some(match self.letter()? {
            b'l' => RichAnnotation::Link(self.text()?),
            b'i' => RichAnnotation::Image(self.text()?),
            b'e' => RichAnnotation::Emphasis,
            b'b' => RichAnnotation::Strong,
            b's' => RichAnnotation::Strikeout,
            b'c' => RichAnnotation::Code,
            b'p' => RichAnnotation::Preformat(false),
            b'q' => RichAnnotation::Preformat(true),
            b'f' => RichAnnotation::Colour(self.colour()?),
            b'g' => RichAnnotation::BgColour(self.colour()?),
            _ => RichAnnotation::Default,
        })
    }

    fn string(&mut self) -> Option<TaggedString<Vec<RichAnnotation>>> {
        let count = self.number()?;
        let tag = (0..count).map(|_| self.annotation()).collect::<Option<Vec<_>>>()?;
        Some(TaggedString { s: self.text()?, tag })
    }
}

/// The lines that records are, or none where they are no such records.
pub(crate) fn read(records: &[u8]) -> Option<Vec<TaggedLine<Vec<RichAnnotation>>>> {
    let mut records = Records { rest: records };
    let mut lines: Vec<TaggedLine<Vec<RichAnnotation>>> = Vec::new();
    while !records.rest.is_empty() {
        let element = match records.letter()? {
            b'L' => {
                lines.push(TaggedLine { elements: Vec::new() });
                continue;
            }
            b'S' => TaggedLineElement::Str(records.string()?),
            b'F' => TaggedLineElement::FragmentStart(records.text()?),
            _ => return None,
        };
        lines.last_mut()?.elements.push(element);
    }
    Some(lines)
}
