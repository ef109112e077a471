//! Plain ways to write character references, attributes and the ends of tags, which are read without html5ever's tokenizer.
//!
//! What is read here means the same to that tokenizer, and ends at the same place. `None` stands for all that is written in other ways.

use html5ever::{namespace_url, ns, Attribute, QualName};
use markup5ever::data::{C1_REPLACEMENTS, NAMED_ENTITIES};
use memchr::{memchr, memchr2};
use std::ops::Range;
use tendril::StrTendril;

/// Maximum number of bytes of a reference between its `&` and its semicolon.
const LONGEST_NAME: usize = 31;

/// A character reference.
#[derive(Clone, Copy, Debug, PartialEq, Eq)]
pub(crate) struct Reference {
    pub character: char,
    /// The character after it, which few names have.
    pub second: Option<char>,
    /// Number of bytes of the reference.
    pub length: usize,
}

/// Returns the reference that a text begins with, if it ends with a semicolon. html5ever drops a carriage return after some.
#[inline]
pub(crate) fn reference(text: &str) -> Option<Reference> {
    let bytes = text.as_bytes();
    let semicolon = 1 + bytes[1..].iter().take(LONGEST_NAME + 1).position(|&byte| byte == b';')?;
    let (character, second) = match &bytes[1..semicolon] {
        [b'#', number @ ..] => (numbered(number)?, None),
        _ => named(&text[1..=semicolon])?,
    };
    let length = semicolon + 1;
    (bytes.get(length) != Some(&b'\r')).then(|| Reference { character, second, length })
}

/// Returns the ampersand that a text begins with, if neither a number nor a name follows. html5ever drops a carriage return after it.
#[inline]
pub(crate) fn ampersand(text: &[u8]) -> Option<Reference> {
    let begins_reference = matches!(text.get(1), Some(&next) if next.is_ascii_alphanumeric() || next == b'#' || next == b'\r');
    (!begins_reference).then(|| Reference { character: '&', second: None, length: 1 })
}

/// Returns the characters of a name with its semicolon.
fn named(name: &str) -> Option<(char, Option<char>)> {
    let &(first, second) = NAMED_ENTITIES.get(name)?;
    Some((char::from_u32(first)?, char::from_u32(second).filter(|&second| second != '\0')))
}

/// Returns the character of a number, which is hexadecimal after an `x`. HTML has other characters for some numbers.
fn numbered(number: &[u8]) -> Option<char> {
    let (radix, digits) = match number {
        [b'x' | b'X', digits @ ..] => (16, digits),
        _ => (10, number),
    };
    let more = |number: u32, &digit: &u8| Some(number.saturating_mul(radix).saturating_add(char::from(digit).to_digit(radix)?));
    let number = digits.iter().try_fold(0, more).filter(|_| !digits.is_empty())?;
    let replacement = number.checked_sub(0x80).and_then(|place| *C1_REPLACEMENTS.get(place as usize)?);
    let character = replacement.or_else(|| char::from_u32(number)).filter(|&character| character != '\0');
    Some(character.unwrap_or(char::REPLACEMENT_CHARACTER))
}

/// Returns the ampersand that a part of a value begins with, if no name without a semicolon follows: one before a `=` is none.
fn ampersand_in_value(text: &str) -> Option<Reference> {
    let name = &text[1..];
    let name = &name[..name.bytes().take_while(u8::is_ascii_alphanumeric).count()];
    let is_name = || NAMED_ENTITIES.get(name).map_or(false, |&(first, _)| first != 0);
    let is_itself = !text.starts_with("&#") && (text[1 + name.len()..].starts_with('=') || !is_name());
    is_itself.then(|| Reference { character: '&', second: None, length: 1 })
}

/// What follows in a tag.
#[derive(Clone, Copy, Debug, PartialEq, Eq)]
pub(crate) enum Next {
    /// The attribute that begins at an offset.
    Attribute(usize),
    /// The tag's end, `>` or `/>`, which is before an offset.
    End { end: usize, self_closing: bool },
}

fn is_space(byte: u8) -> bool {
    matches!(byte, b' ' | b'\n' | b'\t' | b'\x0c' | b'\r')
}

/// Returns what follows in a tag at an offset, where a name or a value ends.
#[inline]
pub(crate) fn next_in_tag(text: &[u8], from: usize) -> Option<Next> {
    let mut at = from;
    // the usual end
    while *text.get(at)? != b'>' {
        match text[at] {
            byte if is_space(byte) => at += 1,
            b'/' if text.get(at + 1) == Some(&b'>') => return Some(Next::End { end: at + 2, self_closing: true }),
            _ => return (at > from).then(|| Next::Attribute(at)),
        }
    }
    Some(Next::End { end: at + 1, self_closing: false })
}

/// An attribute's value as it is written.
#[derive(Clone, Debug, PartialEq, Eq)]
pub(crate) struct Value {
    pub range: Range<usize>,
    /// Whether it may have references.
    pub may_refer: bool,
    /// Offset after it and its quote.
    pub end: usize,
}

/// Returns the value of the attribute whose name ends at an offset. Without quotes it ends with a space or the tag; a name without a value
/// has an empty one.
#[inline(always)]
pub(crate) fn value(text: &[u8], name_end: usize) -> Option<Value> {
    if *text.get(name_end)? != b'=' {
        return Some(Value { range: name_end..name_end, may_refer: false, end: name_end });
    }
    let start = name_end + 1;
    match *text.get(start)? {
        quote @ (b'"' | b'\'') => {
            let found = start + 1 + memchr2(quote, b'&', &text[start + 1..])?;
            let may_refer = text[found] == b'&';
            let end = if may_refer { found + memchr(quote, &text[found..])? } else { found };
            Some(Value { range: start + 1..end, may_refer, end: end + 1 })
        }
        _ => {
            let end = start + text[start..].iter().position(|&byte| is_space(byte) || byte == b'>')?;
            (end > start && text[end] != b'\r').then(|| Value { range: start..end, may_refer: true, end })
        }
    }
}

/// Returns a value with the characters of its references, where all of these are read here. It is written without carriage returns.
pub(crate) fn referred(written: &str) -> Option<StrTendril> {
    let mut rest = written;
    let mut value = String::new();
    while let Some(start) = memchr(b'&', rest.as_bytes()) {
        let Reference { character, second, length } = reference(&rest[start..]).or_else(|| ampersand_in_value(&rest[start..]))?;
        value.push_str(&rest[..start]);
        value.push(character);
        value.extend(second);
        rest = &rest[start + length..];
    }
    if value.is_empty() {
        return Some(rest.into());
    }
    value.push_str(rest);
    Some(value.into())
}

/// The bytes of plainly written names.
pub(crate) mod part {
    /// Letters and digits, of names of tags.
    pub const OF_TAG: u8 = 1;
    /// Letters and hyphens, of names of attributes.
    pub const OF_ATTRIBUTE: u8 = 2;

    /// The kinds of each byte.
    static KINDS: [u8; 256] = {
        let mut kinds = [0; 256];
        let mut byte = 0;
        while byte < 128 {
            kinds[byte as usize] = match byte {
                b'a'..=b'z' | b'A'..=b'Z' => OF_TAG | OF_ATTRIBUTE,
                b'0'..=b'9' => OF_TAG,
                b'-' => OF_ATTRIBUTE,
                _ => 0,
            };
            byte += 1;
        }
        kinds
    };

    /// Reports whether a byte is of a kind.
    #[inline(always)]
    pub fn is(kind: u8, byte: u8) -> bool {
        KINDS[byte as usize] & kind != 0
    }
}

/// Returns the attributes of a plainly written tag, which a text begins with.
pub(crate) fn attributes(text: &str) -> Vec<Attribute> {
    let end_of = |start: usize, kind| start + text.as_bytes()[start..].iter().take_while(|&&byte| part::is(kind, byte)).count();
    let mut end = end_of(1, part::OF_TAG);
    let mut attributes = Vec::new();
    while let Some(Next::Attribute(start)) = next_in_tag(text.as_bytes(), end) {
        let name_end = end_of(start, part::OF_ATTRIBUTE);
        let name = QualName::new(None, ns!(), text[start..name_end].to_ascii_lowercase().into());
        let written = value(text.as_bytes(), name_end);
        let value = match written.as_ref().and_then(|written| referred(&text[written.range.clone()])) {
            Some(value) => value,
            None => break,
        };
        attributes.push(Attribute { name, value });
        end = written.map_or(name_end, |written| written.end);
    }
    attributes
}

#[cfg(test)]
mod tests {
    use super::*;

    #[test]
    fn references() {
        let read = |text: &str| reference(text).map(|reference| (reference.character, reference.second, reference.length));
        for (text, character) in [
            ("&amp;b", '&'),
            ("&AMP;", '&'),
            ("&mdash;", '\u{2014}'),
            ("&Tab;", '\t'),
            ("&CounterClockwiseContourIntegral;", '\u{2233}'),
            ("&#233;", '\u{e9}'),
            ("&#xe9;", '\u{e9}'),
            ("&#XE9;", '\u{e9}'),
            ("&#0000000233;", '\u{e9}'),
            ("&#0;", '\u{fffd}'),
            ("&#13;", '\r'),
            ("&#x80;", '\u{20ac}'),
            ("&#129;", '\u{81}'),
            ("&#159;", '\u{178}'),
            ("&#xd800;", '\u{fffd}'),
            ("&#xffff;", '\u{ffff}'),
            ("&#x10ffff;", '\u{10ffff}'),
            ("&#x110000;", '\u{fffd}'),
            ("&#99999999999999999999;", '\u{fffd}'),
        ] {
            let length = text.find(';').unwrap() + 1;
            assert_eq!(read(text), Some((character, None, length)), "{text}");
        }
        assert_eq!(read("&nGt;x"), Some(('\u{226b}', Some('\u{20d2}'), 5)));
        let long = format!("&#{}65;", "0".repeat(LONGEST_NAME));
        for text in ["&", "&;", "&amp", "&am;", "&notit;", "&#;", "&#x;", "&#a;", "&#-1;", "&amp;\r", "& lt;", "&eacute ;", &long] {
            assert_eq!(read(text), None, "{text}");
        }
    }

    #[test]
    fn ampersands() {
        for text in ["&", "& ", "&&", "&<", "&=", "&;", "&\u{e9}"] {
            assert!(ampersand(text.as_bytes()).is_some(), "{text}");
        }
        for text in ["&a", "&1", "&#", "&\r"] {
            assert!(ampersand(text.as_bytes()).is_none(), "{text}");
        }
    }

    #[test]
    fn values_with_references() {
        for (written, meant) in [
            ("", ""),
            ("a", "a"),
            ("&lt;", "<"),
            ("?a=1&amp;b=&eacute;&#33;", "?a=1&b=\u{e9}!"),
            ("?a=1&b=2&copy=3", "?a=1&b=2&copy=3"),
            ("a & b&", "a & b&"),
            ("a&bc&notx", "a&bc&notx"),
            ("&notit;", "&notit;"),
        ] {
            assert_eq!(referred(written).as_deref(), Some(meant), "{written}");
        }
        for written in ["&amp", "&copy&lt;", "&#33", "&#x", "&lt;&not!"] {
            assert_eq!(referred(written), None, "{written}");
        }
    }

    #[test]
    fn attributes_of_tags() {
        let read = |tag: &str| attributes(tag).iter().map(|attribute| format!("{}={}", attribute.name.local, attribute.value)).collect::<Vec<_>>();
        assert_eq!(read("<p>"), [""; 0]);
        assert_eq!(read("<h1 id=\"a b\" title='&lt;\"'\n\tData-X=c/d CHECKED/>e"), ["id=a b", "title=<\"", "data-x=c/d", "checked="]);
    }

    #[test]
    fn ends_of_tags() {
        let end = |text: &str| next_in_tag(text.as_bytes(), 1);
        assert_eq!(end("p>"), Some(Next::End { end: 2, self_closing: false }));
        assert_eq!(end("p \r\n>"), Some(Next::End { end: 5, self_closing: false }));
        assert_eq!(end("p />"), Some(Next::End { end: 4, self_closing: true }));
        assert_eq!(end("p a"), Some(Next::Attribute(2)));
        for text in ["p", "p ", "p/", "p/a", "p\"a"] {
            assert_eq!(end(text), None, "{text}");
        }
    }

    #[test]
    fn values_of_attributes() {
        let read = |text: &str| value(text.as_bytes(), 1).map(|value| (text[value.range].to_owned(), value.may_refer, value.end));
        for (text, read_value, may_refer, end) in [
            ("a=\"b>'&\">", "b>'&", true, 8),
            ("a='b\"'c", "b\"", false, 6),
            ("a=\"\">", "", false, 4),
            ("a=b/>", "b/", true, 4),
            ("a=b=\"c", "b=\"c", true, 6),
            ("a>", "", false, 1),
            ("a =b", "", false, 1),
        ] {
            let text = if end == text.len() { format!("{text} ") } else { text.to_owned() };
            assert_eq!(read(&text), Some((read_value.to_owned(), may_refer, end)), "{text}");
        }
        for text in ["a", "a=", "a=>", "a= b", "a=\"b", "a=b", "a=b\r"] {
            assert_eq!(read(text), None, "{text}");
        }
    }
}
