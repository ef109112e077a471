//! Which characters of a page aren't recorded.
//!
//! Control characters can make a terminal write to the clipboard, change its title or hide text; overrides of direction can show a
//! text other than it is. Tab and newline stay, and so do the marks U+200E, U+200F and U+061C, which only say how text runs.

use memchr::memchr_iter;
use std::borrow::Cow;

/// What is dropped of texts and attributes.
#[derive(Clone, Copy, Debug, Default, PartialEq, Eq)]
pub(crate) struct Filter {
    /// Whether control characters are kept.
    pub keeps_controls: bool,
    /// Whether soft hyphens (U+00AD) are dropped.
    pub drops_soft_hyphens: bool,
    /// Whether the characters of `mark` are dropped, which an adapted document has for itself.
    pub drops_marks: bool,
}

/// Characters without a column that say what becomes of rendered lines. Unicode has deprecated them, and an adapted page has none.
pub(crate) mod mark {
    /// In a row of a table that lines part from its neighbours: U+206A in UTF-8.
    pub const APART: &str = "\u{206a}";
    /// At the start of a line that is shown uncut.
    pub const LONG: &str = "\u{206b}";
    /// At the end of such a line.
    pub const LONG_END: &str = "\u{206c}";
    /// The stroke that the library writes after each visible character that is struck out, and after each mark.
    pub const STROKE: &str = "\u{336}";
}

/// Reports whether a character is deprecated by Unicode: an adapted document has some as marks of its own.
fn is_mark(c: char) -> bool {
    matches!(c, '\u{206a}'..='\u{206f}')
}

/// Reports whether a character can control a terminal, or the direction of text beyond its own.
pub(crate) fn is_control(c: char) -> bool {
    match c {
        '\t' | '\n' => false,
        '\0'..='\x1f' | '\x7f'..='\u{9f}' => true,
        '\u{202a}'..='\u{202e}' | '\u{2066}'..='\u{2069}' => true,
        _ => false,
    }
}

/// Returns a number other than 0 if a byte can begin a character that a filter drops. It has no branches, so that many bytes are looked at
/// at once. A dropped character of several bytes begins with 0xc2 or 0xe2.
fn suspicion(byte: u8) -> u8 {
    (u8::from(byte < 0x20) & u8::from(byte != b'\n') & u8::from(byte != b'\t')) | u8::from(byte == 0x7f) | u8::from((byte | 0x20) == 0xe2)
}

/// Reports whether a text has a byte with which a dropped character can begin.
fn is_suspect(text: &str) -> bool {
    const BLOCK: usize = 256;
    let found = |bytes: &[u8]| bytes.iter().fold(0, |found, &byte| found | suspicion(byte)) != 0;
    let mut blocks = text.as_bytes().chunks_exact(BLOCK);
    blocks.any(found) || found(blocks.remainder())
}

impl Filter {
    /// Returns the filter for the texts of a page: one that drops nothing, if no character of the page can be dropped, nor any that it
    /// refers to.
    pub fn for_page(self, page: &str) -> Filter {
        let refers = |at: usize| page[at + 1..].starts_with('#') || page[at + 1..].starts_with("shy");
        if is_suspect(page) || memchr_iter(b'&', page.as_bytes()).any(refers) {
            self
        } else {
            Filter { keeps_controls: true, ..Filter::default() }
        }
    }

    fn drops(self, c: char) -> bool {
        (is_control(c) && !self.keeps_controls) || (c == '\u{ad}' && self.drops_soft_hyphens) || (is_mark(c) && self.drops_marks)
    }

    #[inline]
    fn drops_something_of(self, text: &str) -> bool {
        (!self.keeps_controls || self.drops_soft_hyphens || self.drops_marks) && is_suspect(text)
    }

    /// Appends a text, without what is dropped.
    #[inline]
    pub fn append(self, text: &str, to: &mut Vec<u8>) {
        if self.drops_something_of(text) {
            self.append_rest(text, to);
        } else {
            to.extend_from_slice(text.as_bytes());
        }
    }

    fn append_rest(self, text: &str, to: &mut Vec<u8>) {
        let mut rest = text;
        while let Some(at) = rest.find(|c| self.drops(c)) {
            to.extend_from_slice(&rest.as_bytes()[..at]);
            rest = rest[at..].trim_start_matches(|c| self.drops(c));
        }
        to.extend_from_slice(rest.as_bytes());
    }

    /// Returns a text without what is dropped.
    pub fn filtered(self, text: &str) -> Cow<'_, str> {
        if self.drops_something_of(text) {
            text.chars().filter(|&c| !self.drops(c)).collect()
        } else {
            text.into()
        }
    }
}

#[cfg(test)]
mod tests {
    use super::*;

    #[test]
    fn controls_are_dropped() {
        let page = "a\u{0}b\u{1b}]52;c;\u{7}\tc\nd\u{7f}\u{85}\u{9f}\u{a0}\u{ad}e\u{200e}\u{200f}\u{202a}\u{202e}\u{2066}\u{2069}\u{61c}f\u{202f}";
        let kept = "ab]52;c;\tc\nd\u{a0}\u{ad}e\u{200e}\u{200f}\u{61c}f\u{202f}";
        let mut appended = Vec::new();
        Filter::default().append(page, &mut appended);
        assert_eq!(appended, kept.as_bytes());
        assert_eq!(Filter::default().filtered(page), kept);
        assert_eq!(Filter { keeps_controls: true, ..Filter::default() }.filtered(page), page);
        assert_eq!(Filter { drops_soft_hyphens: true, ..Filter::default() }.filtered("so\u{ad}ft"), "soft");
        assert_eq!(Filter { keeps_controls: true, drops_marks: true, ..Filter::default() }.filtered("a\u{206a}\u{206f}\u{2069}b"), "a\u{2069}b");
    }

    #[test]
    fn pages_that_need_no_filter() {
        let is_filtered = |page: &str| Filter::default().for_page(page) == Filter::default();
        for page in ["", "a&amp;b\n\t&c;&", "\u{e9}\u{754c}"] {
            assert!(!is_filtered(page), "{page}");
        }
        for page in ["a\u{1b}", "a&#27;", "&&#x1b", "a&shy;b", "a\u{202e}"] {
            assert!(is_filtered(page), "{page}");
        }
    }

    #[test]
    fn each_dropped_character_is_suspect() {
        let all = Filter { keeps_controls: false, drops_soft_hyphens: true, drops_marks: true };
        for c in ('\0'..=char::MAX).filter(|&c| all.drops(c)) {
            assert!(is_suspect(&c.to_string()) && is_suspect(&format!("{c:a>300}")), "{c:?}");
        }
    }
}
