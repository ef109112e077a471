//! The stored list of pages that differ from html2text in a known way.
//!
//! A line has a page's name, the checksum of the page, the kinds of its differences, and the checksum of our text, with tabs between
//! them. Lines are in the order of names.

use std::collections::BTreeMap;
use std::fmt::Write;

/// A page of the list.
#[derive(Clone, Debug, PartialEq, Eq)]
pub struct Entry {
    /// Checksum of the page.
    pub page: u64,
    /// Names of the kinds of its differences.
    pub kinds: String,
    /// Checksum of our text.
    pub text: u64,
}

/// Pages by their names.
pub type List = BTreeMap<String, Entry>;

/// Returns the FNV-1a hash of bytes.
pub fn checksum(bytes: &[u8]) -> u64 {
    bytes.iter().fold(0xcbf2_9ce4_8422_2325, |hash, &byte| (hash ^ u64::from(byte)).wrapping_mul(0x0100_0000_01b3))
}

/// Reads a list; `None` if a line is in another form.
pub fn read(text: &str) -> Option<List> {
    text.lines().map(read_line).collect()
}

fn read_line(line: &str) -> Option<(String, Entry)> {
    let mut fields = line.split('\t');
    let mut next = || fields.next();
    let (name, page, kinds, text) = (next()?, next()?, next()?, next()?);
    let number = |field| u64::from_str_radix(field, 16).ok();
    Some((name.to_owned(), Entry { page: number(page)?, kinds: kinds.to_owned(), text: number(text)? }))
}

/// Returns the lines of a list.
pub fn written(list: &List) -> String {
    list.iter().fold(String::new(), |mut text, (name, entry)| {
        let _ = writeln!(text, "{name}\t{:016x}\t{}\t{:016x}", entry.page, entry.kinds, entry.text);
        text
    })
}

#[cfg(test)]
mod tests {
    use super::*;

    #[test]
    fn lists_are_read_as_written() {
        let entry = Entry { page: checksum(b"a"), kinds: "spaces, line breaks".to_owned(), text: 1 };
        let list = List::from([("b/1".to_owned(), entry.clone()), ("a".to_owned(), entry)]);
        assert_eq!(read(&written(&list)), Some(list));
        assert_eq!(read("a\tb"), None);
        assert_eq!(checksum(b"a"), 0xaf63_dc4c_8601_ec8c);
    }
}
