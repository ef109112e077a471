//! Spaces at the ends of lines, with which the library fills the cells of tables.

use crate::error::Error;
use memchr::{memchr, memmem};

/// Returns a text in memory that may be refused, with the spaces at the ends of its lines or without them.
pub(crate) fn kept(text: &str, is_padded: bool) -> Result<String, Error> {
    let mut kept = String::new();
    kept.try_reserve_exact(text.len()).map_err(|_| Error::OutOfMemory)?;
    push(text, is_padded, &ends(), &mut kept);
    Ok(kept)
}

/// Returns what finds the last space before the end of a line.
pub(crate) fn ends() -> memmem::Finder<'static> {
    memmem::Finder::new(b" \n")
}

/// Returns the number of spaces at the end of a line.
#[inline]
pub(crate) fn count(line: &[u8]) -> usize {
    line.iter().rev().take_while(|&&byte| byte == b' ').count()
}

/// Returns the end of the first line from a place on that has spaces at its end. In a table that is most often the next line, so
/// this one is looked at before all others are searched.
fn next_padded(bytes: &[u8], from: usize, ends: &memmem::Finder<'_>) -> Option<usize> {
    let end = from + memchr(b'\n', &bytes[from..])?;
    if bytes[from..end].last() == Some(&b' ') {
        return Some(end);
    }
    ends.find(&bytes[end..]).map(|space| end + space + 1)
}

/// Appends the lines of a text, with the spaces at their ends or without them. Lines without any are appended together.
pub(crate) fn push(text: &str, is_padded: bool, ends: &memmem::Finder<'_>, to: &mut String) {
    let bytes = text.as_bytes();
    let (mut start, mut from) = (0, 0);
    if !is_padded {
        while let Some(end) = next_padded(bytes, from, ends) {
            to.push_str(&text[start..end - count(&bytes[start..end])]);
            start = end;
            from = end + 1;
        }
    }
    to.push_str(&text[start..]);
}

#[cfg(test)]
mod tests {
    use super::*;

    #[test]
    fn ends_of_lines() {
        let text = "a  \n  b │ \n \n\nc d\u{a0} \n";
        assert_eq!(kept(text, false).unwrap(), "a\n  b │\n\n\nc d\u{a0}\n");
        assert_eq!(kept(text, true).unwrap(), text);
        assert_eq!(kept("", false).unwrap(), "");
    }
}
