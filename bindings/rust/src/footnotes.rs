//! The targets of links after a text.

use crate::columns;
use crate::error::Error;
use crate::lines::TaggedLine;
use std::rc::Rc;

/// The targets of a page's links, as lines after its text.
#[derive(Debug, Default)]
pub(crate) struct Footnotes {
    pub targets: Vec<Rc<str>>,
    /// Whether the targets have the numbers of their links.
    pub are_numbered: bool,
    /// Maximum number of columns of a line, if lines are cut.
    pub columns: Option<usize>,
}

/// Maximum number of bytes of a line of fewer than 10 billion, beside its target and with its end.
const NUMBER: usize = 16;

/// Maximum number of digits of a number.
const MAX_DIGITS: usize = 20;

/// Appends a number in decimal.
pub(crate) fn push_number(number: usize, text: &mut String) {
    let mut digits = [0; MAX_DIGITS];
    let (mut start, mut rest) = (MAX_DIGITS, number);
    loop {
        start -= 1;
        digits[start] = b'0' + (rest % 10) as u8;
        rest /= 10;
        if rest == 0 {
            break;
        }
    }
    text.push_str(std::str::from_utf8(&digits[start..]).unwrap_or_default());
}

impl Footnotes {
    /// Returns the lines of all targets, in order.
    pub fn lines(&self) -> impl Iterator<Item = String> + '_ {
        self.targets.iter().enumerate().flat_map(move |(place, target)| {
            let mut line = String::with_capacity(NUMBER + target.len());
            self.push_line(place, target, &mut line);
            match self.columns {
                Some(columns) => cut(&line, columns),
                None => vec![line],
            }
        })
    }

    /// Appends the line of a target to a text.
    fn push_line(&self, place: usize, target: &str, text: &mut String) {
        if self.are_numbered {
            text.push('[');
            push_number(place + 1, text);
            text.push_str("]: ");
        }
        text.push_str(target);
    }

    /// Appends an empty line and the lines to others, or the lines alone if there are no others.
    pub fn append_to_lines<T>(&self, lines: &mut Vec<TaggedLine<Vec<T>>>) {
        if !lines.is_empty() && !self.targets.is_empty() {
            lines.push(TaggedLine::default());
        }
        lines.extend(self.lines().map(TaggedLine::of_text));
    }

    /// Appends an empty line and the lines to a text, or the lines alone if the text is empty.
    pub fn append_to(&self, text: &mut String) -> Result<(), Error> {
        if !text.is_empty() && !self.targets.is_empty() {
            text.push('\n');
        }
        if self.columns.is_none() {
            return self.append_uncut(text);
        }
        for line in self.lines() {
            text.try_reserve(line.len() + 1).map_err(|_| Error::OutOfMemory)?;
            text.push_str(&line);
            text.push('\n');
        }
        Ok(())
    }

    /// Appends the lines to a text, where they aren't cut.
    fn append_uncut(&self, text: &mut String) -> Result<(), Error> {
        let length = self.targets.iter().map(|target| NUMBER + target.len()).sum();
        text.try_reserve(length).map_err(|_| Error::OutOfMemory)?;
        for (place, target) in self.targets.iter().enumerate() {
            self.push_line(place, target, text);
            text.push('\n');
        }
        Ok(())
    }
}

/// Cuts a line into the longest pieces that fit a width, or of one character where that is wider.
fn cut(line: &str, columns: usize) -> Vec<String> {
    let mut pieces = vec![String::new()];
    let mut used = 0;
    for c in line.chars() {
        let width = columns::of_char(c);
        if used + width > columns && used > 0 {
            pieces.push(String::new());
            used = 0;
        }
        used += width;
        if let Some(piece) = pieces.last_mut() {
            piece.push(c);
        }
    }
    pieces
}

#[cfg(test)]
mod tests {
    use super::*;

    fn shown(footnotes: Footnotes, text: &str) -> String {
        let mut text = text.to_owned();
        footnotes.append_to(&mut text).unwrap();
        text
    }

    fn targets() -> Vec<Rc<str>> {
        vec!["abcdef".into(), "\u{4e16}\u{754c}".into()]
    }

    #[test]
    fn numbers_are_decimal() {
        for number in [0, 7, 10, 1_234, usize::MAX] {
            let mut text = "a".to_owned();
            push_number(number, &mut text);
            assert_eq!(text, format!("a{number}"));
        }
    }

    #[test]
    fn lines_after_a_text() {
        let numbered = |columns| Footnotes { targets: targets(), are_numbered: true, columns };
        assert_eq!(shown(numbered(None), "x\n"), "x\n\n[1]: abcdef\n[2]: \u{4e16}\u{754c}\n");
        assert_eq!(shown(numbered(Some(8)), "x\n"), "x\n\n[1]: abc\ndef\n[2]: \u{4e16}\n\u{754c}\n");
        assert_eq!(shown(Footnotes { targets: targets(), ..Footnotes::default() }, ""), "abcdef\n\u{4e16}\u{754c}\n");
        assert_eq!(shown(Footnotes::default(), "x\n"), "x\n");
    }

    #[test]
    fn lines_are_cut() {
        assert_eq!(cut("abc", 1), ["a", "b", "c"]);
        assert_eq!(cut("\u{4e16}a", 1), ["\u{4e16}", "a"]);
        assert_eq!(cut("a\u{4e16}", 2), ["a", "\u{4e16}"]);
        assert_eq!(cut("", 3), [""]);
    }
}
