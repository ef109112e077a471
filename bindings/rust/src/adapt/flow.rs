//! The text directly before a place, on the same lines: no block, picture, field or line break is between.

use crate::record::{Handle, Recorder};
use crate::tree::Piece;

/// Text since the last block, picture, field or line break.
#[derive(Default)]
pub(crate) struct Flow {
    /// The text recorded last; empty after anything else.
    last: Piece,
    /// The white space, line breaks and numbers of links after the last visible character.
    trailing: Vec<Trailing>,
}

/// A step of which something goes outside of signs.
#[derive(Clone, Copy)]
struct Trailing {
    step: usize,
    part: Part,
}

/// What of a step goes outside of signs.
#[derive(Clone, Copy, PartialEq, Eq)]
enum Part {
    /// So many bytes of white space at the end of its text.
    Space(u32),
    /// A line break.
    Break,
    /// The number of a link.
    Sign,
}

/// Maximum number of steps after the last visible character that are known.
const MAX_TRAILING: usize = 16;

/// Reports whether a character shows nothing: white space, or without width.
#[inline]
pub(crate) fn is_blank_char(c: char) -> bool {
    c.is_whitespace() || matches!(c, '\u{34f}' | '\u{200b}'..='\u{200d}' | '\u{2060}' | '\u{206a}'..='\u{206f}' | '\u{feff}')
}

/// Reports whether a character is part of a word. Those of scripts that are written without spaces aren't, since any two of them would be.
pub(crate) fn is_word_char(c: char) -> bool {
    if c.is_ascii() {
        return c.is_ascii_alphanumeric();
    }
    let is_without_spaces = matches!(c, '\u{e00}'..='\u{eff}' | '\u{1000}'..='\u{109f}' | '\u{1780}'..='\u{17ff}' | '\u{2e80}'..='\u{a4cf}'
        | '\u{f900}'..='\u{faff}' | '\u{ff66}'..='\u{ff9f}' | '\u{20000}'..='\u{3ffff}');
    c.is_alphanumeric() && !is_without_spaces
}

/// Returns the first character of a text in UTF-8.
#[inline]
fn first_char(text: &[u8]) -> Option<char> {
    match text.first()? {
        &byte @ 0..=0x7f => Some(byte.into()),
        0x80..=0xdf => first_of(text, 2),
        0xe0..=0xef => first_of(text, 3),
        _ => first_of(text, 4),
    }
}

/// Returns the first character of a text, which takes so many bytes.
fn first_of(text: &[u8], length: usize) -> Option<char> {
    std::str::from_utf8(text.get(..length)?).ok()?.chars().next()
}

/// Returns the last character of a text in UTF-8.
#[inline]
fn last_char(text: &[u8]) -> Option<char> {
    match text.last()? {
        &byte @ 0..=0x7f => Some(byte.into()),
        _ => last_of(text),
    }
}

fn last_of(text: &[u8]) -> Option<char> {
    let start = text.iter().rposition(|byte| byte & 0xc0 != 0x80)?;
    std::str::from_utf8(&text[start..]).ok()?.chars().next()
}

/// Reports whether a text begins with a character of a word.
#[inline]
pub(crate) fn begins_in_word(text: &[u8]) -> bool {
    match text {
        [byte, ..] if byte.is_ascii() => byte.is_ascii_alphanumeric(),
        _ => first_char(text).map_or(false, is_word_char),
    }
}

/// Reports whether a byte of a text is a character that is shown, for itself.
fn is_shown(byte: Option<&u8>) -> bool {
    byte.map_or(false, u8::is_ascii_graphic)
}

/// Reports whether a byte is white space in ASCII.
fn is_space(byte: u8) -> bool {
    matches!(byte, b'\t'..=b'\r' | b' ')
}

/// Returns the number of bytes that show nothing at the start of a text.
#[inline(always)]
pub(crate) fn blank_start(text: &[u8]) -> usize {
    if is_shown(text.first()) {
        0
    } else {
        long_blank_start(text)
    }
}

fn long_blank_start(text: &[u8]) -> usize {
    let mut length = text.iter().take_while(|&&byte| is_space(byte)).count();
    while let Some(c) = first_char(&text[length..]).filter(|&c| is_blank_char(c)) {
        length += c.len_utf8();
    }
    length
}

/// Returns the number of bytes that show nothing at the end of a text.
#[inline(always)]
pub(crate) fn blank_end(text: &[u8]) -> usize {
    if is_shown(text.last()) {
        0
    } else {
        long_blank_end(text)
    }
}

fn long_blank_end(text: &[u8]) -> usize {
    let mut length = text.iter().rev().take_while(|&&byte| is_space(byte)).count();
    while let Some(c) = last_char(&text[..text.len() - length]).filter(|&c| is_blank_char(c)) {
        length += c.len_utf8();
    }
    length
}

/// Returns the bytes of a piece.
pub(crate) fn bytes(text: &[u8], (start, length): Piece) -> &[u8] {
    &text[start as usize..][..length as usize]
}

impl Flow {
    /// Notes a text.
    #[inline]
    pub fn set_last(&mut self, piece: Piece) {
        self.last = piece;
    }

    /// Notes a text that becomes a step, and the white space at its end.
    pub fn add(&mut self, recorder: &Recorder, piece: Piece) {
        self.last = piece;
        let text = bytes(&recorder.text, piece);
        let blank = blank_end(text);
        if blank < text.len() {
            self.trailing.clear();
        }
        if blank > 0 {
            self.add_trailing(recorder.steps.len(), Part::Space(blank as u32));
        }
    }

    /// Notes a line break that becomes a step.
    pub fn add_break(&mut self, step: usize) {
        self.add_trailing(step, Part::Break);
    }

    /// Notes that a step is the number of a link.
    pub fn add_sign(&mut self, step: usize) {
        self.add_trailing(step, Part::Sign);
    }

    /// Notes so many bytes of white space, which became a step before an element without text.
    pub fn add_space(&mut self, step: usize, blank: u32) {
        self.last = (0, 0);
        self.add_trailing(step, Part::Space(blank));
    }

    fn add_trailing(&mut self, step: usize, part: Part) {
        if self.trailing.len() == MAX_TRAILING {
            self.trailing.clear();
        }
        self.trailing.push(Trailing { step, part });
    }

    /// Notes something that isn't text, or the start of a block.
    pub fn interrupt(&mut self) {
        self.last = (0, 0);
        self.trailing.clear();
    }

    /// Notes that the last character isn't directly before any more. White space before is still white space at the end of an element.
    pub fn end_word(&mut self) {
        self.last = (0, 0);
    }

    /// Reports whether the last character is part of a word.
    #[inline(always)]
    pub fn ends_in_word(&self, text: &[u8]) -> bool {
        match bytes(text, self.last) {
            [.., byte] if byte.is_ascii() => byte.is_ascii_alphanumeric(),
            text => last_char(text).map_or(false, is_word_char),
        }
    }

    /// Moves what goes outside of signs to the end of another node. Returns whether there is any.
    pub fn move_trailing(&mut self, recorder: &mut Recorder, parent: Handle) -> bool {
        if self.trailing.is_empty() {
            return false;
        }
        let mut space = None;
        self.trailing.retain(|&Trailing { step, part }| match part {
            Part::Space(blank) if blank < recorder.text_length(step) => {
                space = Some(recorder.cut_text(step, blank));
                false
            }
            _ => {
                recorder.set_parent(step, parent);
                true
            }
        });
        self.last = (0, 0);
        if let Some(space) = space {
            let step = self.trailing.first().map_or(recorder.steps.len(), |first| first.step);
            self.insert_first(recorder, Trailing { step, part: Part::Space(space.1) }, parent, space);
        }
        true
    }

    /// Inserts a text as a step before all that is after the last visible character.
    fn insert_first(&mut self, recorder: &mut Recorder, first: Trailing, parent: Handle, text: Piece) {
        if recorder.insert_text(first.step, parent, text) {
            self.trailing.iter_mut().for_each(|trailing| trailing.step += 1);
            self.trailing.insert(0, first);
        }
    }

    /// Takes the white space after the last visible character out of the texts. Returns the first piece of it.
    pub fn cut_trailing(&mut self, recorder: &mut Recorder) -> Option<Piece> {
        let mut space = None;
        for Trailing { step, part } in self.trailing.drain(..) {
            if let Part::Space(blank) = part {
                let cut = recorder.cut_text(step, blank);
                space = space.or(Some(cut));
            }
        }
        space
    }

    /// Inserts a text before the first line break after the last visible character, without white space between. Returns whether there
    /// is such a break.
    pub fn insert_before_break(&mut self, recorder: &mut Recorder, text: Piece) -> bool {
        let place = match self.trailing.iter().position(|trailing| trailing.part == Part::Break) {
            Some(place) => place,
            None => return false,
        };
        for Trailing { step, part } in self.trailing.drain(..place) {
            if let Part::Space(blank) = part {
                recorder.cut_text(step, blank);
            }
        }
        let step = self.trailing[0].step;
        self.insert_first(recorder, Trailing { step, part: Part::Sign }, recorder.parent(step), text);
        true
    }
}

#[cfg(test)]
mod tests {
    use super::*;

    #[test]
    fn blank_ends() {
        for (text, start, end) in [("", 0, 0), ("a", 0, 0), (" a\t\n", 1, 2), ("\u{a0}\u{e9}\u{200b}", 2, 3), (" \u{2003}", 4, 4)] {
            assert_eq!((blank_start(text.as_bytes()), blank_end(text.as_bytes())), (start, end), "{text:?}");
        }
    }

    #[test]
    fn characters_of_words() {
        for c in ['a', 'Z', '7', '\u{e9}', '\u{43c}', '\u{3b1}'] {
            assert!(is_word_char(c), "{c}");
        }
        for c in [' ', '_', '-', '.', '\u{4e16}', '\u{30ab}', '\u{e01}'] {
            assert!(!is_word_char(c), "{c}");
        }
        assert!(begins_in_word("\u{e9}t\u{e9}".as_bytes()) && !begins_in_word(b"") && !begins_in_word(b" a"));
    }
}
