//! Preformatted blocks: their lines are indented, and shown uncut.
//!
//! The indentation is part of the recorded texts. A line that passes the width is recorded between two marks, and what the library cuts
//! between them is joined after rendering.

use super::contents::{text_of, Contents, Shown};
use crate::characters::mark;
use crate::columns;
use crate::record::{Handle, Recorder};
use crate::tree::{Data, Id, Piece, NONE};
use html5ever::local_name;
use memchr::memchr2_iter;
use std::iter::once;

/// Columns of the indentation, where they are left.
const INDENT: u32 = 4;

/// Columns from one tab stop to the next.
const TAB: u32 = 8;

/// Spaces of a tab or an indentation.
const SPACES: &str = "        ";

/// Returns the column after a text without newlines and tabs.
fn after(column: u32, text: &str) -> u32 {
    column.saturating_add(columns::of_text(text) as u32)
}

/// Returns the tab stop after a column.
fn tab_stop(column: u32) -> u32 {
    (column / TAB + 1) * TAB
}

/// Returns the parts of a text between newlines and tabs, each with the newline or tab after it.
fn parts(text: &str) -> impl Iterator<Item = (&str, Option<u8>)> {
    let mut start = 0;
    memchr2_iter(b'\n', b'\t', text.as_bytes()).map(Some).chain(once(None)).map(move |end| {
        let part = &text[start..end.unwrap_or(text.len())];
        start += part.len() + 1;
        (part, end.map(|end| text.as_bytes()[end]))
    })
}

/// The lines of a preformatted block, as they are measured.
#[derive(Default)]
struct Measure {
    /// Number of the line, from 0.
    line: u32,
    column: u32,
    longest: u32,
    /// Numbers of the lines that have no room beside an indentation.
    long: Vec<u32>,
}

impl Measure {
    fn end_line(&mut self, room: u32) {
        if self.column.saturating_add(INDENT) > room {
            self.long.push(self.line);
        }
        self.longest = self.longest.max(self.column);
        (self.line, self.column) = (self.line + 1, 0);
    }

    fn add_text(&mut self, text: &str, room: u32) {
        for (part, end) in parts(text) {
            self.column = after(self.column, part);
            match end {
                Some(b'\n') => self.end_line(room),
                Some(_) => self.column = tab_stop(self.column),
                None => {}
            }
        }
    }
}

/// The preformatted block that is being recorded.
#[derive(Default)]
pub(super) struct Code {
    /// Columns of the indentation.
    indent: u32,
    /// Numbers of the lines that are shown uncut, the last one first; those before the current line are taken out.
    long: Vec<u32>,
    /// Number of the line, from 0.
    line: u32,
    column: u32,
    /// Whether nothing of the line is recorded.
    pub is_at_start: bool,
    /// Whether the line began with a mark.
    is_long: bool,
    /// Whether a line of the page began with one.
    pub has_long_lines: bool,
}

impl Code {
    /// Begins a block with room for so many columns. `is_cut` says that lines are cut at these.
    pub fn begin(&mut self, contents: Contents<'_>, block: Id, room: u32, is_cut: bool) {
        let (measure, is_plain) = contents.lines_of(block, room);
        let fits = measure.longest <= room;
        self.indent = if fits { INDENT.min(room - measure.longest) } else { INDENT.min(room.saturating_sub(1)) };
        self.long = if fits || is_cut || !is_plain { Vec::new() } else { measure.long };
        self.long.reverse();
        (self.line, self.column, self.is_at_start, self.is_long) = (0, 0, true, false);
    }

    /// Begins another line without a newline, at the start or the end of a block in this one.
    pub fn begin_line(&mut self) {
        (self.column, self.is_at_start) = (0, true);
    }

    /// Records the indentation of a line at whose start an element begins.
    pub fn indent(&mut self, recorder: &mut Recorder, parent: Handle) {
        if self.is_at_start {
            let mut start = String::new();
            self.push_start(&mut start);
            let piece = recorder.keep(&start);
            recorder.text(parent, piece);
        }
    }

    /// Ends a line by a line break that isn't in a text.
    pub fn end_line(&mut self, recorder: &mut Recorder, parent: Handle) {
        if self.is_long {
            let piece = recorder.keep(mark::LONG_END);
            recorder.text(parent, piece);
        }
        self.pass_line();
    }

    /// Returns what is recorded of a text: indented lines, with spaces for tabs.
    pub fn indented(&mut self, recorder: &mut Recorder, piece: Piece) -> Piece {
        let mut indented = String::with_capacity(piece.1 as usize + 16);
        for (part, end) in parts(text_of(&recorder.text, piece)) {
            if !part.is_empty() || end == Some(b'\t') {
                self.push_start(&mut indented);
            }
            indented.push_str(part);
            self.column = after(self.column, part);
            match end {
                Some(b'\n') => self.push_newline(&mut indented),
                Some(_) => self.push_tab(&mut indented),
                None => {}
            }
        }
        recorder.keep(&indented)
    }

    /// Appends a newline, and begins the next line.
    fn push_newline(&mut self, to: &mut String) {
        if self.is_long {
            to.push_str(mark::LONG_END);
        }
        to.push('\n');
        self.pass_line();
    }

    /// Appends the spaces of a tab.
    fn push_tab(&mut self, to: &mut String) {
        let column = tab_stop(self.column);
        to.push_str(&SPACES[..(column - self.column) as usize]);
        self.column = column;
    }

    fn pass_line(&mut self) {
        (self.line, self.is_long) = (self.line + 1, false);
        self.begin_line();
    }

    /// Appends the start of a line, unless it is recorded.
    fn push_start(&mut self, to: &mut String) {
        if !std::mem::take(&mut self.is_at_start) {
            return;
        }
        while self.long.last().map_or(false, |&long| long < self.line) {
            self.long.pop();
        }
        if self.long.last() == Some(&self.line) {
            (self.is_long, self.has_long_lines) = (true, true);
            to.push_str(mark::LONG);
        }
        to.push_str(&SPACES[..self.indent as usize]);
    }
}

impl Contents<'_> {
    /// Returns the lines of a preformatted block, and whether it has nothing but text, and elements and line breaks in it.
    fn lines_of(self, block: Id, room: u32) -> (Measure, bool) {
        let (mut measure, mut is_plain) = (Measure::default(), true);
        let mut node = self.tree.first_child(block);
        while node != NONE {
            let is_entered = match self.tree.data(node) {
                &Data::Text { start, length, .. } => {
                    measure.add_text(text_of(self.text, (start, length)), room);
                    false
                }
                Data::Element(element) => match self.shown(node, element) {
                    Shown::Nothing | Shown::Image => false,
                    Shown::Contents | Shown::Signs => true,
                    Shown::Link => {
                        let target = self.tree.attribute(node, &local_name!("href"));
                        measure.column += target.map_or(0, |target| self.link_signs(target));
                        true
                    }
                    Shown::Text => {
                        measure.column += self.columns_of(node, element);
                        false
                    }
                    Shown::Block if element.name == local_name!("br") => {
                        measure.end_line(room);
                        false
                    }
                    Shown::Block => {
                        is_plain = false;
                        measure.end_line(room);
                        true
                    }
                    Shown::Table => {
                        is_plain = false;
                        false
                    }
                },
                Data::Comment | Data::Root => false,
            };
            node = self.next(node, is_entered, block);
        }
        measure.end_line(room);
        (measure, is_plain)
    }
}

#[cfg(test)]
mod tests {
    use crate::config::plain;
    use crate::options::Options;
    use crate::outline;

    fn recorded(page: &str, options: Options) -> String {
        outline::of(&plain().as_shown(options), page)
    }

    /// Returns a text with marks of long lines in the place of braces.
    fn marked(text: &str) -> String {
        text.replace('{', "\u{206b}").replace('}', "\u{206c}")
    }

    #[test]
    fn lines_are_indented() {
        for (page, wanted) in [
            ("<pre>\na\n\n b\n</pre>c", "<pre>    a\n\n     b\n</>c"),
            ("<pre>12345678901234567\n\tx\ty</pre>", "<pre>   12345678901234567\n           x       y</>"),
            ("<pre>a<i>\nb</i>c</pre>", "<pre>    a<i>\n    b</>c</>"),
            ("<pre>a<br>b<div>c</div>d</pre>", "<pre>    a<br></>    b<div>    c</>    d</>"),
            ("<pre>a<pre>b</pre></pre>", "<pre>    a<pre>    b</></>"),
            ("<listing>a</listing><textarea>b</textarea>", "<listing><pre>    a</></><textarea><pre>b</></>"),
            ("<table border=1><tr><td>a<td><pre>b</pre></table>", "<table><tbody><tr><td>a</><td><pre>b</></></></></><span></>"),
            ("<b><pre>a</pre></b>", "<!b><pre>    a</></>"),
            ("<pre>\u{754c}\t12345678901</pre>", "<pre> \u{754c}      12345678901</>"),
        ] {
            outline::check(Options::new(), page, &marked(wanted));
        }
    }

    #[test]
    fn long_lines_are_marked() {
        for (page, wanted) in [
            ("<pre>a\n123456789012345678901\nb</pre>", "<pre>    a\n{    123456789012345678901}\n    b</>"),
            ("<pre>12345678901234567<b>8901</b>\n1234567890123456\n12345678901234567</pre>", "<pre>{    12345678901234567<!b>8901</>}\n    1234567890123456\n{    12345678901234567}</>"),
            ("<pre>1234567890<br>123456789012345678901<br>a</pre>", "<pre>    1234567890<br></>{    123456789012345678901}<br></>    a</>"),
            ("<pre>123456789012345678 <a href=x:y>z\n</a>a</pre>", "<pre>{    123456789012345678 <a>z[1]}\n</>    a</>"),
            ("<pre>123456789012345678901<div>a</div></pre>", "<pre>    123456789012345678901<div>    a</></>"),
            ("<pre style='white-space: pre-wrap'>123456789012345678901</pre>", "<pre>    123456789012345678901</>"),
        ] {
            outline::check(Options::new(), page, &marked(wanted));
        }
        let cut = "<pre>    123456789012345678901</>";
        assert_eq!(recorded("<pre>123456789012345678901</pre>", Options::new().wrap_code(true)), cut);
        assert_eq!(recorded("<pre>123456789012345678901</pre>", Options::new().pad()), cut);
    }
}
