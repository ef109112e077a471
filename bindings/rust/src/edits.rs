//! Changes of the lines of an adapted page after it is rendered: lines between short rows of tables and spaces at the ends of lines are
//! dropped, and lines of preformatted blocks that were cut are joined.
//!
//! The characters of `mark`, which no text of the page has, say where. They are dropped too.

use crate::characters::mark;
use crate::error::Error;
use crate::lines::{RichAnnotation, TaggedLine};
use crate::padding;
use memchr::{memchr, memchr_iter, memmem, memrchr};
use std::borrow::Cow;
use std::ops::Range;

/// Changes of the rendered lines.
#[derive(Clone, Copy, Debug)]
pub(crate) struct Edits {
    /// Whether spaces at the ends of lines are kept.
    pub is_padded: bool,
    /// Whether lines between marks are joined.
    pub joins_lines: bool,
    /// Number of rows of tables that have a mark.
    pub row_marks: usize,
    /// Whether lines between rows of one line are dropped.
    pub drops_rules: bool,
}

/// The character of a table's borders that lies between two columns and between two rows.
const CROSS: &[u8] = "\u{253c}".as_bytes();

type Line = TaggedLine<Vec<RichAnnotation>>;

/// Reports whether a text has a character that parts columns in a table's border.
pub(crate) fn has_crossings(text: &[u8]) -> bool {
    memmem::find_iter(text, b"\xe2\x94").any(|at| matches!(text.get(at + 2), Some(0xac | 0xb4 | 0xbc)))
}

/// Maximum number of lines of a row beside which a border is dropped.
const MAX_ROW: u32 = 3;

/// Number of lines after a border that are read one by one, before the next border is searched.
const LINES_AFTER_BORDER: u32 = 16;

/// The character between two columns in a row.
const BAR: &[u8] = "\u{2502}".as_bytes();

/// Reports whether a text begins with a character of borders.
fn begins_as_border(text: &[u8]) -> bool {
    matches!(text, [0xe2, 0x94, 0x80 | 0xac | 0xb4 | 0xbc, ..])
}

/// Reports whether a text ends with a character of borders.
fn ends_as_border(text: &[u8]) -> bool {
    text.len().checked_sub(BAR.len()).map_or(false, |last| begins_as_border(&text[last..]))
}

/// Reports whether the rest of a line from a byte on is a border: it begins and ends as one, and has no bar.
#[inline]
fn is_border(line: &[u8], start: usize) -> bool {
    let rest = line.get(start..).unwrap_or_default();
    begins_as_border(rest) && ends_as_border(&rest[..rest.len() - padding::count(rest)]) && memchr(BAR[2], rest).is_none()
}

/// Reports whether a line has a crossing of borders.
fn has_cross(line: &[u8]) -> bool {
    memchr_iter(CROSS[2], line).any(|last| line[..=last].ends_with(CROSS))
}

/// Returns the number of bytes before the border of a table that ends a line; `None` if none does.
fn border_start(line: &[u8]) -> Option<usize> {
    memchr(BAR[0], line).filter(|&start| is_border(line, start))
}

/// Reports whether the first cell in a line of a row, which begins after so many bytes, has a text.
fn has_first_cell(line: &[u8], start: usize) -> bool {
    let cells = line.get(start..).unwrap_or_default();
    cells.iter().position(|&byte| byte != b' ').map_or(false, |first| !cells[first..].starts_with(BAR))
}

/// Summary of the lines of a row.
#[derive(Clone, Copy, Default)]
struct Row {
    count: u32,
    /// Bytes of the lines, with their ends.
    length: usize,
    /// Whether the first cell has a text in a line: a bit for each, the lowest for the line nearest to a border.
    first_cells: u32,
}

impl Row {
    /// Returns the row of lines up to a border that begins after so many bytes, if it is one beside which a border may be dropped.
    /// `is_upwards` says that the first line is the last of them.
    fn of<'a>(lines: impl Iterator<Item = &'a [u8]>, start: usize, is_upwards: bool) -> Option<Row> {
        let mut row = Row::default();
        for line in lines {
            if is_border(line, start) {
                return row.ended();
            }
            if !row.add(line, start, is_upwards) {
                return None;
            }
        }
        None
    }

    /// Adds a line whose first cell begins after so many bytes. Returns whether a border may be dropped beside the row then: it has at most
    /// `MAX_ROW` lines, and no text in its first cell after the first of them.
    #[inline]
    fn add(&mut self, line: &[u8], start: usize, is_upwards: bool) -> bool {
        let has_text = has_first_cell(line, start);
        if self.count == MAX_ROW || self.count > 0 && if is_upwards { self.first_cells != 0 } else { has_text } {
            return false;
        }
        self.first_cells |= u32::from(has_text) << self.count;
        self.count += 1;
        self.length += line.len() + 1;
        true
    }

    /// Returns the row, if it has lines.
    fn ended(self) -> Option<Row> {
        Some(self).filter(|row| row.count > 0)
    }

    /// Returns the row as it is seen from the border at its other end.
    fn turned(self) -> Row {
        Row { first_cells: self.first_cells.reverse_bits() >> (u32::BITS - self.count), ..self }
    }

    /// Reports whether a border between it and the row below isn't needed: both are one line, or begin with a cell that has a text in their first
    /// line alone.
    fn needs_no_border_before(self, below: Row) -> bool {
        let are_short = self.count == 1 && below.count == 1;
        let are_clear = below.first_cells == 1 && (self.count == 1 || self.first_cells == 1 << (self.count - 1));
        are_short || are_clear
    }
}

/// Returns where the line that ends at a place begins.
fn line_start(text: &[u8], end: usize) -> usize {
    memrchr(b'\n', &text[..end]).map_or(0, |newline| newline + 1)
}

/// Returns where the line that begins at a place ends.
fn line_end(text: &[u8], start: usize) -> usize {
    memchr(b'\n', &text[start..]).map_or(text.len(), |length| start + length)
}

/// Returns the lines before a place where a line begins, the nearest one first.
fn lines_before(text: &[u8], start: usize) -> impl Iterator<Item = &[u8]> {
    let mut start = start;
    std::iter::from_fn(move || {
        let end = start.checked_sub(1)?;
        start = line_start(text, end);
        Some(&text[start..end])
    })
}

/// Returns a text in memory that may be refused, to which a function appends no more bytes than so many.
fn made(length: usize, append: impl FnOnce(&mut String)) -> Result<String, Error> {
    let mut text = String::new();
    text.try_reserve_exact(length).map_err(|_| Error::OutOfMemory)?;
    append(&mut text);
    Ok(text)
}

/// Returns where the stroke of a mark ends whose character ends at a place, or that place if the mark has no stroke.
fn stroke_end(text: &str, end: usize) -> usize {
    if text[end..].starts_with(mark::STROKE) {
        end + mark::STROKE.len()
    } else {
        end
    }
}

/// Appends a text without a mark.
fn push_unmarked(text: &str, mark: &memmem::Finder<'_>, to: &mut String) {
    let mut kept = 0;
    for at in mark.find_iter(text.as_bytes()) {
        to.push_str(&text[kept..at]);
        kept = stroke_end(text, at + mark.needle().len());
    }
    to.push_str(&text[kept..]);
}

/// A border between two rows, as the row below it is read.
struct Border {
    /// Range of its line in the text.
    line: Range<usize>,
    /// Number of bytes before it on its line.
    column: usize,
    /// Range of its line in what is appended.
    appended: Range<usize>,
    /// The row above, if it was read as the row below another border.
    above: Option<Row>,
    below: Row,
}

/// A text whose lines are appended to another text, without marks and the borders that aren't needed.
struct Ruled<'a> {
    text: &'a str,
    /// Whether spaces at the ends of lines are kept.
    is_padded: bool,
    /// Places of the marks of rows, in order.
    marks: &'a [usize],
    /// The marks in what isn't appended yet.
    marks_left: &'a [usize],
    /// Finds the ends of lines with spaces.
    ends: memmem::Finder<'static>,
    /// Where what isn't appended yet begins.
    rest: usize,
    /// The last border, until the row below it is read.
    border: Option<Border>,
    to: &'a mut String,
}

impl<'a> Ruled<'a> {
    fn new(text: &'a str, is_padded: bool, marks: &'a [usize], to: &'a mut String) -> Ruled<'a> {
        Ruled { text, is_padded, marks, marks_left: marks, ends: padding::ends(), rest: 0, border: None, to }
    }

    /// Reports whether the next mark is before a place.
    #[inline]
    fn has_marks_before(&self, end: usize) -> bool {
        self.marks_left.first().map_or(false, |&mark| mark < end)
    }

    /// Appends the text up to a place.
    #[inline]
    fn push_to(&mut self, end: usize) {
        self.push_marked(end, true);
        self.to.push_str(&self.text[self.rest..end]);
        self.rest = end;
    }

    /// Appends the lines of the text up to a place, without the spaces at their ends unless these are kept.
    fn push_lines_to(&mut self, end: usize) {
        self.push_marked(end, self.is_padded);
        padding::push(&self.text[self.rest..end], self.is_padded, &self.ends, self.to);
        self.rest = end;
    }

    /// Appends the text up to the last mark before a place.
    #[inline]
    fn push_marked(&mut self, end: usize, is_padded: bool) {
        while self.has_marks_before(end) {
            let mark = self.marks_left[0];
            padding::push(&self.text[self.rest..mark], is_padded, &self.ends, self.to);
            self.marks_left = &self.marks_left[1..];
            self.rest = stroke_end(self.text, mark + mark::APART.len());
            if !self.is_padded && self.text[self.rest..].starts_with('\n') {
                self.to.truncate(self.to.trim_end_matches(' ').len());
            }
        }
    }

    /// Appends all lines of the text.
    fn push_lines(mut self) {
        self.push_lines_to(self.text.len());
    }

    /// Appends all lines of the text but the borders that aren't needed.
    fn push_needed_lines(mut self) {
        let bytes = self.text.as_bytes();
        let cross = memmem::Finder::new(CROSS);
        let (mut start, mut lines_left) = (0, 0);
        while start < bytes.len() {
            if lines_left == 0 {
                self.push_to(start);
                start = cross.find(&bytes[start..]).map_or(bytes.len(), |distance| line_start(bytes, start + distance));
                self.push_lines_to(start);
                lines_left = LINES_AFTER_BORDER;
            } else {
                let end = line_end(bytes, start);
                lines_left = if self.read_line(start..end) { LINES_AFTER_BORDER } else { lines_left - 1 };
                start = end + 1;
            }
        }
        self.push_to(bytes.len());
    }

    /// Reads a line. Returns whether it is a border between two rows.
    #[inline]
    fn read_line(&mut self, line: Range<usize>) -> bool {
        let bytes = &self.text.as_bytes()[line.clone()];
        let above = self.read_in_row(line.start, bytes);
        let spaces = padding::count(bytes);
        let shown = if self.is_padded { line.end } else { line.end - spaces };
        let is_border = self.border.is_none() && ends_as_border(&bytes[..bytes.len() - spaces]) && self.begin_row(line.clone(), shown, above);
        if shown < line.end {
            self.push_to(shown);
            self.rest = line.end;
        }
        is_border
    }

    /// Reads a line as one of the row below the last border. Returns that row if the line ends it.
    #[inline]
    fn read_in_row(&mut self, start: usize, line: &[u8]) -> Option<Row> {
        let border = self.border.as_mut()?;
        let (column, row) = (border.column, border.below);
        if !is_border(line, column) {
            if !border.below.add(line, column, false) {
                self.border = None;
            }
            return None;
        }
        let border = self.border.take()?;
        let row = row.ended()?;
        if self.is_needless(&border) {
            self.push_to(start);
            self.to.drain(border.appended);
        }
        Some(row)
    }

    /// Begins the row below a line, if the line is a border between two rows. Returns whether it is. `shown` is where the line ends without
    /// the spaces that are dropped, `above` the row that ends before it.
    fn begin_row(&mut self, line: Range<usize>, shown: usize, above: Option<Row>) -> bool {
        let bytes = &self.text.as_bytes()[line.clone()];
        let column = match border_start(bytes) {
            Some(column) if has_cross(bytes) && !self.has_mark(line.clone()) => column,
            _ => return false,
        };
        if self.has_marks_before(line.start) {
            self.push_to(line.start);
        }
        let start = self.to.len() + (line.start - self.rest);
        let appended = start..start + (shown - line.start) + 1;
        self.border = Some(Border { line, column, appended, above: above.map(Row::turned), below: Row::default() });
        true
    }

    /// Reports whether a border isn't needed, when the row below it is read. Rows with a mark are parted from those without.
    fn is_needless(&self, border: &Border) -> bool {
        let Border { line, column, above, below, .. } = border;
        let above = above.or_else(|| Row::of(lines_before(self.text.as_bytes(), line.start), *column, true));
        above.map_or(false, |above| {
            let below_start = line.end + 1;
            above.needs_no_border_before(*below) && self.has_mark(line.start - above.length..line.start) == self.has_mark(below_start..below_start + below.length)
        })
    }

    /// Reports whether a range of the text has a mark.
    fn has_mark(&self, range: Range<usize>) -> bool {
        let next = self.marks.partition_point(|&mark| mark < range.start);
        self.marks.get(next).map_or(false, |&mark| mark < range.end)
    }
}

/// Returns what follows the prefix of a line, where the line before it in the block has another, or else none: spaces stand for other
/// characters.
fn after_prefix<'a>(line: &'a str, prefix: &str) -> Option<&'a str> {
    let mut rest = line.chars();
    prefix.chars().all(|wanted| rest.next().map_or(false, |c| c == wanted || c == ' ')).then(|| rest.as_str())
}

/// Appends a text with its lines between marks joined.
fn push_joined(text: &str, to: &mut String) {
    let (start, end) = (memmem::Finder::new(mark::LONG), memmem::Finder::new(mark::LONG_END));
    let mut rest = text;
    while let Some(at) = start.find(rest.as_bytes()) {
        let (before, after) = (&rest[..at], &rest[stroke_end(rest, at + mark::LONG.len())..]);
        to.push_str(before);
        let prefix = &before[line_start(before.as_bytes(), before.len())..];
        rest = match end.find(after.as_bytes()).filter(|&length| start.find(after[..length].as_bytes()).is_none()) {
            Some(length) => {
                push_line(&after[..length], prefix, to);
                &after[stroke_end(after, length + mark::LONG_END.len())..]
            }
            None => after,
        };
    }
    push_unmarked(rest, &end, to);
}

/// Appends the lines that a line was cut into.
fn push_line(cut: &str, prefix: &str, to: &mut String) {
    for (number, line) in cut.split('\n').enumerate() {
        match after_prefix(line, prefix) {
            _ if number == 0 => to.push_str(line),
            Some(rest) => to.push_str(rest),
            None => {
                to.push('\n');
                to.push_str(line);
            }
        }
    }
}

impl Edits {
    /// Returns the text of a page in memory that may be refused.
    pub fn text(self, text: &str) -> Result<String, Error> {
        let mut text = Cow::Borrowed(text);
        if self.joins_lines {
            text = made(text.len(), |to| push_joined(&text, to))?.into();
        }
        if self.row_marks > 0 || self.drops_rules {
            let marks: Vec<usize> = memmem::find_iter(text.as_bytes(), mark::APART).take(self.row_marks).collect();
            return made(text.len(), |to| self.push_ruled(&text, &marks, to));
        }
        padding::kept(&text, self.is_padded)
    }

    /// Appends a text without the marks at some places, nor the borders that aren't needed.
    fn push_ruled(self, text: &str, marks: &[usize], to: &mut String) {
        let ruled = Ruled::new(text, self.is_padded, marks, to);
        if self.drops_rules {
            ruled.push_needed_lines();
        } else {
            ruled.push_lines();
        }
    }

    /// Returns the lines of a page.
    pub fn lines(self, mut lines: Vec<Line>) -> Vec<Line> {
        if self.joins_lines {
            lines = joined(lines);
        }
        if self.drops_rules {
            lines = without_rules(lines);
        }
        if self.row_marks > 0 {
            lines.iter_mut().for_each(|line| line.remove(mark::APART, mark::STROKE));
        }
        lines
    }
}

fn without_rules(lines: Vec<Line>) -> Vec<Line> {
    let has_cross = |line: &Line| line.tagged_strings().any(|string| has_cross(string.s.as_bytes()));
    let is_dropped = |at: usize| {
        has_cross(&lines[at]) && {
            let most = MAX_ROW as usize + 1;
            let first = at.saturating_sub(most);
            let texts: Vec<String> = lines[first..].iter().take(at - first + most + 1).map(Line::text).collect();
            let (above, rest) = texts.split_at(at - first);
            border_start(rest[0].as_bytes()).map_or(false, |start| {
                let row_above = Row::of(above.iter().rev().map(String::as_bytes), start, true);
                let rows = row_above.zip(Row::of(rest[1..].iter().map(String::as_bytes), start, false));
                rows.map_or(false, |(row_above, below)| {
                    let has_mark = |lines: &[String]| lines.iter().any(|line| line.contains(mark::APART));
                    let marks = (has_mark(&above[above.len() - row_above.count as usize..]), has_mark(&rest[1..][..below.count as usize]));
                    row_above.needs_no_border_before(below) && marks.0 == marks.1
                })
            })
        }
    };
    let dropped: Vec<bool> = (0..lines.len()).map(is_dropped).collect();
    let mut kept: Vec<Line> = Vec::with_capacity(lines.len());
    let mut waiting = Line::default();
    for (mut line, is_dropped) in lines.into_iter().zip(dropped) {
        if is_dropped {
            // the places of fragments go to the row below
            line.clear();
            waiting.append(line);
        } else {
            let mut whole = std::mem::take(&mut waiting);
            whole.append(line);
            kept.push(whole);
        }
    }
    kept
}

fn joined(lines: Vec<Line>) -> Vec<Line> {
    // whether the mark at a line's start is closed on the line or a later one
    let mut is_closed = false;
    let mut closed: Vec<bool> = lines.iter().rev().map(|line| {
        let text = line.text();
        is_closed |= text.contains(mark::LONG_END);
        let is_here = text.contains(mark::LONG);
        let is_long = is_closed && is_here;
        is_closed &= !is_here;
        is_long
    }).collect();
    closed.reverse();
    let mut kept: Vec<Line> = Vec::with_capacity(lines.len());
    let mut prefix: Option<String> = None;
    for (mut line, is_long) in lines.into_iter().zip(closed) {
        let text = line.text();
        line.remove(mark::LONG, mark::STROKE);
        line.remove(mark::LONG_END, mark::STROKE);
        if is_long {
            prefix = text.split_once(mark::LONG).map(|(before, _)| before.to_owned());
            kept.push(line);
        } else {
            match (&prefix, kept.last_mut()) {
                (Some(prefix), Some(last)) if after_prefix(&text, prefix).is_some() => {
                    line.remove_start(prefix.chars().count());
                    last.append(line);
                }
                _ => kept.push(line),
            }
        }
        if text.contains(mark::LONG_END) {
            prefix = None;
        }
    }
    kept
}

#[cfg(test)]
mod tests {
    use super::*;

    const EDITS: Edits = Edits { is_padded: false, joins_lines: false, row_marks: 2, drops_rules: true };

    fn without_rules_in(text: &str) -> String {
        EDITS.text(text).unwrap()
    }

    #[test]
    fn rules_between_rows() {
        let table = "─┬─\na│b\n─┼─\nc│d\n─┼─\ne│f\n─┴─\n";
        assert_eq!(without_rules_in(table), "─┬─\na│b\nc│d\ne│f\n─┴─\n");
        assert_eq!(without_rules_in(&table.replace("a│", "\u{206a}a│")), "─┬─\na│b\n─┼─\nc│d\ne│f\n─┴─\n");
        let prefixed: String = table.lines().enumerate().map(|(number, line)| format!("{} {line}\n", if number == 0 { "*" } else { " " })).collect();
        assert_eq!(without_rules_in(&prefixed), "* ─┬─\n  a│b\n  c│d\n  e│f\n  ─┴─\n");
        assert_eq!(without_rules_in("─┬─\na│b\n │c\n─┼─\nd│e\n─┼─\nf│g\n │h\n─┴─\n"), "─┬─\na│b\n │c\nd│e\nf│g\n │h\n─┴─\n");
        assert_eq!(without_rules_in("─┬─\na│b\n─┼─\n │c\n─┴─\n"), "─┬─\na│b\n │c\n─┴─\n");
        for kept in [
            "─┬─\na│b\nc│\n─┼─\nd│e\n─┴─\n",
            "─┬─\na│b\n─┼─\nc│d\ne│\n─┴─\n",
            "─┬─\na│b\n │c\n─┼─\n │e\n─┴─\n",
            "─┬─\na│b\n─┼─\nc│1\n │2\n │3\n │4\n─┴─\n",
            "─┬─\na│b\n─┴─\n\n─┬─\nc│d\n─┴─\n",
            "─┬─\na│b\n─┴─\nc  \n───\n",
            "─┼─\na│b\n─┼─",
            "a\n─┼─\nb\n",
            "│─┬─│\n│a│b│\n│─┼─│\n│c│d│\n│─┴─│\n",
        ] {
            assert_eq!(without_rules_in(kept), kept.replace(" \n", "\n").replace(" \n", "\n"), "{kept}");
        }
    }

    #[test]
    fn tables_far_apart() {
        let table = "\u{206a}a │\n──┬──\nb │c  \n──┼── \nd │e  \n──┴──\n";
        let page = [table, &"f  \n".repeat(40), table].concat();
        let unruled = "a │\n──┬──\nb │c\nd │e\n──┴──\n";
        assert_eq!(without_rules_in(&page), [unruled, &"f\n".repeat(40), unruled].concat());
        let padded = page.replace("──┼── \n", "").replace('\u{206a}', "");
        assert_eq!(Edits { is_padded: true, ..EDITS }.text(&page).unwrap(), padded);
        let ruled = page.replace(" \n", "\n").replace(" \n", "\n").replace('\u{206a}', "");
        assert_eq!(Edits { drops_rules: false, ..EDITS }.text(&page).unwrap(), ruled);
    }

    #[test]
    fn marks_are_dropped_with_strokes_and_spaces() {
        let table = "─┬─\n\u{206a}\u{336}a\u{336}│b\n─┼─\nc│d\n─┴─\n";
        assert_eq!(without_rules_in(table), "─┬─\na\u{336}│b\n─┼─\nc│d\n─┴─\n");
        assert_eq!(without_rules_in("─┬─\na│ \u{206a}\n │b\n─┼─\nc│d\n─┴─\n"), "─┬─\na│\n │b\n─┼─\nc│d\n─┴─\n");
        let edits = Edits { joins_lines: true, drops_rules: false, ..EDITS };
        let code = "\u{206b}\u{336}a\u{336}\nb\u{336}\u{206c}\u{336}\n\u{206a}\u{336}c\u{336}";
        assert_eq!(edits.text(code).unwrap(), "a\u{336}b\u{336}\nc\u{336}");
        let lines: Vec<String> = edits.lines(code.split('\n').map(|line| Line::of_text(line.to_owned())).collect()).iter().map(Line::text).collect();
        assert_eq!(lines, ["a\u{336}b\u{336}", "c\u{336}"]);
    }

    #[test]
    fn lines_are_joined() {
        let join = |text: &str| Edits { joins_lines: true, row_marks: 0, drops_rules: false, ..EDITS }.text(&text.replace('<', mark::LONG).replace('>', mark::LONG_END)).unwrap();
        assert_eq!(join("a\n* <bc\n  d \n  e>\n* f\n"), "a\n* bcd e\n* f\n");
        assert_eq!(join("| <bc\n| d>\n| e\n"), "| bcd\n| e\n");
        assert_eq!(join("<a>\n<b\nc>\n"), "a\nbc\n");
        assert_eq!(join("<a\n<b\nc\nd>"), "a\nbcd");
        assert_eq!(join("xx<a\nb>"), "xxa\nb");
        assert_eq!(join("<a\nb"), "a\nb");
    }
}
