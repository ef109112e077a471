//! Blank lines where browsers have margins and the library makes none: beside tables and lists, between the entries of a `dl`, and for
//! blocks of white space.
//!
//! Where one may be missing an empty element is recorded at the start of a line. It shows nothing, and becomes a line break if contents
//! without a margin follow it.

use super::elements::Run;
use super::flow;
use crate::record::{self, Handle, Recorder};
use crate::tree::Piece;
use html5ever::local_name;

/// What is directly before a place, among lines that are rendered together.
#[derive(Clone, Copy, Debug, Default, PartialEq, Eq)]
enum Before {
    /// Nothing.
    #[default]
    Start,
    /// A margin, which the library makes a blank line.
    Margin,
    /// The end of a block with a margin, which the library makes a blank line before a text or a block, and not before a list.
    End,
    /// A list, around which the library makes no blank lines.
    List,
    Contents,
    /// Contents, and an element that can become a blank line.
    Gap,
}

/// The blank lines of a document as it is recorded.
#[derive(Default)]
pub(crate) struct Gaps {
    before: Before,
    /// Whether the description directly before ends with a margin.
    is_after_margin: bool,
}

impl Gaps {
    /// Notes a text.
    #[inline(always)]
    pub fn add_text(&mut self, recorder: &mut Recorder, piece: Piece) {
        if self.before == Before::Contents {
            return;
        }
        // most texts begin with a letter, or are a line's end
        let first = recorder.text.get(piece.0 as usize).copied().unwrap_or_default();
        if self.before != Before::Gap && first.is_ascii_graphic() {
            self.before = Before::Contents;
        } else if piece.1 > 1 || first != b'\n' {
            self.add_first_text(recorder, piece);
        }
    }

    #[inline(never)]
    fn add_first_text(&mut self, recorder: &mut Recorder, piece: Piece) {
        let text = flow::bytes(&recorder.text, piece);
        if flow::blank_start(text) < text.len() {
            self.add_contents(recorder);
        } else if self.before == Before::Gap && !text.is_ascii() {
            // no-break spaces are a blank line
            self.before = Before::Margin;
        }
    }

    /// Notes something that is shown.
    pub fn add_contents(&mut self, recorder: &mut Recorder) {
        if self.before == Before::Gap {
            recorder.name_placeholder(&local_name!("br"));
        }
        self.before = Before::Contents;
    }

    /// Notes that an element begins.
    pub fn begin(&mut self, recorder: &mut Recorder, run: Run) {
        match run {
            Run::Parted => self.before = Before::Margin,
            Run::Item => {
                if self.before == Before::Gap {
                    self.add_contents(recorder);
                }
                self.begin_place();
            }
            Run::Break if self.before == Before::Gap => self.before = Before::Margin,
            Run::Inline | Run::Apart | Run::Break | Run::Block | Run::List => {}
        }
    }

    /// Notes that a `dl` begins: the library makes a blank line before it.
    pub fn begin_descriptions(&mut self) {
        self.before = Before::Margin;
        self.is_after_margin = false;
    }

    /// Notes that lines begin which are rendered apart from those before.
    pub fn begin_place(&mut self) {
        self.before = Before::Start;
    }

    /// Notes that an element ends.
    pub fn end(&mut self, run: Run) {
        match run {
            Run::Parted => self.before = Before::End,
            Run::List if self.before == Before::Contents => self.before = Before::List,
            Run::Item if self.before == Before::Start => self.is_after_margin = false,
            Run::Item => {
                self.is_after_margin = matches!(self.before, Before::Margin | Before::End | Before::List | Before::Gap);
                self.before = Before::Contents;
            }
            Run::Inline | Run::Apart | Run::Break | Run::Block | Run::List => {}
        }
    }

    /// Has a blank line at the start of a node, or at its end, part what is before from contents that follow.
    pub fn part(&mut self, recorder: &mut Recorder, parent: Handle) {
        if matches!(self.before, Before::Contents | Before::List) {
            recorder.record_placeholder(parent);
            self.before = Before::Gap;
        }
    }

    /// Has a blank line in a node part a list from what is before it.
    pub fn part_list(&mut self, recorder: &mut Recorder, parent: Handle) {
        if matches!(self.before, Before::Contents | Before::End | Before::List) {
            // a line may be open
            let division = recorder.element(parent, record::HTML, &local_name!("div"));
            recorder.record_placeholder(division);
            self.before = Before::Gap;
        }
    }

    /// Begins a table that is drawn: the library makes a blank line before it.
    pub fn begin_drawn(&mut self) {
        self.before = Before::Margin;
    }

    /// Ends a table that is drawn in a node.
    pub fn end_drawn(&mut self, recorder: &mut Recorder, parent: Handle) {
        self.before = Before::Contents;
        self.part(recorder, parent);
    }

    /// Parts a recorded term from a description that ends with a margin.
    pub fn part_term(&mut self, recorder: &mut Recorder, term: Handle) {
        if std::mem::take(&mut self.is_after_margin) {
            self.part(recorder, term);
        }
    }
}

#[cfg(test)]
mod tests {
    use crate::config::plain;
    use crate::options::Options;
    use crate::outline;

    #[test]
    fn where_blank_lines_are() {
        const TABLE: &str = "<table border=1><tr><th>x<td>y</table>";
        const DRAWN: &str = "<table><tbody><tr><th>x</><td>y</></></></>";
        for (page, wanted) in [
            (format!("{TABLE}z"), format!("{DRAWN}<br></>z")),
            (format!("<div>{TABLE}</div> <div> <b>z</b></div>"), format!("<div>{DRAWN}<br></></> <div> <b>z</></>")),
            (format!("{TABLE}<p>z</p>"), format!("{DRAWN}<span></><p>z</>")),
            (format!("{TABLE}<br>z"), format!("{DRAWN}<span></><br></>z")),
            (format!("{TABLE}<hr>"), format!("{DRAWN}<br></><div>{}</>", "\u{2500}".repeat(20))),
            (format!("{TABLE}<ul><li>z</ul>"), format!("{DRAWN}<br></><ul><li>z</></><span></>")),
            (format!("<ul><li>{TABLE}<li>z</ul>"), format!("<ul><li>{DRAWN}<span></></><li>z</></><span></>")),
            ("a <ul><li>b<ul><li>c</ul></ul>d".to_owned(), "a <div><br></></><ul><li>b<ul><li>c</></></></><br></>d".to_owned()),
            ("<p>a</p><ul> <li>b</ul><p>c".to_owned(), "<p>a</><div><br></></><ul> <li>b</></><span></><p>c</>".to_owned()),
            ("<h3>a</h3><menu></menu>b".to_owned(), "<h3>a</><div><br></></><menu><ul></></>b".to_owned()),
            ("a<table><tr><td>b<tr><td>c</table>d".to_owned(), "a<div><br></><div><div><div>b</></><div><div>c</></></><br></></>d".to_owned()),
            ("<p>a<div>\u{a0}</div>b".to_owned(), "<p>a</><div> </>b".to_owned()),
            ("a<p><o>\u{a0}</o> </p>b<p>\u{a0}c".to_owned(), "a<div> <br></></>b<p>\u{a0}c</>".to_owned()),
            ("<dl><dd><dt>a<dd><p>b<dt>c<dd>d<dt>e</dl>".to_owned(), "<dl><dd></><dt>a</><dd><p>b</></><dt><br></>c</><dd>d</><dt>e</></>".to_owned()),
        ] {
            assert_eq!(outline::of(&plain().as_shown(Options::new()), &page), wanted, "{page}");
        }
    }
}
