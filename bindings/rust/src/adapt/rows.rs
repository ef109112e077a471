//! Tables that aren't drawn: their parts are divisions, and a row of short cells is one line.

use super::contents::{is_unseen, text_of, Cell, Contents, Run};
use super::elements::Part;
use super::tables;
use super::{Adaptation, Adapter, Context, Opened};
use crate::options::Tables;
use crate::pass::Entered;
use crate::record::{self, Handle, Recorder};
use crate::tree::{Id, Piece, Tree};
use html5ever::{local_name, LocalName};

/// Between two cells on a line.
const GAP: &str = "  ";

/// Where a place is in a row that is one line, or in a cell that has nothing to show.
#[derive(Clone, Copy, Debug, Default, PartialEq, Eq)]
pub(super) enum Line {
    /// In none.
    #[default]
    Elsewhere,
    /// In the row.
    Row,
    /// In a cell.
    Cell,
}

impl Line {
    /// Returns the place in an element there.
    pub fn inside(self) -> Line {
        if self == Line::Cell {
            Line::Cell
        } else {
            Line::Elsewhere
        }
    }
}

/// How far a cell is recorded.
#[derive(Clone, Copy, Debug, Default, PartialEq, Eq)]
enum At {
    /// Nothing that is shown is recorded.
    Start,
    Middle,
    /// All that is shown is recorded.
    #[default]
    End,
}

/// The row that is being recorded as a line, or the cell that has nothing to show.
#[derive(Default)]
pub(super) struct Row {
    /// Its cells that have something to show.
    cells: Vec<(Id, Run)>,
    /// Number of these that are recorded.
    count: usize,
    first: Option<Id>,
    last: Option<Id>,
    at: At,
    /// The class and the text between two cells, once they are kept.
    gap: Option<(Piece, Piece)>,
}

impl Row {
    /// Plans to record a row as a line of at most so many columns. Returns whether it is one: of several cells, all short.
    fn plan(&mut self, contents: Contents<'_>, row: Id, columns: u32) -> bool {
        self.cells.clear();
        (self.count, self.at) = (0, At::End);
        let mut rest = columns;
        for cell in contents.cells_of(row) {
            let run = match contents.of_cell(cell, rest) {
                Cell::Nothing => continue,
                Cell::Inline(run) => run,
                Cell::Block => return false,
            };
            let gap = if self.cells.is_empty() { 0 } else { GAP.len() as u32 };
            match rest.checked_sub(run.columns + gap) {
                Some(columns) => rest = columns,
                None => return false,
            }
            self.cells.push((cell, run));
        }
        self.cells.len() > 1
    }

    /// Enters a cell. Returns whether it has something to show.
    fn enter(&mut self, cell: Id) -> bool {
        match self.cells.get(self.count) {
            Some(&(next, run)) if next == cell => {
                self.count += 1;
                (self.first, self.last, self.at) = (Some(run.first), Some(run.last), At::Start);
                true
            }
            _ => {
                self.enter_empty();
                false
            }
        }
    }

    /// Enters a cell that has nothing to show.
    fn enter_empty(&mut self) {
        (self.first, self.last, self.at) = (None, None, At::End);
    }

    /// Reports whether nothing of a cell that is shown is recorded.
    pub fn is_at_start(&self) -> bool {
        self.at == At::Start
    }

    /// Reports whether all of a cell that is shown is recorded.
    pub fn is_at_end(&self) -> bool {
        self.at == At::End
    }

    /// Notes that a node of a cell is reached.
    pub fn reach(&mut self, node: Id) {
        if self.last == Some(node) {
            self.at = At::End;
        } else if self.first == Some(node) {
            self.at = At::Middle;
        }
    }

    /// Returns what is recorded of a text: no white space at the start and the end of a cell, nor between cells.
    pub fn cut(&mut self, text: &[u8], node: Id, piece: Piece) -> Option<Piece> {
        if is_unseen(text, piece) {
            return (self.at == At::Middle).then(|| piece);
        }
        let whole = text_of(text, piece);
        let from = if self.at == At::Start { whole.trim_start() } else { whole };
        let start = piece.0 + (whole.len() - from.len()) as u32;
        self.at = At::Middle;
        self.reach(node);
        let shown = if self.at == At::End { from.trim_end() } else { from };
        Some((start, shown.len() as u32))
    }
}

/// Returns the private class of what was a part of a table.
fn class_of(name: &LocalName) -> &'static str {
    match *name {
        local_name!("caption") => "\0caption",
        local_name!("table") => "\0table",
        local_name!("tbody") => "\0tbody",
        local_name!("td") => "\0td",
        local_name!("tfoot") => "\0tfoot",
        local_name!("th") => "\0th",
        local_name!("thead") => "\0thead",
        local_name!("tr") => "\0tr",
        _ => "",
    }
}

impl Adaptation {
    /// Returns the contents of a tree, whose texts are ranges of `text`.
    pub(super) fn contents<'a>(&'a self, tree: &'a Tree, text: &'a [u8]) -> Contents<'a> {
        Contents { tree, text, adaptation: self }
    }
}

impl<'a> Adapter<'a> {
    /// Reports whether a table is drawn as one. The texts of the tree are ranges of `text`.
    #[inline(never)]
    pub(super) fn is_drawn(&mut self, text: &[u8], table: Id) -> bool {
        match self.adaptation.tables {
            Tables::All => true,
            Tables::None => false,
            Tables::Data => !self.nesting.has_inner(self.tree, table) && tables::is_data(self.adaptation.contents(self.tree, text), table),
        }
    }

    /// Records a part of a table that isn't drawn, or a part outside of a table, as a division; the cell of a row that is a line as a
    /// piece of that.
    #[inline(never)]
    pub(super) fn open_division(&mut self, recorder: &mut Recorder, opened: &Opened<'_>, part: Part, around: Line, mut context: Context) -> Entered {
        let mut name = local_name!("div");
        let contents = self.adaptation.contents(self.tree, &recorder.text);
        match part {
            Part::Row => {
                let room = context.margins.room(self.adaptation.columns);
                if !self.adaptation.stacks_cells && self.row.plan(contents, opened.node, room) {
                    context.line = Line::Row;
                }
            }
            Part::Cell if around == Line::Row => {
                context.line = Line::Cell;
                let is_later = self.row.count > 0;
                if self.row.enter(opened.node) && is_later {
                    self.record_gap(recorder, opened.parent);
                }
                name = local_name!("span");
            }
            Part::Cell if !contents.has_any(opened.node) => {
                context.line = Line::Cell;
                self.row.enter_empty();
            }
            _ => {}
        }
        let class = if self.adaptation.names_parts { class_of(&opened.element.name) } else { "" };
        Entered::new(self.record_as(recorder, opened, &name, class), context)
    }

    /// Records the columns between two cells of a row.
    fn record_gap(&mut self, recorder: &mut Recorder, row: Handle) {
        let rules = &mut self.rules;
        let (class, spaces) = *self.row.gap.get_or_insert_with(|| {
            let mut class = String::new();
            rules.keep_spaces(&mut class);
            (recorder.keep(&class), recorder.keep(GAP))
        });
        let gap = recorder.element(row, record::HTML, &local_name!("span"));
        recorder.attribute_of_piece(gap, &local_name!("class"), class);
        recorder.text(gap, spaces);
    }
}

#[cfg(test)]
mod tests {
    use super::super::contents::tests::{adaptation, tree_of};
    use super::*;
    use crate::characters::Filter;
    use crate::pass;
    use crate::records::Step;
    use std::mem;

    /// Returns what is recorded in the body of a page: elements with their classes, and texts; without the place of a blank line at its end.
    fn recorded(page: &str, by: Adaptation) -> String {
        let mut tree = tree_of(page);
        let text = mem::take(&mut tree.text);
        let (recorder, _) = pass::record(&tree, Recorder::new(text, Filter::default()), Some(by));
        let mut children: Vec<Vec<String>> = vec![Vec::new()];
        let mut nodes: Vec<(u32, String, String)> = vec![(0, String::new(), String::new())];
        for Step { kind, node, name, name_length, value, value_length, .. } in recorder.steps {
            let piece = |piece| text_of(&recorder.text, piece).to_owned();
            match kind {
                16 => {
                    children[node as usize].push(format!("\u{1}{}\u{1}", nodes.len()));
                    nodes.push((node, piece((name, name_length)), String::new()));
                    children.push(Vec::new());
                }
                4 => nodes[node as usize].2 += &format!(" {}={}", piece((name, name_length)), piece((value, value_length)).replace('\0', "~")),
                6 => children[node as usize].push(piece((value, value_length))),
                _ => {}
            }
        }
        for (number, (parent, name, attributes)) in nodes.into_iter().enumerate().skip(1).rev() {
            let shown = format!("<{name}{attributes}>{}</>", children[number].concat());
            let mark = format!("\u{1}{number}\u{1}");
            children[parent as usize].iter_mut().filter(|child| **child == mark).for_each(|child| *child = shown.clone());
        }
        let all = children[0].concat();
        let body = all.split_once("<body>").unwrap().1;
        let body = body.strip_suffix("</></>").unwrap();
        match body.rsplit_once("<span></>") {
            Some((before, after)) if after.bytes().all(|byte| b"</>".contains(&byte)) => [before, after].concat(),
            _ => body.to_owned(),
        }
    }

    const BLANK: &str = "<span class=~0>  </>";

    #[test]
    fn rows_of_short_cells_are_lines() {
        let page = "<table><tr>\n<td> a <b>b</b> \n</td> <td>&nbsp;<td><img src=i alt=c> d&nbsp;<td>\n<script>x</script><i>e</i>\n</table>";
        let row = format!("<div><span>a <b>b</></><span></>{BLANK}<span><img src=i alt=c></> d</>{BLANK}<span><script></><i>e</></></>");
        assert_eq!(recorded(page, adaptation()), format!("<div><div>{row}</></>"));
    }

    #[test]
    fn other_rows_are_blocks() {
        for (page, wanted) in [
            ("<table><tr><td>abcdefghij<td>abcdefghi</table>", "<div><div><div><div>abcdefghij</><div>abcdefghi</></></></>"),
            ("<table><tr><td>a<td>b<br></table>", "<div><div><div><div>a</><div>b<br></></></></></>"),
            ("<table><tr><td> a <td> &nbsp; <td></table>", "<div><div><div><div> a </><div></><div></></></></>"),
            ("<table><tr><td>a<td><table><tr><td>b<td>c</table></table>", &format!("<div><div><div><div>a</><div><div><div><div><span>b</>{BLANK}<span>c</></></></></></></></>")),
        ] {
            assert_eq!(recorded(page, adaptation()), wanted, "{page}");
        }
        let stacked = Adaptation { stacks_cells: true, ..adaptation() };
        assert_eq!(recorded("<table><tr><td>a<td>b</table>", stacked), "<div><div><div><div>a</><div>b</></></></>");
    }

    #[test]
    fn room_is_what_prefixes_leave() {
        let row = "<table><tr><td>abcdefghi<td>abcdefghi</table>";
        assert!(recorded(row, adaptation()).contains(BLANK));
        assert!(!recorded(&format!("<blockquote>{row}"), adaptation()).contains(BLANK));
    }

    #[test]
    fn parts_keep_their_rules() {
        let page = "<table id=a><caption>b</caption><thead><tr class=c><th>d</table>";
        assert_eq!(recorded(page, adaptation()), "<div id=a><div>b</><div><div class=c><div>d</></></></>");
        let named = Adaptation { names_parts: true, ..adaptation() };
        assert_eq!(recorded(page, named), "<div id=a class=~table><div class=~caption>b</><div class=~thead><div class=c ~tr><div class=~th>d</></></></>");
    }

    #[test]
    fn drawn_tables_are_recorded_as_they_are() {
        let page = "<table><tr><td> <td>a</table>";
        let drawn = Adaptation { tables: Tables::All, ..adaptation() };
        assert_eq!(recorded(page, drawn), "<table><tbody><tr><td> </><td>a</></></></>");
        let data = "<table border=1><caption>a</caption><tr><td>b<td>c</table>";
        assert_eq!(recorded(data, adaptation()), "<table><caption>a</><tbody><tr><td>b</><td>c</></></></>");
        let none = Adaptation { tables: Tables::None, ..adaptation() };
        assert!(!recorded(data, none).contains("<table>"));
    }

    #[test]
    fn cells_of_drawn_tables() {
        let page = "<table border=1><tr><td class=k colspan=2>a<td rowspan=2 id=i>b<td hidden>c<td title=t>d<td style='visibility:hidden'>e<td><b>f</b><th>g</table>";
        let row = "<td class=k colspan=2>a</><td rowspan=2 id=i>b</><td>d</><td></><td><b>f</></><th>g</>";
        assert_eq!(recorded(page, adaptation()), format!("<table><tbody><tr>{row}</></></>"));
    }

    #[test]
    fn no_visible_text_is_lost() {
        for cell in ["<span style='visibility:hidden'>a</span> b", "<span style='font-size:0'>a</span><i>b</i><s style='font-size:0'>c</s>", "<q></q>b", "<button>b</button>", "b<img src=i style='visibility:hidden' alt=c>"] {
            let shown = recorded(&format!("<table><tr><td>{cell}<td>d</table>"), adaptation());
            assert!(shown.contains('b') && shown.contains(&format!("{BLANK}<span>d</>")), "{cell}: {shown}");
        }
    }
}
