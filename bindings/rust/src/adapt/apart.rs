//! Rows of a table that is drawn which lines part from the rows beside them: those that head others, and those of a foot.

use super::contents::{is_unseen, Contents, Shown};
use crate::tree::{Data, Element, Id, Tree, NONE};
use html5ever::{local_name, namespace_url, ns, LocalName};

/// Minimum number of bold cells in a row that heads others without saying so.
const BOLD_CELLS: usize = 2;

/// Reports whether a line parts a row of a table from the rows beside it: it is in a `thead` or a `tfoot`, all its cells are `th`, or it is the
/// first one, as `is_first` says, and all in it is bold.
pub(super) fn is_apart(contents: Contents<'_>, row: Id, is_first: bool) -> bool {
    let tree = contents.tree;
    let section = tree.parent(row);
    if is_one_of(tree, section, &[local_name!("thead"), local_name!("tfoot")]) {
        return true;
    }
    let mut cells = contents.cells_of(row).peekable();
    let has_cells = cells.peek().is_some();
    has_cells && cells.all(|cell| is_one_of(tree, cell, &[local_name!("th")])) || is_first && is_bold(contents, row)
}

fn is_one_of(tree: &Tree, node: Id, names: &[LocalName]) -> bool {
    matches!(tree.element(node), Some(Element { name, space: ns!(html), .. }) if names.contains(name))
}

/// Reports whether all that is shown in a row is bold, in several cells.
fn is_bold(contents: Contents<'_>, row: Id) -> bool {
    let mut count = 0;
    for cell in contents.cells_of(row) {
        match contents.has_bold_alone(cell) {
            Some(true) => count += 1,
            Some(false) => return false,
            None => {}
        }
    }
    count >= BOLD_CELLS
}

impl Contents<'_> {
    /// Reports whether all that a cell shows is bold; `None` if it shows nothing.
    fn has_bold_alone(self, cell: Id) -> Option<bool> {
        let mut has_any = None;
        let mut node = self.tree.first_child(cell);
        while node != NONE {
            let is_entered = match self.tree.data(node) {
                &Data::Text { start, length, .. } if !is_unseen(self.text, (start, length)) => return Some(false),
                Data::Element(Element { name: local_name!("b") | local_name!("strong"), space: ns!(html), .. }) => {
                    has_any = has_any.or_else(|| self.has_any(node).then(|| true));
                    false
                }
                Data::Element(element) => match self.shown(node, element) {
                    Shown::Nothing | Shown::Image => false,
                    Shown::Signs | Shown::Table | Shown::Text => return Some(false),
                    Shown::Block | Shown::Contents | Shown::Link => true,
                },
                _ => false,
            };
            node = self.next(node, is_entered, cell);
        }
        has_any
    }
}
