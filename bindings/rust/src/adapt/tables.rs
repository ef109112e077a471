//! Which tables are drawn: those that have data in columns. The others lay out a page.

use super::contents::Contents;
use crate::tree::{Element, Id, Tree, NONE};
use html5ever::{local_name, namespace_url, ns, LocalName};

/// Which tables have others in them, by their numbers. It is found when it is first asked for.
#[derive(Default)]
pub(super) struct Nesting(Vec<bool>);

impl Nesting {
    /// Reports whether a table has another one in it.
    pub fn has_inner(&mut self, tree: &Tree, table: Id) -> bool {
        if self.0.is_empty() {
            self.0 = vec![false; tree.node_count()];
            for table in tree.tables.iter().copied().filter(|&node| is_table(tree, node)) {
                self.mark_around(tree, table);
            }
        }
        self.0[table as usize]
    }

    /// Marks the nodes around a table, up to the next table, or to one that is marked: so each node is marked once.
    fn mark_around(&mut self, tree: &Tree, table: Id) {
        let mut around = tree.parent(table);
        while around != NONE && !self.0[around as usize] {
            self.0[around as usize] = true;
            if is_table(tree, around) {
                break;
            }
            around = tree.parent(around);
        }
    }
}

fn is_table(tree: &Tree, node: Id) -> bool {
    matches!(tree.element(node), Some(Element { name: local_name!("table"), space: ns!(html), .. }))
}

/// Reports whether a `role` says that a table lays out a page.
fn is_presentation(role: &str) -> bool {
    let first = role.split_ascii_whitespace().next().unwrap_or_default();
    first.eq_ignore_ascii_case("presentation") || first.eq_ignore_ascii_case("none")
}

/// Reports whether a `summary` says that a table leads through pages, as DocBook's do.
fn is_navigation(summary: &str) -> bool {
    const WORD: &str = "navigation";
    summary.trim_start().get(..WORD.len()).map_or(false, |first| first.eq_ignore_ascii_case(WORD))
}

/// Reports whether a `border` is above 0: one that doesn't begin with a number is 1.
fn is_border(border: &str) -> bool {
    let border = border.trim_start_matches(|c: char| c.is_ascii_whitespace());
    let digits = border.strip_prefix('+').unwrap_or(border).bytes().take_while(u8::is_ascii_digit);
    let mut digits = digits.peekable();
    digits.peek().is_none() || digits.any(|digit| digit != b'0')
}

/// What is seen of a table's rows.
#[derive(Default)]
struct Seen {
    /// Whether something says that the table has data.
    is_marked: bool,
    /// Position of the cells that have something to show.
    position: Option<usize>,
    /// Whether cells in several positions have something to show.
    has_columns: bool,
    /// Number of rows in which several cells have something to show.
    full_rows: u32,
    /// Whether one of the first two cells with something to show in a row has a field of a form.
    has_field: bool,
}

impl Seen {
    fn is_data(&self) -> bool {
        self.has_columns && (self.is_marked || self.full_rows > 1 && !self.has_field)
    }

    /// Looks at the cells of a row, until it is known whether the table has data.
    fn look_at_row(&mut self, contents: Contents<'_>, row: Id) {
        let mut filled = 0;
        for (position, cell) in contents.cells_of(row).enumerate() {
            self.is_marked |= matches!(contents.tree.element(cell), Some(Element { name: local_name!("th"), .. }));
            if filled < 2 && contents.has_any(cell) {
                filled += 1;
                self.has_field = self.has_field || !self.is_marked && contents.has_field(cell);
                self.has_columns |= *self.position.get_or_insert(position) != position;
                self.full_rows += u32::from(filled == 2);
            }
            if self.is_data() {
                return;
            }
        }
    }
}

/// Reports whether a table without others in it has data in columns.
pub(super) fn is_data(contents: Contents<'_>, table: Id) -> bool {
    let tree = contents.tree;
    let says = |name: LocalName, is_said: fn(&str) -> bool| tree.attribute(table, &name).map_or(false, |value| is_said(value));
    if says(local_name!("role"), is_presentation) || says(local_name!("summary"), is_navigation) {
        return false;
    }
    let is_marked = says(local_name!("border"), is_border) || says(local_name!("summary"), |summary| !summary.trim().is_empty());
    let mut seen = Seen { is_marked, ..Seen::default() };
    for part in tree.children(table) {
        let name = match tree.element(part) {
            Some(Element { name, .. }) => name,
            None => continue,
        };
        match *name {
            local_name!("caption") => seen.is_marked = true,
            local_name!("thead") => seen.is_marked = true,
            local_name!("tbody") | local_name!("tfoot") => {}
            _ => continue,
        }
        let is_row = |element: &Element| element.name == local_name!("tr") && !contents.is_hidden(element);
        for row in tree.children(part).filter(|&row| tree.element(row).map_or(false, is_row)) {
            seen.look_at_row(contents, row);
            if seen.is_data() {
                return true;
            }
        }
    }
    seen.is_data()
}

#[cfg(test)]
mod tests {
    use super::super::contents::tests::{adaptation, element_of, tree_of};
    use super::*;

    fn is_drawn(page: &str) -> bool {
        let tree = tree_of(page);
        let table = element_of(&tree, "table");
        !Nesting::default().has_inner(&tree, table) && is_data(adaptation().contents(&tree, &tree.text), table)
    }

    #[test]
    fn tables_of_data() {
        for page in [
            "<table><tr><td>a<td>b<tr><td>c<td>d</table>",
            "<table><tr><td>a<tr><td>b<td>c<tbody><tr><td>d<td>e</table>",
            "<table><tr><th>a<td>b</table>",
            "<table><tr><td>a<td>b<th></table>",
            "<table><caption>a</caption><tr><td>b<td>c</table>",
            "<table><thead><tr><td>a<td>b</table>",
            "<table border><tr><td>a<td>b</table>",
            "<table border=' 01px'><tr><td>a<td>b</table>",
            "<table summary=s><tr><td>a<td>b</table>",
            "<table border=1><tr><td>a<td><tr><td><td>b</table>",
            "<table><tr><td>a<td><input type=hidden>b<tr><td>c<td>d</table>",
            "<table border=1><tr><td>a<td><input></table>",
            "<table role=grid border=1><tr><td>a<td><img src=i alt=b></table>",
        ] {
            assert!(is_drawn(page), "{page}");
        }
    }

    #[test]
    fn tables_of_layout() {
        for page in [
            "<table></table>",
            "<table><tr><td>a<td>b</table>",
            "<table><tr><td>a<td>b<tr><td>c<td>&nbsp;</table>",
            "<table><tr><td>a<td>b<tr style='display:none'><td>c<td>d</table>",
            "<table><tr><td>a<td>b<tr><td>c<td hidden>d</table>",
            "<table border=0><tr><td>a<td>b</table>",
            "<table summary=' '><tr><td>a<td>b</table>",
            "<table role=presentation border=1><tr><th>a<td>b<tr><td>c<td>d</table>",
            "<table role='NONE x'><tr><td>a<td>b<tr><td>c<td>d</table>",
            "<table border=1><tr><th>a<tr><td>b<td>&nbsp;</table>",
            "<table summary='Navigation header'><tr><th colspan=2>a<tr><td>b<td>c</table>",
            "<table><tr><td>a<td><input><tr><td>b<td><select></select></table>",
            "<table border=1><tr><th>a<td>b<tr><td>c<td><p><table><tr><td>d</table></table>",
        ] {
            assert!(!is_drawn(page), "{page}");
        }
    }

    #[test]
    fn tables_in_tables() {
        let tree = tree_of("<table id=a><tr><td><div><table><tr><td></table><table><tr><td><table></table></table></div><table></table></table><table></table>");
        let mut nesting = Nesting::default();
        let tables: Vec<bool> = tree.tables.iter().map(|&table| nesting.has_inner(&tree, table)).collect();
        assert_eq!(tables, [true, false, true, false, false, false]);
    }
}
