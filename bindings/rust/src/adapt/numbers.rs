//! Numbers of the items of an `ol`.

use super::lists::{is_blank, Holds};
use crate::record::Handle;
use crate::tree::{Data, Id, Tree};
use html5ever::{local_name, LocalName};

/// The numbers of a list's items, as these are recorded: the library counts upwards from the start of a list.
#[derive(Clone, Copy, Debug)]
pub(crate) struct Numbers {
    /// The node that the list is put in.
    pub parent: Handle,
    /// The number of the next item, unless it has one of its own.
    next: i64,
    /// What is added from an item to the next.
    step: i64,
    /// The number that the library gives the next item.
    counted: i64,
}

/// The first number of a list, the widest one, and how it counts.
pub(crate) struct Plan {
    pub first: i64,
    pub columns: u8,
    step: i64,
}

/// Reads an integer as HTML has it: what follows the digits is passed over. One of more than 32 bits says nothing.
fn integer(text: &str) -> Option<i64> {
    let text = text.trim_start_matches(|letter: char| letter.is_ascii_whitespace());
    let unsigned = text.strip_prefix(|letter| letter == '-' || letter == '+').unwrap_or(text);
    let digits = unsigned.bytes().take_while(u8::is_ascii_digit).count();
    let end = text.len() - unsigned.len() + digits;
    text[..end].parse::<i32>().ok().map(i64::from)
}

fn number_of(tree: &Tree, node: Id, name: &LocalName) -> Option<i64> {
    tree.attribute(node, name).and_then(|value| integer(value))
}

/// Reports whether a node is white space or a comment.
fn is_nothing(tree: &Tree, text: &[u8], node: Id) -> bool {
    match *tree.data(node) {
        Data::Text { start, length, .. } => is_blank(text, (start, length)),
        Data::Element(_) => false,
        Data::Root | Data::Comment => true,
    }
}

/// Returns the number of columns of a number and the full stop and space after it.
fn columns_of(number: i64) -> u8 {
    let digits = std::iter::successors(Some(number.unsigned_abs()), |&number| (number >= 10).then(|| number / 10)).count() as u8;
    digits + u8::from(number < 0) + 2
}

impl Plan {
    /// Returns how the items of an `ol` are numbered. What precedes its first item without being one counts as an item.
    /// The texts of the tree are ranges of `text`.
    pub fn of(tree: &Tree, text: &[u8], node: Id, is_shown: impl Fn(Id) -> bool) -> Plan {
        let is_item = |&child: &Id| matches!(tree.element(child), Some(element) if Holds::Items.takes(element));
        let is_shown = &is_shown;
        let items = || tree.children(node).filter(is_item).filter(move |&item| is_shown(item));
        let begins_loose = tree.children(node).find(|&child| !is_nothing(tree, text, child)).map_or(false, |first| !is_item(&first));
        let is_reversed = tree.attribute(node, &local_name!("reversed")).is_some();
        let count = || items().count() as i64;
        let step = if is_reversed { -1 } else { 1 };
        let start = number_of(tree, node, &local_name!("start")).unwrap_or_else(|| if is_reversed { count() } else { 1 });
        let (mut least, mut most) = (start, start);
        let mut widen = |number: i64| (least, most) = (least.min(number), most.max(number));
        if begins_loose {
            widen(start + step * count());
        }
        let (mut next, mut first) = (start, None);
        for item in items() {
            let number = own_number(tree, item).unwrap_or(next);
            first = first.or(Some(number));
            widen(number);
            next = number + step;
        }
        let columns = columns_of(least).max(columns_of(most));
        Plan { first: first.filter(|_| !begins_loose).unwrap_or(start), columns, step }
    }

    /// Returns the numbers of a list that is put in a node.
    pub fn numbers(&self, parent: Handle) -> Numbers {
        Numbers { parent, next: self.first, step: self.step, counted: self.first }
    }
}

impl Numbers {
    /// Counts an item. Returns its number, if it isn't the one that the library gives it.
    pub fn count(&mut self, own: Option<i64>) -> Option<i64> {
        let number = own.unwrap_or(self.next);
        let jumps = number != self.counted;
        (self.next, self.counted) = (number + self.step, number + 1);
        jumps.then(|| number)
    }
}

/// Returns the number that an item has of its own.
pub(crate) fn own_number(tree: &Tree, item: Id) -> Option<i64> {
    number_of(tree, item, &local_name!("value"))
}

#[cfg(test)]
mod tests {
    use super::*;

    #[test]
    fn integers() {
        for (text, wanted) in [("5", Some(5)), (" -3x", Some(-3)), ("+7.9", Some(7)), ("", None), ("x", None), ("-", None), ("99999999999", None)] {
            assert_eq!(integer(text), wanted, "{text}");
        }
    }

    #[test]
    fn jumps() {
        let mut numbers = Plan { first: 3, columns: 3, step: -1 }.numbers(0);
        assert_eq!([numbers.count(None), numbers.count(None), numbers.count(Some(3)), numbers.count(Some(4))], [None, Some(2), None, None]);
    }
}
