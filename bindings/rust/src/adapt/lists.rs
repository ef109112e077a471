//! What is directly in a list without being an item of it: browsers show it, and the library shows items alone.

use crate::tree::{Data, Element, Id, Piece, Tree, NONE};
use html5ever::{local_name, namespace_url, ns};

/// The elements that are shown directly in an element.
#[derive(Clone, Copy, Debug, Default, PartialEq, Eq)]
pub(crate) enum Holds {
    /// All.
    #[default]
    Anything,
    /// The items of a list.
    Items,
    /// The terms and descriptions of a `dl`.
    Descriptions,
}

impl Holds {
    /// Reports whether an element is recorded directly in such an element; a `div` in a `dl` dissolves there.
    pub fn takes(self, element: &Element) -> bool {
        let is_html = element.space == ns!(html);
        match self {
            Holds::Anything => true,
            Holds::Items => is_html && element.name == local_name!("li"),
            Holds::Descriptions => is_html && matches!(element.name, local_name!("dd") | local_name!("div") | local_name!("dt")),
        }
    }
}

/// Which nodes have something to show in them, by their numbers. It is found when it is first asked for.
#[derive(Default)]
pub(crate) struct Filled(Vec<bool>);

impl Filled {
    /// Reports whether a node is or has a text that isn't blank, or an element that is shown without a text. The texts of the tree are ranges
    /// of `text`.
    pub fn has(&mut self, tree: &Tree, text: &[u8], node: Id) -> bool {
        if self.0.is_empty() {
            self.0 = vec![false; tree.node_count()];
            for node in tree.ids().filter(|&node| is_content(tree, text, node)) {
                self.fill(tree, node);
            }
        }
        self.0[node as usize]
    }

    /// Marks a node and those around it, up to one that is marked.
    fn fill(&mut self, tree: &Tree, node: Id) {
        let mut around = node;
        while around != NONE && !self.0[around as usize] {
            self.0[around as usize] = true;
            around = tree.parent(around);
        }
    }
}

/// Reports whether a piece of a text is white space alone.
pub(crate) fn is_blank(text: &[u8], (start, length): Piece) -> bool {
    text[start as usize..][..length as usize].iter().all(u8::is_ascii_whitespace)
}

fn is_content(tree: &Tree, text: &[u8], node: Id) -> bool {
    match tree.data(node) {
        Data::Text { start, length, .. } => !is_blank(text, (*start, *length)),
        Data::Element(Element { name, space, .. }) => {
            *space != ns!(html)
                || matches!(
                    *name,
                    local_name!("audio")
                        | local_name!("embed")
                        | local_name!("frame")
                        | local_name!("hr")
                        | local_name!("iframe")
                        | local_name!("img")
                        | local_name!("input")
                        | local_name!("object")
                        | local_name!("video")
                )
        }
        Data::Root | Data::Comment => false,
    }
}

#[cfg(test)]
mod tests {
    use super::*;
    use crate::characters::Filter;
    use crate::tree::DOCUMENT;
    use html5ever::QualName;

    #[test]
    fn what_is_filled() {
        let mut tree = Tree::new(Filter::default());
        let mut add = |parent, name| {
            let node = tree.add_element(QualName::new(None, ns!(html), name), Vec::new(), |_| true);
            tree.insert(parent, NONE, node);
            node
        };
        let outer = add(DOCUMENT, local_name!("div"));
        let (blank, image, text) = (add(outer, local_name!("p")), add(outer, local_name!("img")), add(outer, local_name!("b")));
        let empty = add(DOCUMENT, local_name!("ul"));
        tree.insert_text(blank, NONE, " \n");
        tree.insert_text(text, NONE, " x");
        let mut filled = Filled::default();
        assert_eq!([outer, blank, image, text, empty].map(|node| filled.has(&tree, &tree.text, node)), [true, false, true, true, false]);
    }

    #[test]
    fn what_lists_hold() {
        let mut tree = Tree::new(Filter::default());
        let mut takes = |holds: Holds, space, name| {
            let node = tree.add_element(QualName::new(None, space, name), Vec::new(), |_| true);
            holds.takes(tree.element(node).unwrap())
        };
        assert!(takes(Holds::Items, ns!(html), local_name!("li")) && !takes(Holds::Items, ns!(html), local_name!("ol")));
        assert!(takes(Holds::Descriptions, ns!(html), local_name!("div")) && !takes(Holds::Descriptions, ns!(html), local_name!("p")));
        assert!(!takes(Holds::Items, ns!(svg), local_name!("li")));
    }
}
