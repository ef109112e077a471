//! Texts in drawings (`svg`): browsers show them, and the library shows a drawing's title alone.

use crate::tree::{Element, Id, Tree};
use html5ever::{local_name, namespace_url, ns, LocalName};

/// An element in a drawing, by the texts that it shows.
#[derive(Clone, Copy, Debug, PartialEq, Eq)]
pub(super) enum Part {
    /// It shows texts, in a place of their own.
    Label,
    /// Nothing of it is shown where it is.
    Hidden,
    /// It shows the labels in it.
    Group,
}

fn is_named(tree: &Tree, node: Id, name: &LocalName) -> bool {
    matches!(tree.element(node), Some(element) if element.space == ns!(svg) && element.name == *name)
}

/// Reports whether an element in a `switch` follows another, which is shown in its place.
fn is_alternative(tree: &Tree, node: Id) -> bool {
    is_named(tree, tree.parent(node), &local_name!("switch")) && tree.siblings_before(node).any(|sibling| tree.element(sibling).is_some())
}

/// Reports whether an element of SVG shows texts in a place of their own.
pub(super) fn is_label(element: &Element) -> bool {
    matches!(element.name, local_name!("foreignObject") | local_name!("text") | local_name!("tspan"))
}

/// Returns how an element of SVG in a drawing is shown.
pub(super) fn part_of(tree: &Tree, node: Id, element: &Element) -> Part {
    match element.name {
        _ if is_alternative(tree, node) => Part::Hidden,
        _ if is_label(element) => Part::Label,
        local_name!("clipPath")
        | local_name!("defs")
        | local_name!("desc")
        | local_name!("marker")
        | local_name!("mask")
        | local_name!("metadata")
        | local_name!("pattern")
        | local_name!("script")
        | local_name!("style")
        | local_name!("symbol")
        | local_name!("title") => Part::Hidden,
        _ => Part::Group,
    }
}

/// Returns the titles at the start of a drawing, before any other element.
pub(super) fn titles(tree: &Tree, drawing: Id) -> impl Iterator<Item = Id> + '_ {
    let elements = tree.children(drawing).filter(|&child| tree.element(child).is_some());
    elements.take_while(|&child| is_named(tree, child, &local_name!("title")))
}

#[cfg(test)]
mod tests {
    use super::*;
    use crate::characters::Filter;
    use crate::tree::{Data, DOCUMENT, NONE};
    use html5ever::QualName;

    fn add(tree: &mut Tree, parent: Id, name: LocalName) -> Id {
        let node = tree.add_element(QualName::new(None, ns!(svg), name), Vec::new(), |_| true);
        tree.insert(parent, NONE, node);
        node
    }

    #[test]
    fn parts() {
        let mut tree = Tree::new(Filter::default());
        let switch = add(&mut tree, DOCUMENT, local_name!("switch"));
        let comment = tree.add(Data::Comment);
        tree.insert(switch, NONE, comment);
        let names = [local_name!("text"), local_name!("text"), local_name!("g")];
        let found = names.map(|name| add(&mut tree, switch, name)).map(|node| part_of(&tree, node, tree.element(node).unwrap()));
        assert_eq!(found, [Part::Label, Part::Hidden, Part::Hidden]);
        let names = [local_name!("desc"), local_name!("g"), local_name!("tspan")];
        let found = names.map(|name| add(&mut tree, DOCUMENT, name)).map(|node| part_of(&tree, node, tree.element(node).unwrap()));
        assert_eq!(found, [Part::Hidden, Part::Group, Part::Label]);
    }

    #[test]
    fn titles_at_the_start() {
        let mut tree = Tree::new(Filter::default());
        tree.insert_text(DOCUMENT, NONE, " ");
        let names = [local_name!("title"), local_name!("title"), local_name!("g"), local_name!("title")];
        let nodes = names.map(|name| add(&mut tree, DOCUMENT, name));
        assert_eq!(titles(&tree, DOCUMENT).collect::<Vec<_>>(), nodes[..2]);
    }
}
