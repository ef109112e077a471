//! A page as a tree: an arena of nodes over one text.
//!
//! A node is a number. Its children are a doubly linked list, so that a node can be moved, and children can be handed over, without
//! going over siblings. The bytes of all texts are in one vector, and a text is a range of it, as the records of the library want
//! it. A text that is appended to one whose bytes aren't the vector's last becomes a piece of its own, which continues that one.

use crate::characters::Filter;
use crate::classes::Class;
use html5ever::{namespace_url, ns, Attribute, LocalName, Namespace, QualName};
use std::mem::size_of;
use tendril::StrTendril;

/// Number of a node.
pub(crate) type Id = u32;

/// No node.
pub(crate) const NONE: Id = Id::MAX;

/// The document's number.
pub(crate) const DOCUMENT: Id = 0;

/// Maximum number of attributes of an element.
pub(crate) const MAX_ATTRIBUTES: usize = 1_000;

/// An attribute that is asked for.
#[derive(Clone, Debug)]
pub(crate) struct Attr {
    pub name: LocalName,
    pub value: StrTendril,
}

/// An element. Its attributes are a range of the tree's.
#[derive(Debug)]
pub(crate) struct Element {
    pub space: Namespace,
    pub name: LocalName,
    /// The class of HTML elements of this name.
    pub class: Class,
    attributes: u32,
    attribute_count: u16,
    /// Whether it is an HTML integration point of MathML's `annotation-xml`.
    pub is_integration_point: bool,
}

impl Element {
    /// Returns an element whose attributes are `count` of the tree's, from the one at `attributes` on.
    #[inline]
    fn new(space: Namespace, name: LocalName, class: Class, attributes: usize, count: usize) -> Element {
        Element { space, name, class, attributes: attributes as u32, attribute_count: count as u16, is_integration_point: false }
    }

    /// Reports whether attributes were asked for that the element has.
    #[inline]
    pub fn has_attributes(&self) -> bool {
        self.attribute_count > 0
    }
}

/// What a node is.
#[derive(Debug)]
pub(crate) enum Data {
    /// The document, or the contents of a template.
    Root,
    /// An element.
    Element(Element),
    /// A range of the text.
    Text { start: u32, length: u32, continues: bool },
    /// A comment or a processing instruction. It parts the texts around it, whatever it says.
    Comment,
}

#[derive(Debug)]
struct Node {
    parent: Id,
    previous: Id,
    next: Id,
    first: Id,
    last: Id,
    data: Data,
}

/// Number of bytes from which on memory is resized in place, and not copied with what of it isn't used yet.
const LARGE: usize = 1 << 17;

/// Makes room in a vector for so many more values. Returns whether there is memory for them.
fn make_room<T>(values: &mut Vec<T>, more: usize) -> bool {
    if values.capacity() * size_of::<T>() >= LARGE {
        return values.try_reserve(more).is_ok();
    }
    let mut moved = Vec::new();
    let has_room = moved.try_reserve_exact(values.len() + more).is_ok();
    if has_room {
        moved.append(values);
        *values = moved;
    }
    has_room
}

/// A range of the text: where it starts, and its length.
pub(crate) type Piece = (u32, u32);

/// A page's nodes, and their text.
#[derive(Debug)]
pub(crate) struct Tree {
    nodes: Vec<Node>,
    attributes: Vec<Attr>,
    /// The elements named `table`.
    pub tables: Vec<Id>,
    pub text: Vec<u8>,
    pub filter: Filter,
    /// Whether the text passes what 32 bits can name, or memory is out.
    pub is_out_of_memory: bool,
}

impl Tree {
    /// Returns the tree of a document without children, whose texts go through a filter.
    pub fn new(filter: Filter) -> Tree {
        let mut tree = Tree { nodes: Vec::new(), attributes: Vec::new(), tables: Vec::new(), text: Vec::new(), filter, is_out_of_memory: false };
        tree.add(Data::Root);
        tree
    }

    #[inline]
    pub fn node_count(&self) -> usize {
        self.nodes.len()
    }

    #[inline]
    pub fn attribute_count(&self) -> usize {
        self.attributes.len()
    }

    /// Returns the number of the node that was added last.
    pub fn last_id(&self) -> Id {
        self.nodes.len() as Id - 1
    }

    /// Makes room for so many nodes and attributes. Returns whether there is memory for them.
    pub fn make_room(&mut self, nodes: usize, attributes: usize) -> bool {
        make_room(&mut self.nodes, nodes) && make_room(&mut self.attributes, attributes)
    }

    /// Adds a node that has no parent.
    #[inline]
    pub fn add(&mut self, data: Data) -> Id {
        let node = self.nodes.len() as Id;
        self.nodes.push(Node { parent: NONE, previous: NONE, next: NONE, first: NONE, last: NONE, data });
        node
    }

    /// Adds an element that has no parent.
    #[cfg(test)]
    pub fn add_element(&mut self, name: QualName, attributes: impl IntoIterator<Item = Attribute>, is_asked: impl Fn(&LocalName) -> bool) -> Id {
        let class = crate::classes::class_of(&name.local);
        self.add_element_of(class, name, attributes, is_asked)
    }

    /// Adds an element of a class that has no parent, with those of the attributes that are asked for.
    #[inline]
    pub fn add_element_of(&mut self, class: Class, name: QualName, attributes: impl IntoIterator<Item = Attribute>, is_asked: impl Fn(&LocalName) -> bool) -> Id {
        let start = self.attributes.len();
        let asked = attributes.into_iter().filter(|attribute| is_asked(&attribute.name.local));
        self.attributes.extend(asked.take(MAX_ATTRIBUTES).map(|attribute| Attr { name: attribute.name.local, value: attribute.value }));
        self.add(Data::Element(Element::new(name.ns, name.local, class, start, self.attributes.len() - start)))
    }

    /// Appends an HTML element without attributes to the children of a node.
    #[inline]
    pub fn append_plain(&mut self, parent: Id, name: LocalName, class: Class) -> Id {
        self.add_child(parent, Data::Element(Element::new(ns!(html), name, class, self.attributes.len(), 0)))
    }

    /// Adds a node after the children of another.
    #[inline]
    fn add_child(&mut self, parent: Id, data: Data) -> Id {
        let node = self.nodes.len() as Id;
        let previous = std::mem::replace(&mut self.nodes[parent as usize].last, node);
        match previous {
            NONE => self.nodes[parent as usize].first = node,
            _ => self.nodes[previous as usize].next = node,
        }
        self.nodes.push(Node { parent, previous, next: NONE, first: NONE, last: NONE, data });
        node
    }

    /// Gives an element an attribute, unless it has one of that name or `MAX_ATTRIBUTES`.
    pub fn add_attribute_if_missing(&mut self, node: Id, attribute: Attr) {
        let found = self.attributes_of(node);
        if found.len() >= MAX_ATTRIBUTES || found.iter().any(|other| other.name == attribute.name) {
            return;
        }
        // the range moves to the end of the tree's attributes, where it can grow
        let end = self.attributes.len();
        if let Data::Element(element) = &mut self.nodes[node as usize].data {
            let range = element.attributes as usize..element.attributes as usize + element.attribute_count as usize;
            if range.end != end {
                element.attributes = end as u32;
                self.attributes.extend_from_within(range);
            }
            element.attribute_count += 1;
            self.attributes.push(attribute);
        }
    }

    pub fn data(&self, node: Id) -> &Data {
        &self.nodes[node as usize].data
    }

    /// Returns a node's element, if it is one.
    pub fn element(&self, node: Id) -> Option<&Element> {
        match self.data(node) {
            Data::Element(element) => Some(element),
            _ => None,
        }
    }

    /// Returns a node's element for changes, if it is one.
    pub fn element_mut(&mut self, node: Id) -> Option<&mut Element> {
        match &mut self.nodes[node as usize].data {
            Data::Element(element) => Some(element),
            _ => None,
        }
    }

    /// Returns the attributes that were asked for of an element; none of another node.
    #[inline]
    pub fn attributes_of(&self, node: Id) -> &[Attr] {
        self.element(node).map_or(&[], |element| self.attributes(element))
    }

    /// Returns the attributes that were asked for of an element.
    #[inline]
    pub fn attributes(&self, element: &Element) -> &[Attr] {
        &self.attributes[element.attributes as usize..][..element.attribute_count as usize]
    }

    /// Returns the value of an element's attribute.
    #[inline]
    pub fn attribute(&self, node: Id, name: &LocalName) -> Option<&StrTendril> {
        self.attributes_of(node).iter().find(|attribute| attribute.name == *name).map(|attribute| &attribute.value)
    }

    /// Returns the range of a text; `None` of another node.
    pub fn piece(&self, node: Id) -> Option<Piece> {
        match *self.data(node) {
            Data::Text { start, length, .. } => Some((start, length)),
            _ => None,
        }
    }

    /// Returns the range of the text that is a node's only child; `None` if it has other children, or none.
    #[inline]
    pub fn only_text(&self, node: Id) -> Option<Piece> {
        let Node { first, last, .. } = self.nodes[node as usize];
        match self.nodes.get(first as usize) {
            Some(&Node { data: Data::Text { start, length, .. }, .. }) if first == last => Some((start, length)),
            _ => None,
        }
    }

    pub fn first_child(&self, node: Id) -> Id {
        self.nodes[node as usize].first
    }

    pub fn next_sibling(&self, node: Id) -> Id {
        self.nodes[node as usize].next
    }

    pub fn parent(&self, node: Id) -> Id {
        self.nodes[node as usize].parent
    }

    /// Returns the children of a node.
    pub fn children(&self, node: Id) -> impl Iterator<Item = Id> + '_ {
        let first = self.first_child(node);
        std::iter::successors((first != NONE).then(|| first), move |&child| {
            let next = self.next_sibling(child);
            (next != NONE).then(|| next)
        })
    }

    /// Returns the siblings that precede a node, the nearest one first.
    pub fn siblings_before(&self, node: Id) -> impl Iterator<Item = Id> + '_ {
        let before = move |node: Id| Some(self.nodes[node as usize].previous).filter(|&previous| previous != NONE);
        std::iter::successors(before(node), move |&sibling| before(sibling))
    }

    /// Returns the nodes in the order in which they were made.
    pub fn ids(&self) -> impl Iterator<Item = Id> {
        0..self.nodes.len() as Id
    }

    /// Appends a node, which has no parent, to the children of another.
    #[inline]
    pub fn append(&mut self, parent: Id, node: Id) {
        let previous = std::mem::replace(&mut self.nodes[parent as usize].last, node);
        let links = &mut self.nodes[node as usize];
        (links.parent, links.previous) = (parent, previous);
        match previous {
            NONE => self.nodes[parent as usize].first = node,
            _ => self.nodes[previous as usize].next = node,
        }
    }

    /// Appends a node, which has no parent, to the children of another, or inserts it before one of these.
    pub fn insert(&mut self, parent: Id, before: Id, node: Id) {
        if before == NONE {
            return self.append(parent, node);
        }
        let previous = std::mem::replace(&mut self.nodes[before as usize].previous, node);
        let links = &mut self.nodes[node as usize];
        (links.parent, links.previous, links.next) = (parent, previous, before);
        match previous {
            NONE => self.nodes[parent as usize].first = node,
            _ => self.nodes[previous as usize].next = node,
        }
    }

    /// Takes a node out of its parent's children, if it has a parent.
    pub fn detach(&mut self, node: Id) {
        let Node { parent, previous, next, .. } = self.nodes[node as usize];
        if parent == NONE {
            return;
        }
        match previous {
            NONE => self.nodes[parent as usize].first = next,
            _ => self.nodes[previous as usize].next = next,
        }
        match next {
            NONE => self.nodes[parent as usize].last = previous,
            _ => self.nodes[next as usize].previous = previous,
        }
        let links = &mut self.nodes[node as usize];
        (links.parent, links.previous, links.next) = (NONE, NONE, NONE);
    }

    /// Moves all children of a node after those of another.
    pub fn move_children(&mut self, from: Id, to: Id) {
        let (first, last) = (self.nodes[from as usize].first, self.nodes[from as usize].last);
        if first == NONE {
            return;
        }
        let mut child = first;
        while child != NONE {
            self.nodes[child as usize].parent = to;
            child = self.nodes[child as usize].next;
        }
        let end = self.nodes[to as usize].last;
        self.nodes[first as usize].previous = end;
        match end {
            NONE => self.nodes[to as usize].first = first,
            _ => self.nodes[end as usize].next = first,
        }
        self.nodes[to as usize].last = last;
        (self.nodes[from as usize].first, self.nodes[from as usize].last) = (NONE, NONE);
    }

    /// Appends a text to the children of a node. It joins one that is the last of these.
    #[inline]
    pub fn append_text(&mut self, parent: Id, text: &str) {
        let (start, length) = self.keep(text);
        let last = self.nodes[parent as usize].last;
        if length > 0 && !self.join_text(last, start, length) {
            let continues = last != NONE && matches!(self.nodes[last as usize].data, Data::Text { .. });
            self.add_child(parent, Data::Text { start, length, continues });
        }
    }

    /// Adds a piece to a text that it is directly after in the vector. Returns whether the node is such a text.
    #[inline]
    fn join_text(&mut self, node: Id, piece: u32, more: u32) -> bool {
        match self.nodes.get_mut(node as usize).map(|node| &mut node.data) {
            Some(Data::Text { start, length, .. }) if *start + *length == piece => {
                *length += more;
                true
            }
            _ => false,
        }
    }

    /// Appends a text to the children of a node, or inserts it before one of these. It joins a text directly before its place.
    #[inline]
    pub fn insert_text(&mut self, parent: Id, before: Id, text: &str) {
        let (start, length) = self.keep(text);
        if length == 0 {
            return;
        }
        let previous = if before == NONE { self.nodes[parent as usize].last } else { self.nodes[before as usize].previous };
        if self.join_text(previous, start, length) {
            return;
        }
        let continues = previous != NONE && matches!(self.nodes[previous as usize].data, Data::Text { .. });
        let node = self.add(Data::Text { start, length, continues });
        self.insert(parent, before, node);
    }

    /// Makes room for so many bytes of text. Returns whether there is memory for them.
    #[cold]
    pub fn make_room_for_text(&mut self, length: usize) -> bool {
        self.text.try_reserve(length).is_ok()
    }

    /// Keeps a text, without what the filter drops of it.
    #[inline]
    fn keep(&mut self, text: &str) -> Piece {
        let start = self.text.len();
        let end = start + text.len();
        if end > u32::MAX as usize || end > self.text.capacity() && !self.make_room_for_text(text.len()) {
            self.is_out_of_memory = true;
            return (0, 0);
        }
        self.filter.append(text, &mut self.text);
        (start as u32, (self.text.len() - start) as u32)
    }

    /// Appends the text of a node's children that are texts.
    pub fn push_text_of(&self, node: Id, text: &mut String) {
        for child in self.children(node) {
            if let Data::Text { start, length, .. } = *self.data(child) {
                text.push_str(&String::from_utf8_lossy(&self.text[start as usize..][..length as usize]));
            }
        }
    }
}

#[cfg(test)]
mod tests {
    use super::*;
    use html5ever::local_name;

    fn element(tree: &mut Tree) -> Id {
        tree.add_element(QualName::new(None, ns!(html), local_name!("p")), Vec::new(), |_| true)
    }

    fn text(tree: &Tree, node: Id) -> String {
        let mut text = String::new();
        tree.push_text_of(node, &mut text);
        text
    }

    #[test]
    fn nodes_are_moved() {
        let mut tree = Tree::new(Filter::default());
        let (one, two, three) = (element(&mut tree), element(&mut tree), element(&mut tree));
        tree.insert(DOCUMENT, NONE, one);
        tree.insert(DOCUMENT, NONE, three);
        tree.insert(DOCUMENT, three, two);
        assert_eq!(tree.children(DOCUMENT).collect::<Vec<_>>(), [one, two, three]);
        tree.detach(two);
        tree.insert(one, NONE, two);
        tree.move_children(DOCUMENT, two);
        assert_eq!(tree.children(two).collect::<Vec<_>>(), [one, three]);
        assert_eq!(tree.first_child(DOCUMENT), NONE);
    }

    #[test]
    fn texts_join_the_one_before() {
        let mut tree = Tree::new(Filter::default());
        let one = element(&mut tree);
        tree.insert(DOCUMENT, NONE, one);
        tree.insert_text(DOCUMENT, one, "a");
        tree.insert_text(one, NONE, "b");
        tree.insert_text(DOCUMENT, one, "c");
        tree.insert_text(one, NONE, "d");
        assert_eq!((text(&tree, DOCUMENT), text(&tree, one)), ("ac".to_owned(), "bd".to_owned()));
        let continues = |node| matches!(tree.data(node), Data::Text { continues: true, .. });
        assert_eq!(tree.children(DOCUMENT).map(continues).collect::<Vec<_>>(), [false, true, false]);
    }

    #[test]
    fn attributes_are_added_where_they_are_missing() {
        let mut tree = Tree::new(Filter::default());
        let (one, two) = (element(&mut tree), element(&mut tree));
        let attribute = |name, value: &str| Attr { name, value: value.into() };
        for (node, name, value) in [(one, local_name!("id"), "a"), (two, local_name!("id"), "b"), (one, local_name!("class"), "c"), (one, local_name!("id"), "d")] {
            tree.add_attribute_if_missing(node, attribute(name, value));
        }
        let values = |node| tree.attributes_of(node).iter().map(|attribute| attribute.value.to_string()).collect::<Vec<_>>();
        assert_eq!((values(one), values(two)), (vec!["a".to_owned(), "c".to_owned()], vec!["b".to_owned()]));
    }
}
