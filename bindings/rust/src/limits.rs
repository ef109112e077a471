//! Limits that keep a hostile page from taking more time or memory than its size allows.
//!
//! html5ever looks up all open elements at many tags, reopens all unclosed formatting elements at a text, and compares each attribute
//! of a tag with those before it. So past 512 open elements start tags are dropped, as browsers do; a tag keeps its first 1,000
//! attributes; and a page of more nodes than a limit is refused, by default 5 million.

use crate::sink::Sink;
use crate::tree::{Id, Tree, MAX_ATTRIBUTES};
use html5ever::interface::Tracer;
use html5ever::tokenizer::TokenSink;
use html5ever::tree_builder::TreeBuilder;
use html5ever::{local_name, LocalName};
use std::cell::RefCell;

/// Maximum number of open elements.
const MAX_OPEN: usize = 512;

/// Default limit of a page's nodes, and of its attributes.
pub(crate) const MAX_NODES: usize = if cfg!(test) { 200_000 } else { 5_000_000 };

/// Greatest limit: numbers of nodes and attributes have 32 bits.
const GREATEST_LIMIT: usize = 1 << 31;

/// Maximum number of nodes that a token makes beside those that it reopens: an end tag copies up to 4 elements in each of 8 rounds.
const MAX_OWN: usize = 64;

/// Number of nodes, and of attributes, for which there is room at first.
const FIRST: usize = 32;

/// Number of attributes above which a tag keeps those alone that are asked for. html5ever clones and sorts them to compare elements.
pub(crate) const FEW_ATTRIBUTES: usize = 16;

/// Why the rest of a page isn't read.
#[derive(Clone, Copy, Debug, PartialEq, Eq)]
pub(crate) enum Refusal {
    /// The page has more nodes than are allowed.
    TooLarge,
    /// Memory is out.
    OutOfMemory,
}

/// Returns the maximum numbers of nodes and of attributes that a token makes in a tree that has at most so many. It reopens open elements
/// at most twice, and copies an element with its attributes.
fn most_made(nodes: usize, attributes: usize) -> (usize, usize) {
    (2 * MAX_OPEN.min(nodes) + MAX_OWN, FEW_ATTRIBUTES * (4 * MAX_OPEN).min(attributes + FIRST))
}

/// Numbers of nodes and attributes below which a tree has room for what a token makes.
pub(crate) struct Room {
    /// Maximum number of nodes, and of attributes.
    limit: usize,
    nodes: usize,
    attributes: usize,
    /// Numbers of nodes and attributes that there is room for.
    most: (usize, usize),
}

impl Room {
    /// Returns no room yet, under a limit of nodes and of attributes.
    pub fn new(limit: usize) -> Room {
        Room { limit: limit.min(GREATEST_LIMIT), nodes: 0, attributes: 0, most: (0, 0) }
    }

    /// Reports whether a tree has room for what another token makes.
    #[inline]
    pub fn is_enough(&self, tree: &Tree) -> bool {
        tree.node_count() < self.nodes && tree.attribute_count() < self.attributes && !tree.is_out_of_memory
    }

    /// Makes room in a tree for what tokens make until it is twice as large. Fails where it may not grow, or memory is out.
    #[cold]
    pub fn make(&mut self, tree: &mut Tree) -> Result<(), Refusal> {
        let (nodes, attributes) = (tree.node_count(), tree.attribute_count());
        debug_assert!(self.nodes == 0 || nodes <= self.most.0 && attributes <= self.most.1);
        if nodes.max(attributes) > self.limit {
            return Err(Refusal::TooLarge);
        }
        let next = ((2 * nodes + FIRST).min(self.limit + 1), (2 * attributes + FIRST).min(self.limit + 1));
        let made = most_made(next.0, next.1);
        self.most = (next.0 + made.0, next.1 + made.1);
        if tree.is_out_of_memory || !tree.make_room(self.most.0 - nodes, self.most.1 - attributes) {
            return Err(Refusal::OutOfMemory);
        }
        (self.nodes, self.attributes) = next;
        Ok(())
    }
}

/// The handles that a tree builder holds.
struct Held(RefCell<Vec<Id>>);

impl Tracer for Held {
    type Handle = Id;

    fn trace_handle(&self, node: &Id) {
        self.0.borrow_mut().push(*node);
    }
}

/// Reports whether an HTML element of this name can't have others in it: it has no contents, or raw text.
fn is_never_deep(name: &LocalName) -> bool {
    matches!(
        *name,
        local_name!("area")
            | local_name!("base")
            | local_name!("br")
            | local_name!("col")
            | local_name!("embed")
            | local_name!("hr")
            | local_name!("iframe")
            | local_name!("img")
            | local_name!("input")
            | local_name!("link")
            | local_name!("meta")
            | local_name!("noembed")
            | local_name!("noframes")
            | local_name!("param")
            | local_name!("plaintext")
            | local_name!("script")
            | local_name!("source")
            | local_name!("style")
            | local_name!("textarea")
            | local_name!("title")
            | local_name!("track")
            | local_name!("wbr")
            | local_name!("xmp")
    )
}

/// Counts open elements, together with the unclosed formatting elements that the next text reopens.
///
/// The tree builder's stack isn't public, and its handles can be traced only all together. They are traced as soon as so many elements
/// were made since the last time that the stack can be full.
#[derive(Default)]
pub(crate) struct OpenElements {
    /// Number of the tree's nodes at which the stack can be full.
    next_count: usize,
    is_full: bool,
}

impl OpenElements {
    /// Reports whether too few nodes were made for the stack to be full.
    #[inline]
    pub fn are_few(&self, tree: &Tree) -> bool {
        tree.node_count() < self.next_count
    }

    /// Reports whether there is room for the element of a start tag. The tree builder has all open elements.
    #[cold]
    pub fn have_room(&mut self, name: &LocalName, builder: &TreeBuilder<Id, Sink>) -> bool {
        if !self.is_full {
            let open = open_elements(builder);
            self.is_full = open >= MAX_OPEN;
            if !self.is_full {
                self.next_count = builder.sink.tree.node_count() + (MAX_OPEN - open);
            }
        }
        !self.is_full || is_never_deep(name) && !builder.adjusted_current_node_present_but_not_in_html_namespace()
    }

    /// Counts again before the next start tag, if the stack was full: an element may end.
    #[inline]
    pub fn forget(&mut self) {
        self.is_full = false;
    }
}

/// Returns the handles that a tree builder holds.
pub(crate) fn held_by(builder: &TreeBuilder<Id, Sink>) -> Vec<Id> {
    let held = Held(RefCell::new(Vec::with_capacity(64)));
    builder.trace_handles(&held);
    held.0.into_inner()
}

/// Returns the number of distinct elements that are open or that a text reopens, and at most four more.
fn open_elements(builder: &TreeBuilder<Id, Sink>) -> usize {
    let mut held = held_by(builder);
    if held.len() > MAX_OPEN {
        held.sort_unstable();
        held.dedup();
    }
    held.len()
}

/// A tag as it is written: where it ends, and where its attributes pass the limit.
#[derive(Clone, Copy, Debug, PartialEq, Eq)]
pub(crate) struct TagExtent {
    /// Offset after its `>`, or the end of the text if it has none.
    pub end: usize,
    /// Whether it has one.
    pub is_closed: bool,
    /// Offset of the attribute after the first `MAX_ATTRIBUTES`, if there is one.
    pub cut: Option<usize>,
}

fn is_space(byte: u8) -> bool {
    matches!(byte, b' ' | b'\t' | b'\n' | b'\x0c' | b'\r')
}

/// Returns the extent of a tag whose name starts at an offset, as HTML's tokenizer reads tags.
pub(crate) fn tag_extent(text: &[u8], name: usize) -> TagExtent {
    let skip = |from: usize, while_is: &dyn Fn(u8) -> bool| from + text[from..].iter().take_while(|&&byte| while_is(byte)).count();
    let (mut at, mut count, mut cut) = (skip(name, &|byte| !is_space(byte) && byte != b'/' && byte != b'>'), 0, None);
    loop {
        at = skip(at, &|byte| is_space(byte) || byte == b'/');
        match text.get(at) {
            None => return TagExtent { end: at, is_closed: false, cut },
            Some(b'>') => return TagExtent { end: at + 1, is_closed: true, cut },
            Some(_) => {}
        }
        if count == MAX_ATTRIBUTES && cut.is_none() {
            cut = Some(at);
        }
        count += 1;
        // a name may begin with `=`
        at = skip(at + 1, &|byte| !is_space(byte) && !matches!(byte, b'/' | b'>' | b'='));
        let equals = skip(at, &is_space);
        if text.get(equals) != Some(&b'=') {
            continue;
        }
        let value = skip(equals + 1, &is_space);
        at = match text.get(value) {
            Some(&quote @ (b'"' | b'\'')) => match memchr::memchr(quote, &text[value + 1..]) {
                Some(length) => value + 1 + length + 1,
                None => text.len(),
            },
            _ => skip(value, &|byte| !is_space(byte) && byte != b'>'),
        };
    }
}

#[cfg(test)]
mod tests {
    use super::*;

    fn extent(text: &str) -> (usize, Option<usize>) {
        let TagExtent { end, cut, .. } = tag_extent(text.as_bytes(), 1);
        (end, cut)
    }

    #[test]
    fn ends_of_tags() {
        for (tag, rest) in [
            ("<p>", "x>"),
            ("<p a='>' b=\">\" c=d/>", "x>"),
            ("<p/a=b/ c >", "x"),
            ("<p ='x' =y>", "x>"),
            ("<p a = b c\n=\t'>'>", "x>"),
            ("<p a=>", "x>"),
            ("<p a=b'c\">", "'\">"),
            ("<p a='b'c=\"d\">", "x"),
            ("<p a='x>", ""),
            ("<p a", ""),
        ] {
            assert_eq!(extent(&format!("{tag}{rest}")), (tag.len(), None), "{tag}");
        }
    }

    #[test]
    fn attributes_past_the_limit() {
        let first: String = (0..MAX_ATTRIBUTES).map(|number| format!(" a{number}=1")).collect();
        assert_eq!(extent(&format!("<p{first}>")).1, None);
        let tag = format!("<p{first} b=1 c>");
        assert_eq!(extent(&tag), (tag.len(), Some(2 + first.len() + 1)));
    }
}
