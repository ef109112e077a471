//! Decides which elements are opened and closed without html5ever's tree builder.
//!
//! In a well-formed page most tags open an element in the innermost open one, or close that: what the tree builder holds is the same
//! before an element and after it. So it isn't told of such elements. It is told of those that are open as soon as a tag or text comes
//! for which other rules of HTML's tree construction are needed, and works as if it had been told of them before.

use crate::classes::{class_of, Class, Scope};
use crate::tree::{Id, Tree};
use html5ever::{local_name, namespace_url, ns, LocalName};

/// An open element.
#[derive(Clone, Copy, Debug)]
pub(crate) struct Open {
    pub node: Id,
    pub class: Class,
    /// What is open where it is the innermost element.
    scope: Scope,
    /// Offset of its tag in the page, if it has one.
    pub start: usize,
}

/// What a start tag does, before its own element is opened or inserted.
#[derive(Clone, Copy, Debug, PartialEq, Eq)]
pub(crate) struct Opening {
    /// Number of elements that are closed.
    pub closed: usize,
    /// Whether a `tbody` is opened.
    pub opens_section: bool,
    /// Whether a `tr` is opened.
    pub opens_row: bool,
}

impl Opening {
    /// Returns the effect of a tag that closes so many elements first.
    fn after(closed: usize) -> Option<Opening> {
        Some(Opening { closed, opens_section: false, opens_row: false })
    }

    /// Returns the effect of a row or cell whose parents are missing.
    fn with_parents(opens_section: bool, opens_row: bool) -> Option<Opening> {
        Some(Opening { closed: 0, opens_section, opens_row })
    }
}

/// Number of equal formatting elements from which on html5ever forgets the outermost one.
const EQUAL_FORMATTING: usize = 3;

/// Number of formatting elements that are looked up to learn which of a tree builder's handles are open.
const MAX_FORMATTING: usize = 16;

/// The open elements, as long as what the tree builder holds follows from them.
#[derive(Debug, Default)]
pub(crate) struct Direct {
    open: Vec<Open>,
    /// Number of elements that the tree builder was told of.
    told: usize,
    /// Number of elements that were learned from the tree builder, whose formatting elements it has in an order of its own.
    learned: usize,
    is_known: bool,
}

impl Direct {
    /// Reports whether the open elements are known.
    #[inline]
    pub fn is_known(&self) -> bool {
        self.is_known
    }

    /// Forgets the open elements.
    pub fn forget(&mut self) {
        self.is_known = false;
    }

    /// Returns the innermost open element, if it is known.
    #[inline]
    pub fn innermost(&self) -> Option<&Open> {
        self.open.last().filter(|_| self.is_known)
    }

    /// Takes in the handles that a tree builder holds: the document, the open elements, the formatting elements since the last marker
    /// and before it, and the `head`. Returns whether all else that the tree builder holds follows from them.
    pub fn learn(&mut self, held: &[Id], tree: &Tree) -> bool {
        self.open.clear();
        self.is_known = self.try_to_learn(held, tree).is_some();
        (self.told, self.learned) = (self.open.len(), self.open.len());
        self.is_known
    }

    fn try_to_learn(&mut self, held: &[Id], tree: &Tree) -> Option<()> {
        let name = |node: Id| tree.element(node).filter(|element| element.space == ns!(html)).map(|element| &element.name);
        let head = held.iter().position(|&node| name(node) == Some(&local_name!("head")))?;
        let held = held.get(1..head)?;
        if held.len() < 2 || name(held[0])? != &local_name!("html") || name(held[1])? != &local_name!("body") {
            return None;
        }
        // formatting elements that are open are held twice
        let mut formatting = Vec::new();
        for (place, &node) in held.iter().enumerate() {
            let class = class_of(name(node)?);
            if matches!(class, Class::Formatting | Class::Anchor) {
                if formatting.contains(&node) {
                    return is_rest(&held[place..], formatting).then(|| ());
                }
                if formatting.len() == MAX_FORMATTING {
                    return None;
                }
                formatting.push(node);
            }
            self.learn_element(node, class)?;
        }
        formatting.is_empty().then(|| ())
    }

    /// Takes in an open element; `None` if other rules apply in it.
    fn learn_element(&mut self, node: Id, class: Class) -> Option<()> {
        let (scope, outer) = self.open.last().map_or((Scope::default(), Class::Special), |open| (open.scope, open.class));
        let fits = match class {
            Class::Other => false,
            Class::Section => outer == Class::Table,
            Class::Row => outer == Class::Section,
            Class::Cell => outer == Class::Row,
            Class::Caption => outer == Class::Table,
            // the tree builder would close the outer one too, where it's told of another one
            Class::Item => !outer.is_table_part() && !scope.has_item(),
            Class::Term => !outer.is_table_part() && !scope.has_term(),
            _ => !outer.is_table_part(),
        };
        self.open.push(Open { node, class, scope: scope.inside(class), start: 0 });
        fits.then(|| ())
    }

    /// Returns what a start tag of a class does; `None` if the tree builder has to see it.
    #[inline]
    pub fn opening(&self, class: Class, name: &LocalName, is_quirky: bool, tree: &Tree) -> Option<Opening> {
        let top = self.innermost()?;
        match (top.class, class) {
            (Class::Row, Class::Cell) | (Class::Section, Class::Row) | (Class::Table, Class::Section | Class::Caption) => Opening::after(0),
            (Class::Row, Class::Row) | (Class::Section, Class::Section) | (Class::Cell, Class::Cell) => Opening::after(1),
            (Class::Row, Class::Section) | (Class::Cell, Class::Row) => Opening::after(2),
            (Class::Table, Class::Row) => Opening::with_parents(true, false),
            (Class::Table, Class::Cell) => Opening::with_parents(true, true),
            (Class::Section, Class::Cell) => Opening::with_parents(false, true),
            (Class::Table | Class::Section | Class::Row, _) => None,
            _ => self.opening_in_flow(top, class, name, is_quirky, tree),
        }
    }

    /// Returns what a start tag does that isn't directly in a table or a part of it.
    #[inline]
    fn opening_in_flow(&self, top: &Open, class: Class, name: &LocalName, is_quirky: bool, tree: &Tree) -> Option<Opening> {
        match class {
            Class::Phrase | Class::Void => Opening::after(0),
            Class::Formatting if self.takes_formatting(top.scope, name, tree) => Opening::after(0),
            Class::Anchor if !top.scope.has_anchor() => Opening::after(0),
            Class::Table if is_quirky => Opening::after(0),
            Class::Division | Class::Block | Class::Paragraph | Class::Rule | Class::Table => self.past_paragraph(0),
            Class::Heading => self.past_paragraph(0).filter(|opening| self.class_below(opening.closed) != Some(Class::Heading)),
            Class::Item => self.past_like(top.scope.has_item(), class),
            Class::Term => self.past_like(top.scope.has_term(), class),
            _ => None,
        }
    }

    /// Returns the class of the innermost element once so many are closed.
    fn class_below(&self, closed: usize) -> Option<Class> {
        self.open.iter().rev().nth(closed).map(|open| open.class)
    }

    /// Returns the effect of a tag that closes so many elements, and then a `p` if that is open.
    #[inline]
    fn past_paragraph(&self, closed: usize) -> Option<Opening> {
        let top = self.open.iter().rev().nth(closed)?;
        match top.class {
            Class::Paragraph => Opening::after(closed + 1),
            _ if top.scope.has_paragraph() => None,
            _ => Opening::after(closed),
        }
    }

    /// Returns the effect of an item or a term that closes the one before it, if that is open.
    fn past_like(&self, is_open: bool, class: Class) -> Option<Opening> {
        match (is_open, self.class_below(0)? == class) {
            (false, _) => self.past_paragraph(0),
            (true, true) => self.past_paragraph(1),
            (true, false) => None,
        }
    }

    /// Reports whether html5ever forgets no formatting element when another one is opened.
    fn takes_formatting(&self, scope: Scope, name: &LocalName, tree: &Tree) -> bool {
        let since_marker = || self.open.iter().rev().take_while(|open| !matches!(open.class, Class::Cell | Class::Caption | Class::Boundary));
        let has_name = |open: &&Open| open.class == Class::Formatting && tree.element(open.node).map_or(false, |element| element.name == *name);
        scope.formatting() < EQUAL_FORMATTING as u32 || since_marker().filter(has_name).count() < EQUAL_FORMATTING
    }

    /// Returns the number of elements that an end tag closes; `None` if the tree builder has to see it.
    #[inline]
    pub fn closing(&self, class: Class, name: &LocalName, tree: &Tree) -> Option<usize> {
        let is_closed_too = |other: Class| match class {
            Class::Division | Class::Block | Class::Heading | Class::Item | Class::Term | Class::Caption | Class::Cell => is_implied(other),
            Class::Row => is_implied(other) || other == Class::Cell,
            Class::Section => is_implied(other) || matches!(other, Class::Cell | Class::Row),
            Class::Table => is_implied(other) || matches!(other, Class::Cell | Class::Row | Class::Section),
            _ => false,
        };
        if !self.is_known || matches!(class, Class::Button | Class::Boundary | Class::Special | Class::Ordinary | Class::Other) {
            return None;
        }
        if matches!(class, Class::Formatting | Class::Anchor) && self.open.len() == self.learned {
            return None;
        }
        for (place, open) in self.open.iter().rev().enumerate() {
            if open.class == class && tree.element(open.node)?.name == *name {
                return Some(place + 1);
            }
            if !is_closed_too(open.class) {
                return None;
            }
        }
        None
    }

    /// Opens an element in the innermost one.
    #[inline]
    pub fn push(&mut self, node: Id, class: Class, start: usize) {
        let scope = self.open.last().map_or_else(Scope::default, |open| open.scope);
        self.open.push(Open { node, class, scope: scope.inside(class), start });
    }

    /// Closes the innermost element. Returns it if the tree builder was told of it, as of all around it.
    #[inline]
    pub fn close(&mut self) -> Option<Id> {
        let closed = self.open.pop()?;
        if self.told <= self.open.len() {
            return None;
        }
        self.told = self.open.len();
        self.learned = self.learned.min(self.told);
        Some(closed.node)
    }

    /// Returns the outermost element that the tree builder wasn't told of, and notes that it is.
    pub fn tell(&mut self) -> Option<Open> {
        let open = self.open.get(self.told).filter(|_| self.is_known)?;
        self.told += 1;
        Some(*open)
    }

    /// Opens an element in the innermost one of which the tree builder was told, as of all around it.
    pub fn push_told(&mut self, node: Id, class: Class) {
        self.push(node, class, 0);
        self.told = self.open.len();
    }

    #[cfg(test)]
    pub fn open_nodes(&self) -> Vec<Id> {
        self.open.iter().map(|open| open.node).collect()
    }
}

/// Reports whether some elements are formatting elements in any order.
fn is_rest(held: &[Id], mut formatting: Vec<Id>) -> bool {
    let mut held = held.to_vec();
    held.sort_unstable();
    formatting.sort_unstable();
    held == formatting
}

/// Reports whether the end of an element of a class is implied by that of another around it.
fn is_implied(class: Class) -> bool {
    matches!(class, Class::Paragraph | Class::Item | Class::Term)
}
