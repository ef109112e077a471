//! Records the steps that build a document: elements, attributes and texts in document order.

use crate::characters::Filter;
use crate::records::Step;
use crate::tree::Piece;
use html5ever::{local_name, namespace_url, ns, LocalName, Namespace};
use std::borrow::Cow;

/// The kinds of steps, by their numbers.
pub(crate) mod kind {
    pub const MAKE_COMMENT: u32 = 2;
    pub const ADD_ATTRIBUTE: u32 = 4;
    pub const PUT_NODE: u32 = 5;
    pub const PUT_TEXT: u32 = 6;
    pub const APPEND_ELEMENT: u32 = 16;
}

/// Number of a recorded node: 0 is the document.
pub(crate) type Handle = u32;

/// Number of the HTML namespace.
pub(crate) const HTML: u32 = 1;

/// Returns the number of a namespace.
pub(crate) fn space(namespace: &Namespace) -> u32 {
    if *namespace == ns!(html) {
        HTML
    } else if *namespace == ns!(svg) {
        2
    } else if *namespace == ns!(mathml) {
        3
    } else {
        0
    }
}

/// Reports whether rendering asks for attributes of a name. Others aren't recorded.
pub(crate) fn is_asked(name: &LocalName) -> bool {
    matches!(
        *name,
        local_name!("alt")
            | local_name!("class")
            | local_name!("colspan")
            | local_name!("href")
            | local_name!("id")
            | local_name!("name")
            | local_name!("rowspan")
            | local_name!("src")
            | local_name!("start")
    )
}

/// Reports whether plain text has signs around the contents of an element of this name.
fn is_signed(name: &LocalName) -> bool {
    matches!(*name, local_name!("b") | local_name!("code") | local_name!("dt") | local_name!("em") | local_name!("strong"))
}

/// Number of names whose place in the text is remembered.
const NAMES: usize = 128;

const NO_NAME: Option<(LocalName, Piece)> = None;

/// The character that a horizontal line is of.
const RULE: &str = "\u{2500}";

/// Maximum number of columns of a horizontal line.
const MAX_RULE: u32 = 1 << 16;

/// The steps of a document, over one text.
pub(crate) struct Recorder {
    pub steps: Vec<Step>,
    pub text: Vec<u8>,
    /// Whether there is more than numbers of 32 bits can name, or memory is out.
    pub is_out_of_memory: bool,
    /// Whether an element is recorded around whose contents plain text has signs.
    pub has_signed: bool,
    /// Whether a `dt` is recorded, which is one of these.
    pub has_terms: bool,
    filter: Filter,
    names: Box<[Option<(LocalName, Piece)>; NAMES]>,
    /// The longest horizontal line so far.
    rule: Piece,
    node_count: u32,
    /// Number of the step that made the last placeholder.
    placeholder: Option<usize>,
}

impl Recorder {
    /// Returns a recorder without steps, over a text to which names and attributes are added, which go through a filter.
    pub fn new(text: Vec<u8>, filter: Filter) -> Recorder {
        Recorder {
            steps: Vec::new(),
            text,
            is_out_of_memory: false,
            has_signed: false,
            has_terms: false,
            filter,
            names: Box::new([NO_NAME; NAMES]),
            rule: (0, 0),
            node_count: 0,
            placeholder: None,
        }
    }

    /// Keeps a text as it is.
    pub fn keep(&mut self, text: &str) -> Piece {
        self.keep_by(text, |text, to| to.extend_from_slice(text.as_bytes()))
    }

    /// Keeps a text without what the filter drops.
    pub fn keep_filtered(&mut self, text: &str) -> Piece {
        let filter = self.filter;
        self.keep_by(text, |text, to| filter.append(text, to))
    }

    /// Returns a piece of so many characters of a horizontal line, which is kept once, after a newline.
    pub fn rule(&mut self, columns: u32) -> Piece {
        let columns = columns.min(MAX_RULE) as usize;
        if (self.rule.1 as usize) < RULE.len() * columns {
            let (start, length) = self.keep(&["\n", &RULE.repeat(columns)].concat());
            self.rule = (start + 1, length.saturating_sub(1));
        }
        (self.rule.0, (RULE.len() * columns) as u32)
    }

    /// Returns a horizontal line of so many characters after a newline. `None` if it has fewer.
    pub fn next_rule(&mut self, columns: u32) -> Option<Piece> {
        let (start, length) = self.rule(columns);
        (columns <= MAX_RULE).then(|| (start - 1, length + 1))
    }

    /// Returns a text without what the filter drops.
    pub fn filtered<'a>(&self, text: &'a str) -> Cow<'a, str> {
        self.filter.filtered(text)
    }

    fn keep_by(&mut self, text: &str, append: impl FnOnce(&str, &mut Vec<u8>)) -> Piece {
        let start = self.text.len();
        if start + text.len() > u32::MAX as usize || self.text.try_reserve(text.len()).is_err() {
            self.is_out_of_memory = true;
            return (0, 0);
        }
        append(text, &mut self.text);
        (start as u32, (self.text.len() - start) as u32)
    }

    #[inline]
    fn keep_name(&mut self, name: &LocalName) -> Piece {
        let slot = name.get_hash() as usize % NAMES;
        match &self.names[slot] {
            Some((kept, piece)) if kept == name => *piece,
            _ => self.keep_another_name(name, slot),
        }
    }

    #[cold]
    fn keep_another_name(&mut self, name: &LocalName, slot: usize) -> Piece {
        let piece = self.keep_by(name, |name, to| Filter::default().append(name, to));
        self.has_signed |= is_signed(name);
        self.has_terms |= *name == local_name!("dt");
        self.names[slot] = Some((name.clone(), piece));
        piece
    }

    #[inline]
    fn push(&mut self, step: Step) {
        if self.steps.len() < self.steps.capacity() || self.make_room(1) {
            self.steps.push(step);
        }
    }

    /// Makes room for so many more steps. Returns whether there is memory for them.
    #[cold]
    pub fn make_room(&mut self, more: usize) -> bool {
        let has_room = self.steps.try_reserve(more).is_ok();
        self.is_out_of_memory |= !has_room;
        has_room
    }

    /// Returns the number of nodes that were made.
    pub fn node_count(&self) -> u32 {
        self.node_count
    }

    fn count_node(&mut self) -> Handle {
        match self.node_count.checked_add(1) {
            Some(count) => self.node_count = count,
            None => self.is_out_of_memory = true,
        }
        self.node_count
    }

    /// Appends an element to the children of a node.
    #[inline]
    pub fn element(&mut self, parent: Handle, space: u32, name: &LocalName) -> Handle {
        let (name, name_length) = self.keep_name(name);
        self.push(Step { kind: kind::APPEND_ELEMENT, flags: space, node: parent, name, name_length, ..Step::default() });
        self.count_node()
    }

    /// Records an empty element, which shows nothing until it has another name.
    pub fn record_placeholder(&mut self, parent: Handle) {
        self.placeholder = Some(self.steps.len());
        self.element(parent, HTML, &local_name!("span"));
    }

    /// Gives the last placeholder a name.
    pub fn name_placeholder(&mut self, name: &LocalName) {
        if let Some(step) = self.placeholder.take() {
            self.rename(step, name);
        }
    }

    /// Gives an element an attribute, unless it has one of that name.
    pub fn attribute(&mut self, node: Handle, name: &LocalName, value: &str) {
        let value = self.keep_filtered(value);
        self.attribute_of_piece(node, name, value);
    }

    /// Gives an element an attribute whose value is kept already, unless it has one of that name.
    pub fn attribute_of_piece(&mut self, node: Handle, name: &LocalName, (value, value_length): Piece) {
        let (name, name_length) = self.keep_name(name);
        self.push(Step { kind: kind::ADD_ATTRIBUTE, node, name, name_length, value, value_length, ..Step::default() });
    }

    /// Appends a text to the children of a node. It joins a text before it.
    #[inline]
    pub fn text(&mut self, parent: Handle, (value, value_length): Piece) {
        self.push(Step { kind: kind::PUT_TEXT, node: parent, value, value_length, ..Step::default() });
    }

    /// Inserts a text among the children of a node, as a step of this number. Returns whether there is memory for it.
    pub fn insert_text(&mut self, number: usize, parent: Handle, (value, value_length): Piece) -> bool {
        if self.steps.try_reserve(1).is_err() {
            self.is_out_of_memory = true;
            return false;
        }
        self.placeholder = self.placeholder.map(|step| step + usize::from(step >= number));
        self.steps.insert(number, Step { kind: kind::PUT_TEXT, node: parent, value, value_length, ..Step::default() });
        true
    }

    /// Returns the node among whose children a step puts another or a text.
    pub fn parent(&self, number: usize) -> Handle {
        self.steps[number].node
    }

    /// Has a step put a node or a text among the children of another node.
    pub fn set_parent(&mut self, number: usize, parent: Handle) {
        self.steps[number].node = parent;
    }

    /// Returns the number of bytes of a step's text.
    pub fn text_length(&self, number: usize) -> u32 {
        self.steps[number].value_length
    }

    /// Takes so many bytes off the end of a step's text. Returns them.
    pub fn cut_text(&mut self, number: usize, bytes: u32) -> Piece {
        let step = &mut self.steps[number];
        step.value_length -= bytes;
        (step.value + step.value_length, bytes)
    }

    /// Adds what follows it in the text to the value of an attribute's step.
    pub fn lengthen_value(&mut self, number: usize, more: u32) {
        self.steps[number].value_length += more;
    }

    /// Renames the element that a step makes.
    pub fn rename(&mut self, number: usize, name: &LocalName) {
        let (name, name_length) = self.keep_name(name);
        let step = &mut self.steps[number];
        (step.name, step.name_length) = (name, name_length);
    }

    /// Returns the number of the step that gives an element its classes, if there is one after that which made it.
    pub fn class_step(&self, made: usize) -> Option<usize> {
        let is_class = |step: &Step| step.kind == kind::ADD_ATTRIBUTE && self.text[step.name as usize..][..step.name_length as usize] == *b"class";
        self.steps[made + 1..].iter().position(is_class).map(|place| made + 1 + place)
    }

    /// Appends a comment to the children of a node, so that the next text doesn't join the one before it.
    pub fn part_texts(&mut self, parent: Handle) {
        self.push(Step { kind: kind::MAKE_COMMENT, ..Step::default() });
        let child = self.count_node();
        self.push(Step { kind: kind::PUT_NODE, node: parent, child, ..Step::default() });
    }
}
