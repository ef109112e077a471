//! Goes over a page's tree in document order, and records the steps that build its document.

use crate::adapt::{self, Adaptation, Adapted, Adapter, Context, Holds, Numbers, Run};
use crate::record::{self, Handle, Recorder};
use crate::tree::{Data, Element, Id, Piece, Tree, DOCUMENT, NONE};
use html5ever::{local_name, namespace_url, ns};

/// Where something is recorded.
#[derive(Clone, Copy)]
pub(crate) struct Place {
    /// The node among whose children it is put.
    pub handle: Handle,
    pub context: Context,
}

/// What was recorded last among the children of a node.
#[derive(Clone, Copy, PartialEq, Eq)]
pub(crate) enum Last {
    /// Nothing, or no text.
    Other,
    /// A text of the tree, which no other joins.
    Text,
    /// A text that the next one joins.
    Joined,
}

/// What is done where a recorded element ends.
#[derive(Clone, Copy)]
pub(crate) enum End {
    /// Nothing.
    Inline,
    /// The text around it is interrupted.
    Run(Run),
    /// The end of a button is recorded.
    Button,
    /// The mark at the end of a quotation in so many others is recorded.
    Quotation(u8),
    /// The space after a label of a drawing is recorded; in a line of cells, unless the cell shows nothing after it.
    Label { is_in_line: bool },
    /// Its signs are looked at.
    Signed,
    /// Its number is recorded.
    Link,
    /// The text around it is interrupted, and another line of a preformatted block begins.
    BlockInCode(Run),
    /// The last line of a preformatted block ends.
    Code,
    /// The number of steps is noted.
    Citation,
    /// A list in a node is parted from what follows.
    List { parent: Handle },
    /// A table in a node is parted from what follows.
    Table { parent: Handle, is_drawn: bool },
}

/// A recorded element whose children are recorded too.
pub(crate) struct Entered {
    pub handle: Handle,
    pub context: Context,
    pub last: Last,
    /// What is done after the children.
    pub end: End,
}

impl Entered {
    /// Returns an element in which nothing is recorded yet.
    #[inline]
    pub fn new(handle: Handle, context: Context) -> Entered {
        Entered { handle, context, last: Last::Other, end: End::Inline }
    }
}

/// A list whose children are being recorded, and what was recorded last directly in it.
#[derive(Default)]
struct List {
    /// The item.
    item: Option<Handle>,
    /// The element after it that shows what isn't an item.
    loose: Option<Handle>,
    /// The numbers of the items of an `ol`.
    numbers: Option<Numbers>,
}

/// A node whose children are being recorded.
struct Frame {
    node: Id,
    place: Place,
    last: Last,
    end: End,
}

/// Records a tree as a browser shows it.
pub(crate) struct Pass<'a> {
    tree: &'a Tree,
    recorder: Recorder,
    adapter: Adapter<'a>,
    frames: Vec<Frame>,
    /// The lists among the frames: those whose context doesn't hold anything.
    lists: Vec<List>,
}

/// Records a tree into a recorder that has the tree's text, as a browser shows it if there is an adaptation. Returns it, with what the
/// document needs beside its steps.
pub(crate) fn record(tree: &Tree, recorder: Recorder, adaptation: Option<Adaptation>) -> (Recorder, Adapted) {
    match adaptation {
        Some(adaptation) => Pass::new(tree, recorder, adaptation).record(),
        None => (record_as_it_is(tree, recorder), Adapted::default()),
    }
}

/// Records a tree without changes.
fn record_as_it_is(tree: &Tree, mut recorder: Recorder) -> Recorder {
    // the nodes whose children are being recorded, and what they are recorded as
    let mut open = vec![(DOCUMENT, DOCUMENT)];
    let mut next = tree.first_child(DOCUMENT);
    let mut is_after_text = false;
    while let Some(&(outer, parent)) = open.last() {
        let node = next;
        if node == NONE {
            next = tree.next_sibling(outer);
            is_after_text = false;
            open.pop();
            continue;
        }
        next = tree.next_sibling(node);
        match tree.data(node) {
            &Data::Text { start, length, continues } => {
                if is_after_text && !continues {
                    recorder.part_texts(parent);
                }
                is_after_text = true;
                recorder.text(parent, (start, length));
            }
            Data::Element(element) => {
                let handle = record_element(tree, &mut recorder, parent, element);
                is_after_text = false;
                if !is_head(element) {
                    open.push((node, handle));
                    next = tree.first_child(node);
                }
            }
            Data::Comment | Data::Root => {}
        }
    }
    recorder
}

/// Records an element with its attributes.
#[inline]
fn record_element(tree: &Tree, recorder: &mut Recorder, parent: Handle, element: &Element) -> Handle {
    let handle = recorder.element(parent, record::space(&element.space), &element.name);
    for attribute in tree.attributes(element) {
        recorder.attribute(handle, &attribute.name, &attribute.value);
    }
    handle
}

/// Reports whether an element is a `head`, in which nothing is shown.
#[inline]
fn is_head(element: &Element) -> bool {
    element.name == local_name!("head") && element.space == ns!(html)
}

impl<'a> Pass<'a> {
    fn new(tree: &'a Tree, recorder: Recorder, adaptation: Adaptation) -> Pass<'a> {
        Pass { tree, recorder, adapter: Adapter::new(tree, adaptation), frames: Vec::new(), lists: Vec::new() }
    }

    fn record(mut self) -> (Recorder, Adapted) {
        self.adapter.begin(&mut self.recorder);
        self.frames.push(Frame { node: DOCUMENT, place: Place { handle: DOCUMENT, context: Context::default() }, last: Last::Other, end: End::Inline });
        let mut next = self.tree.first_child(DOCUMENT);
        while let Some(frame) = self.frames.last() {
            let node = next;
            if node == NONE {
                next = self.tree.next_sibling(frame.node);
                self.leave();
                continue;
            }
            next = self.tree.next_sibling(node);
            match self.tree.data(node) {
                &Data::Text { start, length, continues } => self.record_text(node, (start, length), continues),
                Data::Element(element) => {
                    if self.enter(node, element) {
                        next = self.tree.first_child(node);
                    }
                }
                Data::Comment | Data::Root => {}
            }
        }
        (self.recorder, self.adapter.finish())
    }

    /// Records a text among the children of the innermost frame.
    #[inline]
    fn record_text(&mut self, node: Id, piece: Piece, continues: bool) {
        let Pass { recorder, adapter, frames, .. } = self;
        let (place, last) = match frames.last_mut() {
            Some(Frame { place, last, .. }) => (*place, last),
            None => return,
        };
        let context = place.context;
        let mut piece = piece;
        if context.is_in_line() {
            match adapter.cut_text(&recorder.text, node, piece) {
                Some(cut) => piece = cut,
                None => return,
            }
        }
        if context.hides_texts() {
            return;
        }
        let is_apart = *last == Last::Text && !continues;
        *last = Last::Text;
        let parent = if context.holds == Holds::Anything { place.handle } else { self.parent_of_text(place.handle, piece) };
        if is_apart {
            self.recorder.part_texts(parent);
        }
        if context.changes_texts() {
            self.record_changed_text(parent, &context, piece);
            return;
        }
        let piece = self.adapter.add_text(&mut self.recorder, piece);
        if piece.1 > 0 {
            self.recorder.text(parent, piece);
        }
    }

    /// Records a text that isn't recorded as it is, or that may have the mark of a row.
    #[inline(never)]
    fn record_changed_text(&mut self, parent: Handle, context: &Context, piece: Piece) {
        let changed = self.adapter.changed_text(&mut self.recorder, context, piece);
        if changed.1 == 0 {
            return;
        }
        let rest = self.adapter.add_text(&mut self.recorder, changed);
        if rest.1 > 0 {
            let marked = self.adapter.marked_text(&mut self.recorder, context, rest);
            self.recorder.text(parent, marked);
        }
    }

    /// Records an element in the innermost one whose children are recorded. Returns whether its own children are recorded.
    #[inline]
    fn enter(&mut self, node: Id, element: &'a Element) -> bool {
        let entered = match self.frames.last_mut() {
            Some(Frame { place, last, .. }) if place.context.holds == Holds::Anything => {
                if self.adapter.record_cell(&mut self.recorder, node, element, place) {
                    *last = Last::Other;
                    return false;
                }
                let count = self.recorder.node_count();
                let entered = self.adapter.open(&mut self.recorder, node, element, place);
                self.note_nodes(count);
                entered
            }
            Some(&mut Frame { place, .. }) => self.open_in_list(node, element, place),
            None => None,
        };
        match entered {
            Some(Entered { handle, context, last, end }) if !is_head(element) => {
                if context.holds != Holds::Anything {
                    self.lists.push(List { numbers: self.adapter.take_numbers(), ..List::default() });
                }
                self.frames.push(Frame { node, place: Place { handle, context }, last, end });
                true
            }
            _ => false,
        }
    }

    /// Notes in the innermost frame whether nodes were made since there were so many.
    #[inline]
    fn note_nodes(&mut self, count: u32) {
        if let (true, Some(frame)) = (self.recorder.node_count() != count, self.frames.last_mut()) {
            frame.last = Last::Other;
        }
    }

    /// Records an element that is directly in a list.
    fn open_in_list(&mut self, node: Id, element: &'a Element, place: Place) -> Option<Entered> {
        if place.context.holds.takes(element) {
            self.open_item(node, element, place)
        } else {
            let place = self.place_of_other(node, element, place);
            self.record_element(node, element, &place)
        }
    }

    /// Records an item of a list, or a term or a description.
    fn open_item(&mut self, node: Id, element: &'a Element, mut place: Place) -> Option<Entered> {
        if place.context.holds == Holds::Items {
            place.handle = self.list_of(Some(node));
        }
        let entered = self.record_element(node, element, &place)?;
        let list = self.lists.last_mut()?;
        (list.item, list.loose) = (Some(entered.handle), None);
        Some(entered)
    }

    fn record_element(&mut self, node: Id, element: &'a Element, place: &Place) -> Option<Entered> {
        let count = self.recorder.node_count();
        let entered = self.adapter.open(&mut self.recorder, node, element, place);
        self.note_nodes(count);
        entered
    }

    /// Returns the node among whose children a text is put that is directly in a list: one of its own, unless the text is blank.
    fn parent_of_text(&mut self, list: Handle, piece: Piece) -> Handle {
        match self.lists.last() {
            Some(List { loose: Some(loose), .. }) => *loose,
            _ if adapt::is_blank(&self.recorder.text, piece) => list,
            _ => self.open_loose(),
        }
    }

    /// Returns where an element is recorded that is directly in a list and isn't an item: in an element of its own, if it is shown.
    fn place_of_other(&mut self, node: Id, element: &Element, place: Place) -> Place {
        if !self.adapter.is_loose(&self.recorder.text, node, element) {
            return place;
        }
        let loose = self.lists.last().and_then(|list| list.loose);
        Place { handle: loose.unwrap_or_else(|| self.open_loose()), context: place.context.in_loose() }
    }

    /// Returns the node of the list that an item is put in: another one where the numbers of an `ol` jump.
    fn list_of(&mut self, item: Option<Id>) -> Handle {
        match (self.frames.last_mut(), self.lists.last_mut()) {
            (Some(frame), Some(list)) => {
                if let Some(numbers) = &mut list.numbers {
                    frame.place.handle = self.adapter.open_item(&mut self.recorder, frame.node, item, numbers).unwrap_or(frame.place.handle);
                }
                frame.place.handle
            }
            _ => DOCUMENT,
        }
    }

    /// Records an element for what is directly in a list.
    fn open_loose(&mut self) -> Handle {
        if matches!(self.lists.last(), Some(List { item: None, .. })) {
            self.list_of(None);
        }
        match (self.frames.last(), self.lists.last_mut()) {
            (Some(frame), Some(list)) => {
                let loose = self.adapter.open_loose(&mut self.recorder, frame.place, list.item);
                list.loose = Some(loose);
                loose
            }
            _ => DOCUMENT,
        }
    }

    /// Ends the innermost element whose children are recorded.
    #[inline]
    fn leave(&mut self) {
        if let Some(Frame { place, end, .. }) = self.frames.pop() {
            if place.context.holds != Holds::Anything {
                self.lists.pop();
            }
            self.adapter.close(&mut self.recorder, place.handle, end);
        }
    }
}
