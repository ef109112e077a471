//! Signs around emphasis: none inside a word, in other signs, around nothing, or around blocks, and none that has white space on its inner side.
//!
//! An element is recorded with its signs, which the library writes. They are dropped as soon as it is known that they are wrong: by
//! another name, or, where a rule may select the element by its own, by a private class, for which a rule writes nothing. White space at
//! the start of an element is recorded before it; white space, line breaks and the number of a link at its end after it.

use super::flow::{self, Flow};
use crate::record::{Handle, Recorder};
use crate::tree::Piece;
use html5ever::{local_name, LocalName};

/// The private class of elements without signs.
pub(crate) const UNSIGNED_CLASS: &str = "\0unsigned";

/// The name of elements without signs. Plain text shows it as emphasis that has signs, without these.
const UNSIGNED_NAME: LocalName = local_name!("ins");

/// What follows the value of an attribute `class` in the text, so that the class can be added to it later.
pub(super) const UNSIGNED_SUFFIX: &str = " \0unsigned";

/// A recorded element with signs.
#[derive(Clone, Copy, Debug)]
pub(crate) struct Signed {
    pub handle: Handle,
    /// The node that it is in.
    pub parent: Handle,
    /// Number of the step that made it.
    pub step: usize,
    /// Number of the step that gave it its classes; `UNSIGNED_SUFFIX` follows their text.
    pub class_step: Option<usize>,
    /// Whether its signs are stars.
    pub is_starred: bool,
    /// Whether its signs are kept so far.
    pub is_signed: bool,
}

/// The elements with signs around a place, and those that end directly before it.
#[derive(Default)]
pub(crate) struct Emphasis {
    /// Open elements, the outermost one first.
    open: Vec<Signed>,
    /// Number of the open elements that have signs so far.
    signed: usize,
    /// Number of the open elements in which something is shown: the outermost ones.
    filled: usize,
    /// Number of the open elements around a block: the outermost ones.
    around_blocks: usize,
    /// Whether white space was recorded before the outermost one in which nothing is shown.
    has_space_before: bool,
    /// Elements that end directly before, with a character of a word.
    ended: Vec<Signed>,
    /// Number of the step that white space before an element became, until it is asked for.
    inserted: Option<usize>,
    /// The text of the private class, if an element has it.
    class: Option<Piece>,
    /// Whether elements without signs have the private class, and keep their names.
    keeps_names: bool,
}

impl Emphasis {
    /// Returns the emphasis of a document. `keeps_names` says that a rule may select elements by their names.
    pub fn new(keeps_names: bool) -> Emphasis {
        Emphasis { keeps_names, ..Emphasis::default() }
    }

    /// Reports whether the next text can change what is known of an element.
    #[inline]
    pub fn is_watching(&self) -> bool {
        !self.open.is_empty() || !self.ended.is_empty()
    }

    /// Opens an element that was recorded.
    pub fn open(&mut self, signed: Signed) {
        self.signed += usize::from(signed.is_signed);
        self.open.push(signed);
    }

    /// Notes a text before it is recorded, which begins with so many bytes that show nothing. Returns what of it is recorded: white space
    /// at the start of an element is recorded before it.
    pub fn add_text(&mut self, recorder: &mut Recorder, flow: &mut Flow, piece: Piece, blank: u32) -> Piece {
        let (start, length) = piece;
        let is_waiting = self.filled < self.open.len();
        if is_waiting && blank > 0 {
            self.move_before(recorder, flow, (start, blank));
        }
        if blank == length {
            self.ended.clear();
            return if is_waiting { (start, 0) } else { piece };
        }
        let can_drop = is_waiting || !self.ended.is_empty();
        let is_direct = blank == 0 && !self.has_space_before;
        if can_drop && is_direct && flow.ends_in_word(&recorder.text) && flow::begins_in_word(flow::bytes(&recorder.text, piece)) {
            self.drop_of_ended(recorder);
            self.drop_of_open(recorder, self.filled);
        }
        if is_waiting && recorder.text[(start + blank) as usize] == b'*' {
            self.drop_stars(recorder);
        }
        self.fill();
        if is_waiting {
            (start + blank, length - blank)
        } else {
            piece
        }
    }

    /// Returns the number of the step that the last text made one more before others, if it did.
    pub fn take_inserted(&mut self) -> Option<usize> {
        self.inserted.take()
    }

    /// Reports whether an open element has signs so far.
    pub fn is_in_signs(&self) -> bool {
        self.signed > 0
    }

    /// Reports whether an element has the private class.
    pub fn has_class(&self) -> bool {
        self.class.is_some()
    }

    /// Notes that something else than a text is shown.
    pub fn fill(&mut self) {
        self.ended.clear();
        self.filled = self.open.len();
        self.has_space_before = false;
    }

    /// Notes the end of a word by what isn't text.
    pub fn end_word(&mut self) {
        self.ended.clear();
    }

    /// Notes a block.
    pub fn add_block(&mut self, recorder: &mut Recorder) {
        self.ended.clear();
        if self.around_blocks < self.open.len() {
            self.drop_of_open(recorder, self.around_blocks);
            self.around_blocks = self.open.len();
        }
    }

    /// Ends the innermost element.
    pub fn close(&mut self, recorder: &mut Recorder, flow: &mut Flow) {
        let signed = match self.open.pop() {
            Some(signed) => signed,
            None => return,
        };
        let depth = self.open.len();
        self.signed -= usize::from(signed.is_signed);
        self.around_blocks = self.around_blocks.min(depth);
        if self.filled <= depth {
            self.has_space_before &= self.filled < depth;
            // emphasis around nothing is something, and another element around nothing isn't
            recorder.rename(signed.step, &local_name!("span"));
            return;
        }
        self.filled = depth;
        if !signed.is_signed {
            return;
        }
        let ends_in_word = flow.ends_in_word(&recorder.text);
        if !flow.move_trailing(recorder, signed.parent) && ends_in_word {
            self.ended.push(signed);
        }
    }

    /// Records white space before the outermost open element in which nothing is shown, once.
    fn move_before(&mut self, recorder: &mut Recorder, flow: &mut Flow, space: Piece) {
        if self.has_space_before {
            return;
        }
        let Signed { step, parent, .. } = self.open[self.filled];
        if recorder.insert_text(step, parent, space) {
            self.has_space_before = true;
            self.inserted = Some(step);
            flow.add_space(step, space.1);
            for signed in &mut self.open[self.filled..] {
                signed.step += 1;
                signed.class_step = signed.class_step.map(|step| step + 1);
            }
        }
    }

    fn drop_of_ended(&mut self, recorder: &mut Recorder) {
        for number in 0..self.ended.len() {
            let mut signed = self.ended[number];
            self.drop_signs(recorder, &mut signed);
        }
        self.ended.clear();
    }

    /// Drops the signs of the open elements from a number on.
    fn drop_of_open(&mut self, recorder: &mut Recorder, from: usize) {
        for number in from..self.open.len() {
            self.drop_at(recorder, number);
        }
    }

    /// Drops the stars of the open elements in which nothing is shown: a star that is shown would join them.
    fn drop_stars(&mut self, recorder: &mut Recorder) {
        for number in self.filled..self.open.len() {
            if self.open[number].is_starred {
                self.drop_at(recorder, number);
            }
        }
    }

    fn drop_at(&mut self, recorder: &mut Recorder, number: usize) {
        let mut signed = self.open[number];
        self.signed -= usize::from(signed.is_signed);
        self.drop_signs(recorder, &mut signed);
        self.open[number] = signed;
    }

    /// Gives an element the name or the class of those without signs.
    pub fn drop_signs(&mut self, recorder: &mut Recorder, signed: &mut Signed) {
        if !std::mem::take(&mut signed.is_signed) {
            return;
        }
        if self.keeps_names {
            self.add_class(recorder, signed);
        } else {
            recorder.rename(signed.step, &UNSIGNED_NAME);
        }
    }

    /// Gives an element the class of those without signs.
    fn add_class(&mut self, recorder: &mut Recorder, signed: &Signed) {
        let class = *self.class.get_or_insert_with(|| recorder.keep(UNSIGNED_CLASS));
        match signed.class_step {
            Some(step) => recorder.lengthen_value(step, UNSIGNED_SUFFIX.len() as u32),
            None => recorder.attribute_of_piece(signed.handle, &local_name!("class"), class),
        }
    }
}
