//! Links, and the numbers of their targets.
//!
//! In plain text a link is recorded without its target, so that the library writes nothing for it, and its number is a text after the
//! last thing in it that is shown. So whether it has one is decided where it ends, by what was recorded of it. In rich text a link
//! keeps its target, and a terminal can open it.

use super::targets;
use crate::footnotes::push_number;
use crate::options::LinkMode;
use crate::record::Handle;
use crate::tree::{Id, Tree};
use std::collections::HashMap;
use std::rc::Rc;
use url::Url;

/// Number of bytes of a link's text that are looked at beyond the length of its target: for a slash and white space.
const MORE: usize = 4;

/// The links of a page.
pub(crate) struct Links {
    /// How targets are shown; `None` where links keep them.
    mode: Option<LinkMode>,
    /// The address that the page was read from.
    page: Option<Url>,
    /// The address that targets are resolved against, once it is asked for.
    base: Option<Option<Url>>,
    /// Links that are being recorded, the outermost one first.
    open: Vec<OpenLink>,
    /// Text of the innermost one, as far as it can be its target.
    text: Vec<u8>,
    /// What is shown after the last link.
    sign: String,
    numbers: HashMap<Rc<str>, usize>,
    targets: Vec<Rc<str>>,
}

/// A link that is being recorded.
#[derive(Debug)]
pub(crate) struct OpenLink {
    node: Id,
    /// Number of the step that made it.
    step: usize,
    /// The target that is shown, if one is.
    target: Option<Rc<str>>,
    /// Whether something in it is shown.
    is_shown: bool,
    /// Whether its text can't be its target.
    differs: bool,
    /// The first image in it without a text: the node that is recorded, and that of the tree.
    image: Option<(Handle, Id)>,
    /// Whether something is shown since the last block began or ended.
    is_line_open: bool,
    /// The block in it that ends directly after the last thing that is shown.
    last_block: Option<Handle>,
}

/// What a link shows, once it has ended.
pub(crate) struct EndedLink {
    /// Number of the step that made it, if nothing of it is shown.
    pub empty_step: Option<usize>,
    /// An image to be named: the node that is recorded, that of the tree, and that of the link.
    pub image: Option<(Handle, Id, Id)>,
    /// The block in it to whose end its number belongs.
    pub block: Option<Handle>,
    target: Option<Rc<str>>,
}

impl Links {
    /// Returns the links of a page, which may have an address of its own.
    pub fn new(mode: Option<LinkMode>, page: Option<Url>) -> Links {
        Links { mode, page, base: None, open: Vec::new(), text: Vec::new(), sign: String::new(), numbers: HashMap::default(), targets: Vec::new() }
    }

    /// Reports whether links keep their targets.
    pub fn keeps_targets(&self) -> bool {
        self.mode.is_none()
    }

    /// Reports whether a link is being recorded.
    #[inline]
    pub fn is_open(&self) -> bool {
        !self.open.is_empty()
    }

    /// Returns a target resolved against the page's address; `None` where it stays as it is.
    pub fn resolved(&mut self, tree: &Tree, target: &str) -> Option<String> {
        if targets::has_scheme(target) {
            return None;
        }
        let page = self.page.as_ref();
        targets::resolved(target, self.base.get_or_insert_with(|| targets::base(tree, page)).as_ref())
    }

    /// Opens a link to a target, without characters that aren't shown.
    pub fn open(&mut self, tree: &Tree, node: Id, step: usize, href: &str) {
        let target = match self.mode {
            None | Some(LinkMode::None) => None,
            Some(_) => Some(targets::written(href)).filter(|written| targets::leads_out(written)),
        };
        let target = target.map(|written| self.resolved(tree, &written).map_or_else(|| Rc::from(&*written), Rc::from));
        self.text.clear();
        self.open.push(OpenLink { node, step, target, is_shown: false, differs: false, image: None, is_line_open: false, last_block: None });
    }

    /// Notes that another step was inserted before that of a number.
    pub fn shift(&mut self, inserted: usize) {
        for link in self.open.iter_mut().rev().take_while(|link| link.step >= inserted) {
            link.step += 1;
        }
    }

    /// Notes a text in the innermost link, which begins with so many bytes that show nothing.
    pub fn add_text(&mut self, text: &[u8], blank: usize) {
        let is_blank = blank == text.len();
        if !is_blank {
            self.show();
        }
        let buffer = &mut self.text;
        if let Some(OpenLink { target: Some(target), differs: differs @ false, .. }) = self.open.last_mut() {
            let text = if buffer.is_empty() { &text[blank..] } else { text };
            let room = (target.len() + MORE).saturating_sub(buffer.len());
            buffer.extend_from_slice(&text[..room.min(text.len())]);
            *differs = text.len() > room && !is_blank && super::flow::blank_start(&text[room..]) < text.len() - room;
        }
    }

    /// Notes something in the innermost link that is shown.
    pub fn show(&mut self) {
        if let Some(link) = self.open.last_mut() {
            link.is_shown = true;
            link.is_line_open = true;
            link.last_block = None;
        }
    }

    /// Notes a picture or a field in the innermost link.
    pub fn add_object(&mut self) {
        self.show();
        if let Some(link) = self.open.last_mut() {
            link.differs = true;
        }
    }

    /// Notes an image without a text in the innermost link. Returns whether it is the first thing there that can be shown.
    pub fn add_image(&mut self, handle: Handle, node: Id) -> bool {
        match self.open.last_mut().filter(|link| !link.is_shown && link.image.is_none()) {
            Some(link) => {
                link.image = Some((handle, node));
                link.is_line_open = true;
                true
            }
            None => false,
        }
    }

    /// Notes that a block begins in the innermost link.
    pub fn begin_block(&mut self) {
        if let Some(link) = self.open.last_mut() {
            link.is_line_open = false;
        }
    }

    /// Notes that a block ends in the innermost link.
    pub fn end_block(&mut self, block: Handle) {
        if let Some(link) = self.open.last_mut() {
            if std::mem::take(&mut link.is_line_open) {
                link.last_block = Some(block);
            }
        }
    }

    /// Reports whether the text of the innermost link is its target.
    fn text_tells(&self, target: &str) -> bool {
        if self.text.len() + targets::MAX_UNTOLD < target.len() {
            return false;
        }
        let text = std::str::from_utf8(&self.text).unwrap_or("");
        targets::is_told_by(text.trim_end_matches(super::flow::is_blank_char), target)
    }

    /// Ends the innermost link.
    pub fn close(&mut self) -> Option<EndedLink> {
        let link = self.open.pop()?;
        let is_shown = link.is_shown || link.image.is_some();
        let is_told = !link.differs && link.is_shown && link.target.as_ref().map_or(false, |target| self.text_tells(target));
        if let Some(around) = self.open.last_mut() {
            around.differs = true;
            around.is_shown |= is_shown;
            around.is_line_open |= link.is_line_open;
        }
        Some(EndedLink {
            empty_step: (!is_shown).then(|| link.step),
            image: link.image.filter(|_| !link.is_shown).map(|(handle, image)| (handle, image, link.node)),
            block: link.last_block,
            target: link.target.filter(|_| is_shown && !is_told),
        })
    }

    /// Returns what is shown of an ended link's target after it.
    pub fn sign(&mut self, link: EndedLink) -> Option<&str> {
        let target = link.target?;
        self.sign.clear();
        match self.mode? {
            LinkMode::Notes => {
                let number = self.number(target);
                push_note(number, &mut self.sign);
            }
            LinkMode::Inline => [" <", &target, ">"].iter().for_each(|part| self.sign.push_str(part)),
            LinkMode::List => {
                self.number(target);
                return None;
            }
            LinkMode::None => return None,
        }
        Some(&self.sign)
    }

    /// Returns the number of a target, from 1.
    fn number(&mut self, target: Rc<str>) -> usize {
        let next = self.targets.len() + 1;
        let number = *self.numbers.entry(Rc::clone(&target)).or_insert(next);
        if number == next {
            self.targets.push(target);
        }
        number
    }

    /// Returns the targets in the order of their numbers.
    pub fn into_targets(self) -> Vec<Rc<str>> {
        self.targets
    }
}

/// Appends the sign of a target's number.
fn push_note(number: usize, sign: &mut String) {
    sign.push('[');
    push_number(number, sign);
    sign.push(']');
}
