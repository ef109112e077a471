//! The calls of html5ever's tree builder as steps, moves among them: another way from a parser to a document, for tests.

use crate::error::Error;
use crate::record;
use crate::records::{self, Page, Setting, Step};
use html5ever::driver::ParseOpts;
use html5ever::tokenizer::TokenizerOpts;
use html5ever::tree_builder::{ElementFlags, NodeOrText, QuirksMode, TreeSink};
use html5ever::{local_name, namespace_url, ns, Attribute, ExpandedName, QualName};
use std::borrow::Cow;
use tendril::{StrTendril, TendrilSink};

mod kind {
    pub const MAKE_ELEMENT: u32 = 1;
    pub const MAKE_COMMENT: u32 = 2;
    pub const ADD_ATTRIBUTE: u32 = 4;
    pub const PUT_NODE: u32 = 5;
    pub const PUT_TEXT: u32 = 6;
    pub const PUT_NODE_BEFORE: u32 = 7;
    pub const PUT_TEXT_BEFORE: u32 = 8;
    pub const PUT_NODE_BY_PARENT: u32 = 9;
    pub const PUT_TEXT_BY_PARENT: u32 = 10;
    pub const REMOVE: u32 = 11;
    pub const REPARENT: u32 = 12;
    pub const TEMPLATE_CONTENTS: u32 = 13;
}

const TEMPLATE: u32 = 4;

/// A page as the steps that build its document, over one text.
#[derive(Default)]
pub(crate) struct Moves {
    steps: Vec<Step>,
    text: Vec<u8>,
    /// Names of the nodes that are elements, and whether they are integration points.
    nodes: Vec<Option<(QualName, bool)>>,
}

impl Moves {
    /// Reads a page with html5ever alone.
    pub fn read(page: &str) -> Moves {
        let options = ParseOpts { tokenizer: TokenizerOpts { discard_bom: false, ..TokenizerOpts::default() }, ..ParseOpts::default() };
        let moves = Moves { nodes: vec![None], ..Moves::default() };
        html5ever::parse_document(moves, options).one(StrTendril::from_slice(page))
    }

    /// Returns the text of the document.
    pub fn render(&self, settings: &[Setting], width: usize) -> Result<String, Error> {
        records::text(Page { steps: &self.steps, text: &self.text, settings, decorator: 0, width }).map(|given| given.as_str().to_owned())
    }

    fn keep(&mut self, text: &str) -> (u32, u32) {
        let start = self.text.len() as u32;
        self.text.extend_from_slice(text.as_bytes());
        (start, text.len() as u32)
    }

    fn make(&mut self, step: Step, node: Option<(QualName, bool)>) -> u32 {
        self.steps.push(step);
        self.nodes.push(node);
        self.nodes.len() as u32 - 1
    }

    fn put(&mut self, step: Step, by_node: u32, by_text: u32, child: NodeOrText<u32>) {
        match child {
            NodeOrText::AppendNode(child) => self.steps.push(Step { kind: by_node, child, ..step }),
            NodeOrText::AppendText(text) => {
                let (value, value_length) = self.keep(&text);
                self.steps.push(Step { kind: by_text, value, value_length, ..step });
            }
        }
    }

    fn add_attributes(&mut self, node: u32, attributes: Vec<Attribute>) {
        for attribute in attributes.iter().filter(|attribute| record::is_asked(&attribute.name.local)) {
            let (name, name_length) = self.keep(&attribute.name.local);
            let (value, value_length) = self.keep(&attribute.value);
            let flags = record::space(&attribute.name.ns);
            self.steps.push(Step { kind: kind::ADD_ATTRIBUTE, flags, node, name, name_length, value, value_length, ..Step::default() });
        }
    }

    fn hides_texts(&self, node: u32) -> bool {
        matches!(&self.nodes[node as usize], Some((name, _)) if name.ns == ns!(html) && matches!(name.local, local_name!("script") | local_name!("style")))
    }
}

impl TreeSink for Moves {
    type Handle = u32;
    type Output = Moves;

    fn finish(self) -> Moves {
        self
    }

    fn parse_error(&mut self, _message: Cow<'static, str>) {}

    fn get_document(&mut self) -> u32 {
        0
    }

    fn elem_name<'a>(&'a self, target: &'a u32) -> ExpandedName<'a> {
        self.nodes[*target as usize].as_ref().map(|(name, _)| name.expanded()).expect("an element")
    }

    fn create_element(&mut self, name: QualName, attributes: Vec<Attribute>, flags: ElementFlags) -> u32 {
        let (start, name_length) = self.keep(&name.local);
        let bits = record::space(&name.ns) | if flags.template { TEMPLATE } else { 0 };
        let step = Step { kind: kind::MAKE_ELEMENT, flags: bits, name: start, name_length, ..Step::default() };
        let node = self.make(step, Some((name, flags.mathml_annotation_xml_integration_point)));
        self.add_attributes(node, attributes);
        if flags.template {
            self.make(Step { kind: kind::TEMPLATE_CONTENTS, node, ..Step::default() }, None);
        }
        node
    }

    fn create_comment(&mut self, _text: StrTendril) -> u32 {
        self.make(Step { kind: kind::MAKE_COMMENT, ..Step::default() }, None)
    }

    fn create_pi(&mut self, _target: StrTendril, text: StrTendril) -> u32 {
        self.create_comment(text)
    }

    fn append(&mut self, parent: &u32, child: NodeOrText<u32>) {
        if !(self.hides_texts(*parent) && matches!(child, NodeOrText::AppendText(_))) {
            self.put(Step { node: *parent, ..Step::default() }, kind::PUT_NODE, kind::PUT_TEXT, child);
        }
    }

    fn append_before_sibling(&mut self, sibling: &u32, child: NodeOrText<u32>) {
        self.put(Step { node: *sibling, ..Step::default() }, kind::PUT_NODE_BEFORE, kind::PUT_TEXT_BEFORE, child);
    }

    fn append_based_on_parent_node(&mut self, element: &u32, previous: &u32, child: NodeOrText<u32>) {
        let step = Step { node: *element, other: *previous, ..Step::default() };
        self.put(step, kind::PUT_NODE_BY_PARENT, kind::PUT_TEXT_BY_PARENT, child);
    }

    fn append_doctype_to_document(&mut self, _name: StrTendril, _public: StrTendril, _system: StrTendril) {}

    fn set_quirks_mode(&mut self, _mode: QuirksMode) {}

    fn get_template_contents(&mut self, target: &u32) -> u32 {
        *target + 1
    }

    fn same_node(&self, x: &u32, y: &u32) -> bool {
        x == y
    }

    fn add_attrs_if_missing(&mut self, target: &u32, attributes: Vec<Attribute>) {
        self.add_attributes(*target, attributes);
    }

    fn remove_from_parent(&mut self, target: &u32) {
        self.steps.push(Step { kind: kind::REMOVE, node: *target, ..Step::default() });
    }

    fn reparent_children(&mut self, node: &u32, new_parent: &u32) {
        self.steps.push(Step { kind: kind::REPARENT, node: *node, other: *new_parent, ..Step::default() });
    }

    fn is_mathml_annotation_xml_integration_point(&self, target: &u32) -> bool {
        matches!(self.nodes[*target as usize], Some((_, true)))
    }
}
