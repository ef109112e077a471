//! html5ever's tree builder over the tree of a page.

use crate::classes::{class_of, Class};
use crate::tree::{Attr, Data, Element, Id, Tree, DOCUMENT, NONE};
use html5ever::tree_builder::{ElementFlags, NodeOrText, QuirksMode, TreeSink};
use html5ever::{local_name, namespace_url, ns, Attribute, ExpandedName, LocalName, QualName};
use std::borrow::Cow;
use tendril::StrTendril;

/// What is kept of a page beside its nodes, and how many nodes it may have.
#[derive(Clone, Copy)]
pub(crate) struct Wanted {
    /// Whether attributes of a name are asked for.
    pub is_asked: fn(&LocalName) -> bool,
    /// Whether the texts of style sheets are.
    pub css: bool,
    /// Maximum number of nodes, and of attributes that are asked for.
    pub max_nodes: usize,
}

/// The tree that html5ever's tree builder makes.
pub(crate) struct Sink {
    pub tree: Tree,
    /// The texts of the page's style sheets, if they are asked for.
    pub css: String,
    /// Whether the page is in quirks mode.
    pub is_quirky: bool,
    /// The attribute `lang` of the page's root.
    pub language: Option<StrTendril>,
    /// An element in the tree of which the tree builder is told, which makes and appends it as if it were new.
    pub retold: Option<Id>,
    wanted: Wanted,
}

impl Sink {
    pub fn new(tree: Tree, wanted: Wanted) -> Sink {
        Sink { tree, css: String::new(), is_quirky: false, language: None, retold: None, wanted }
    }

    /// Notes the language that an attribute of the page's root says, unless an earlier one does.
    fn note_language(&mut self, attribute: &Attribute) {
        if attribute.name.local == local_name!("lang") && self.language.is_none() {
            self.language = Some(attribute.value.clone());
        }
    }

    /// Appends an HTML element other than the root to the children of a node.
    #[inline]
    pub fn append_element(&mut self, parent: Id, name: LocalName, class: Class, attributes: &mut Vec<Attribute>) -> Id {
        if attributes.is_empty() && class != Class::Table {
            return self.tree.append_plain(parent, name, class);
        }
        let node = self.add_element(QualName::new(None, ns!(html), name), class, attributes);
        self.tree.append(parent, node);
        node
    }

    /// Appends a comment to the children of a node.
    pub fn append_comment(&mut self, parent: Id) {
        let node = self.tree.add(Data::Comment);
        self.tree.append(parent, node);
    }

    /// Adds an element that has no parent.
    fn add_element(&mut self, name: QualName, class: Class, attributes: &mut Vec<Attribute>) -> Id {
        let node = self.tree.add_element_of(class, name, attributes.drain(..), self.wanted.is_asked);
        if class == Class::Table {
            self.tree.tables.push(node);
        }
        node
    }

    /// Inserts a node, which leaves its place, or a text before a node that has a parent.
    fn insert_before(&mut self, sibling: Id, child: NodeOrText<Id>) {
        match child {
            NodeOrText::AppendNode(node) => {
                self.tree.detach(node);
                self.tree.insert(self.tree.parent(sibling), sibling, node);
            }
            NodeOrText::AppendText(text) => self.tree.insert_text(self.tree.parent(sibling), sibling, &text),
        }
    }
}

impl TreeSink for Sink {
    type Handle = Id;
    type Output = Sink;

    fn finish(self) -> Sink {
        self
    }

    fn parse_error(&mut self, _message: Cow<'static, str>) {}

    fn get_document(&mut self) -> Id {
        DOCUMENT
    }

    fn elem_name<'a>(&'a self, target: &'a Id) -> ExpandedName<'a> {
        match self.tree.element(*target) {
            Some(element) => ExpandedName { ns: &element.space, local: &element.name },
            None => panic!("html5ever asks the name of an element alone"),
        }
    }

    fn create_element(&mut self, name: QualName, mut attributes: Vec<Attribute>, flags: ElementFlags) -> Id {
        if let Some(node) = self.retold {
            return node;
        }
        if name.local == local_name!("html") && name.ns == ns!(html) {
            attributes.iter().for_each(|attribute| self.note_language(attribute));
        }
        let class = class_of(&name.local);
        let node = self.add_element(name, class, &mut attributes);
        if flags.mathml_annotation_xml_integration_point {
            if let Some(element) = self.tree.element_mut(node) {
                element.is_integration_point = true;
            }
        }
        // the contents of a template have the number after its own
        if flags.template {
            self.tree.add(Data::Root);
        }
        node
    }

    fn create_comment(&mut self, _text: StrTendril) -> Id {
        self.tree.add(Data::Comment)
    }

    fn create_pi(&mut self, _target: StrTendril, _contents: StrTendril) -> Id {
        self.tree.add(Data::Comment)
    }

    fn append(&mut self, parent: &Id, child: NodeOrText<Id>) {
        match child {
            NodeOrText::AppendNode(_) if self.retold.take().is_some() => {}
            NodeOrText::AppendNode(node) => self.tree.append(*parent, node),
            NodeOrText::AppendText(text) => match self.tree.element(*parent) {
                // the text of a style sheet or a script isn't shown
                Some(Element { name: local_name!("style"), space: ns!(html), .. }) => {
                    if self.wanted.css {
                        self.css.push_str(&text);
                    }
                }
                Some(Element { name: local_name!("script"), space: ns!(html), .. }) => {}
                _ => self.tree.insert_text(*parent, NONE, &text),
            },
        }
    }

    fn append_before_sibling(&mut self, sibling: &Id, child: NodeOrText<Id>) {
        self.insert_before(*sibling, child);
    }

    fn append_based_on_parent_node(&mut self, element: &Id, previous: &Id, child: NodeOrText<Id>) {
        if self.tree.parent(*element) == NONE {
            if let NodeOrText::AppendNode(node) = child {
                self.tree.detach(node);
            }
            self.append(previous, child);
        } else {
            self.insert_before(*element, child);
        }
    }

    fn append_doctype_to_document(&mut self, _name: StrTendril, _public: StrTendril, _system: StrTendril) {}

    fn set_quirks_mode(&mut self, mode: QuirksMode) {
        self.is_quirky = mode == QuirksMode::Quirks;
    }

    fn get_template_contents(&mut self, target: &Id) -> Id {
        *target + 1
    }

    fn same_node(&self, x: &Id, y: &Id) -> bool {
        x == y
    }

    fn add_attrs_if_missing(&mut self, target: &Id, attributes: Vec<Attribute>) {
        let is_root = matches!(self.tree.element(*target), Some(Element { name: local_name!("html"), space: ns!(html), .. }));
        for attribute in attributes {
            if is_root {
                self.note_language(&attribute);
            }
            let Attribute { name, value } = attribute;
            if (self.wanted.is_asked)(&name.local) {
                self.tree.add_attribute_if_missing(*target, Attr { name: name.local, value });
            }
        }
    }

    fn remove_from_parent(&mut self, target: &Id) {
        self.tree.detach(*target);
    }

    fn reparent_children(&mut self, node: &Id, new_parent: &Id) {
        self.tree.move_children(*node, *new_parent);
    }

    fn is_mathml_annotation_xml_integration_point(&self, target: &Id) -> bool {
        matches!(self.tree.element(*target), Some(element) if element.is_integration_point)
    }
}
