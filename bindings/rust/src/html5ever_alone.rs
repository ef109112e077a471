//! The document that html5ever alone builds of a page, for tests: its tokenizer and tree builder over nodes that share no code with
//! `tree` and `sink`.

use html5ever::driver::ParseOpts;
use html5ever::tokenizer::TokenizerOpts;
use html5ever::tree_builder::{ElementFlags, NodeOrText, QuirksMode, TreeBuilderOpts, TreeSink};
use html5ever::{local_name, namespace_url, ns, Attribute, ExpandedName, LocalName, Namespace, QualName};
use std::borrow::Cow;
use tendril::{SliceExt, StrTendril, TendrilSink};

/// A document as a text: elements as `<html:p id="a">"text"</>`, comments as `<!>`, the contents of a `template` in braces.
pub(crate) struct Outline {
    written: String,
    /// The text that may continue.
    text: String,
}

impl Outline {
    /// Writes what is known of a document beside its nodes.
    pub fn new(is_quirky: bool, language: Option<&str>, css: &str) -> Outline {
        Outline { written: format!("quirky: {is_quirky}, language: {language:?}, CSS: {css:?}, "), text: String::new() }
    }

    fn write(&mut self, mark: &str) {
        if !self.text.is_empty() {
            self.written.push_str(&format!("{:?}", self.text));
            self.text.clear();
        }
        self.written.push_str(mark);
    }

    /// Writes a text; `continues` says that it is a part of the one before it.
    pub fn text(&mut self, text: &str, continues: bool) {
        if !continues {
            self.write("");
        }
        self.text.push_str(text);
    }

    pub fn comment(&mut self) {
        self.write("<!>");
    }

    pub fn open<'a>(&mut self, space: &Namespace, name: &LocalName, attributes: impl Iterator<Item = (&'a LocalName, &'a StrTendril)>) {
        let space = space.rsplit('/').next().unwrap_or_default();
        let attributes: String = attributes.map(|(name, value)| format!(" {name}={:?}", &**value)).collect();
        self.write(&format!("<{space}:{name}{attributes}>"));
    }

    pub fn close(&mut self) {
        self.write("</>");
    }

    pub fn open_contents(&mut self) {
        self.write("{");
    }

    pub fn close_contents(&mut self) {
        self.write("}");
    }

    pub fn finish(mut self) -> String {
        self.write("");
        self.written
    }
}

type Number = usize;

const DOCUMENT: Number = 0;

struct Element {
    name: QualName,
    attributes: Vec<Attribute>,
    /// The parent of what is in a `template`.
    contents: Option<Number>,
    is_integration_point: bool,
}

enum Content {
    Root,
    Element(Element),
    Text(String),
    Comment,
}

struct Node {
    parent: Option<Number>,
    children: Vec<Number>,
    content: Content,
}

/// The nodes of a document. Each has the numbers of its children.
struct Nodes {
    nodes: Vec<Node>,
    is_quirky: bool,
    language: Option<String>,
}

impl Nodes {
    fn new() -> Nodes {
        let mut nodes = Nodes { nodes: Vec::new(), is_quirky: false, language: None };
        nodes.add(Content::Root);
        nodes
    }

    fn add(&mut self, content: Content) -> Number {
        self.nodes.push(Node { parent: None, children: Vec::new(), content });
        self.nodes.len() - 1
    }

    fn element(&self, node: Number) -> &Element {
        match &self.nodes[node].content {
            Content::Element(element) => element,
            _ => panic!("node {node} is no element"),
        }
    }

    fn is_html(&self, node: Number, name: &LocalName) -> bool {
        matches!(&self.nodes[node].content, Content::Element(element) if element.name.ns == ns!(html) && element.name.local == *name)
    }

    /// Returns the parent of a node and its index among the children.
    fn place(&self, node: Number) -> Option<(Number, usize)> {
        let parent = self.nodes[node].parent?;
        let index = self.nodes[parent].children.iter().position(|&child| child == node)?;
        Some((parent, index))
    }

    fn detach(&mut self, node: Number) {
        if let Some((parent, index)) = self.place(node) {
            self.nodes[parent].children.remove(index);
            self.nodes[node].parent = None;
        }
    }

    /// Inserts a node that has no parent, or a text, which joins one before it.
    fn insert(&mut self, parent: Number, index: usize, child: NodeOrText<Number>) {
        let node = match child {
            NodeOrText::AppendNode(node) => node,
            NodeOrText::AppendText(text) => {
                let previous = index.checked_sub(1).map(|index| self.nodes[parent].children[index]);
                if let Some(Content::Text(before)) = previous.map(|previous| &mut self.nodes[previous].content) {
                    before.push_str(&text);
                    return;
                }
                self.add(Content::Text(text.to_string()))
            }
        };
        self.nodes[parent].children.insert(index, node);
        self.nodes[node].parent = Some(parent);
    }

    fn note_language(&mut self, attributes: &[Attribute]) {
        let language = attributes.iter().find(|attribute| attribute.name.local == local_name!("lang"));
        if self.language.is_none() {
            self.language = language.map(|attribute| attribute.value.to_string());
        }
    }

    /// Returns the texts of all `style` elements, in the order in which these were made.
    fn css(&self) -> String {
        let styles = (0..self.nodes.len()).filter(|&node| self.is_html(node, &local_name!("style")));
        let texts = styles.flat_map(|style| &self.nodes[style].children);
        texts.filter_map(|&text| if let Content::Text(text) = &self.nodes[text].content { Some(text.as_str()) } else { None }).collect()
    }

    /// Writes the children of a node, with those of their attributes that are asked for. Texts of style sheets and scripts aren't shown.
    fn write_children(&self, parent: Number, is_asked: fn(&LocalName) -> bool, outline: &mut Outline) {
        let hides_texts = self.is_html(parent, &local_name!("style")) || self.is_html(parent, &local_name!("script"));
        for &child in &self.nodes[parent].children {
            match &self.nodes[child].content {
                Content::Root => {}
                Content::Text(text) if hides_texts || text.is_empty() => {}
                Content::Text(text) => outline.text(text, false),
                Content::Comment => outline.comment(),
                Content::Element(Element { name, attributes, contents, .. }) => {
                    let asked = attributes.iter().filter(|attribute| is_asked(&attribute.name.local));
                    outline.open(&name.ns, &name.local, asked.map(|attribute| (&attribute.name.local, &attribute.value)));
                    if let Some(contents) = contents {
                        outline.open_contents();
                        self.write_children(*contents, is_asked, outline);
                        outline.close_contents();
                    }
                    self.write_children(child, is_asked, outline);
                    outline.close();
                }
            }
        }
    }
}

impl TreeSink for Nodes {
    type Handle = Number;
    type Output = Nodes;

    fn finish(self) -> Nodes {
        self
    }

    fn parse_error(&mut self, _message: Cow<'static, str>) {}

    fn get_document(&mut self) -> Number {
        DOCUMENT
    }

    fn elem_name<'a>(&'a self, target: &'a Number) -> ExpandedName<'a> {
        self.element(*target).name.expanded()
    }

    fn create_element(&mut self, name: QualName, attributes: Vec<Attribute>, flags: ElementFlags) -> Number {
        if name.ns == ns!(html) && name.local == local_name!("html") {
            self.note_language(&attributes);
        }
        let contents = if flags.template { Some(self.add(Content::Root)) } else { None };
        self.add(Content::Element(Element { name, attributes, contents, is_integration_point: flags.mathml_annotation_xml_integration_point }))
    }

    fn create_comment(&mut self, _text: StrTendril) -> Number {
        self.add(Content::Comment)
    }

    fn create_pi(&mut self, _target: StrTendril, _data: StrTendril) -> Number {
        self.add(Content::Comment)
    }

    fn append(&mut self, parent: &Number, child: NodeOrText<Number>) {
        if let NodeOrText::AppendNode(node) = child {
            self.detach(node);
        }
        self.insert(*parent, self.nodes[*parent].children.len(), child);
    }

    fn append_before_sibling(&mut self, sibling: &Number, child: NodeOrText<Number>) {
        if let NodeOrText::AppendNode(node) = child {
            self.detach(node);
        }
        let (parent, index) = self.place(*sibling).expect("a sibling has a parent");
        self.insert(parent, index, child);
    }

    fn append_based_on_parent_node(&mut self, element: &Number, previous: &Number, child: NodeOrText<Number>) {
        if self.nodes[*element].parent.is_some() {
            self.append_before_sibling(element, child);
        } else {
            self.append(previous, child);
        }
    }

    fn append_doctype_to_document(&mut self, _name: StrTendril, _public: StrTendril, _system: StrTendril) {}

    fn get_template_contents(&mut self, target: &Number) -> Number {
        self.element(*target).contents.expect("a template has contents")
    }

    fn same_node(&self, one: &Number, other: &Number) -> bool {
        one == other
    }

    fn set_quirks_mode(&mut self, mode: QuirksMode) {
        self.is_quirky = mode == QuirksMode::Quirks;
    }

    fn add_attrs_if_missing(&mut self, target: &Number, added: Vec<Attribute>) {
        if self.is_html(*target, &local_name!("html")) {
            self.note_language(&added);
        }
        if let Content::Element(Element { attributes, .. }) = &mut self.nodes[*target].content {
            for attribute in added {
                if attributes.iter().all(|other| other.name != attribute.name) {
                    attributes.push(attribute);
                }
            }
        }
    }

    fn remove_from_parent(&mut self, target: &Number) {
        self.detach(*target);
    }

    fn reparent_children(&mut self, node: &Number, new_parent: &Number) {
        let children = std::mem::take(&mut self.nodes[*node].children);
        for &child in &children {
            self.nodes[child].parent = Some(*new_parent);
        }
        self.nodes[*new_parent].children.extend(children);
    }

    fn is_mathml_annotation_xml_integration_point(&self, target: &Number) -> bool {
        self.element(*target).is_integration_point
    }
}

/// Returns the document of a page, with those of the attributes that are asked for.
pub(crate) fn document(page: &str, is_asked: fn(&LocalName) -> bool, tree_builder: TreeBuilderOpts) -> String {
    // its tokenizer would drop a byte order mark after each script too
    let tokenizer = TokenizerOpts { discard_bom: false, ..TokenizerOpts::default() };
    let nodes = html5ever::parse_document(Nodes::new(), ParseOpts { tokenizer, tree_builder }).one(page.to_tendril());
    let mut outline = Outline::new(nodes.is_quirky, nodes.language.as_deref(), &nodes.css());
    nodes.write_children(DOCUMENT, is_asked, &mut outline);
    outline.finish()
}
