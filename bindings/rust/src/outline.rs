//! A recorded document as HTML, for tests: what is recorded is seen without rendering it.

use crate::adapt::UNSIGNED_CLASS;
use crate::config::{plain, Config};
use crate::options::Options;
use crate::record::kind;
use crate::records::Step;
use crate::render::TextDecorator;

/// A node of a recorded document.
#[derive(Default)]
struct Node {
    name: String,
    attributes: Vec<(String, String)>,
    children: Vec<Child>,
}

enum Child {
    Node(usize),
    Text(String),
}

/// Returns the contents of a page's `body` as they are recorded. An element without signs begins with `!`, and a link's target
/// follows its name.
pub(crate) fn of<D: TextDecorator>(config: &Config<D>, page: &str) -> String {
    let (steps, text, _) = config.recorded(page);
    let nodes = nodes_of(&steps, &text);
    let body = nodes.iter().position(|node| node.name == "body").expect("a body");
    let mut written = String::new();
    write_children(&nodes, body, &mut written);
    written
}

/// Checks what plain text records of a page in two ways. Where a rule may select elements by their names, elements without signs keep
/// them; otherwise their name is `ins`.
pub(crate) fn check(options: Options, page: &str, wanted: &str) {
    let styled = plain().add_css("x { color: red }").expect("a rule").as_shown(options.clone());
    assert_eq!(of(&styled, page), wanted, "{page}");
    let renamed = ["b", "code", "em"].iter().fold(wanted.replace("<!span>", "<span>"), |text, name| text.replace(&format!("<!{name}>"), "<ins>"));
    assert_eq!(of(&plain().as_shown(options), page), renamed, "{page}");
}

fn nodes_of(steps: &[Step], text: &[u8]) -> Vec<Node> {
    let piece = |start: u32, length: u32| String::from_utf8_lossy(&text[start as usize..][..length as usize]).into_owned();
    let mut nodes = vec![Node::default()];
    for step in steps {
        let parent = step.node as usize;
        match step.kind {
            kind::APPEND_ELEMENT => {
                let child = Child::Node(nodes.len());
                nodes[parent].children.push(child);
                nodes.push(Node { name: piece(step.name, step.name_length), ..Node::default() });
            }
            kind::ADD_ATTRIBUTE => {
                let attribute = (piece(step.name, step.name_length), piece(step.value, step.value_length));
                nodes[parent].attributes.push(attribute);
            }
            kind::PUT_TEXT => nodes[parent].children.push(Child::Text(piece(step.value, step.value_length))),
            kind::MAKE_COMMENT => nodes.push(Node::default()),
            _ => {}
        }
    }
    nodes
}

fn write_children(nodes: &[Node], node: usize, written: &mut String) {
    for child in &nodes[node].children {
        match child {
            Child::Text(text) => written.push_str(text),
            Child::Node(child) => write_element(nodes, *child, written),
        }
    }
}

fn write_element(nodes: &[Node], node: usize, written: &mut String) {
    let Node { name, attributes, .. } = &nodes[node];
    let has = |wanted: &str| attributes.iter().find(|(name, _)| name == wanted).map(|(_, value)| value.as_str());
    let is_unsigned = has("class").map_or(false, |classes| classes.split(' ').any(|class| class == UNSIGNED_CLASS));
    written.push('<');
    if is_unsigned {
        written.push('!');
    }
    written.push_str(name);
    for value in ["href", "alt"].into_iter().filter_map(has) {
        written.push(' ');
        written.push_str(value);
    }
    written.push('>');
    write_children(nodes, node, written);
    written.push_str("</>");
}
