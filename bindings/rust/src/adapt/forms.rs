//! Fields and buttons of forms as texts.

use super::is_dropped;
use crate::tree::{Data, Id, Tree};
use html5ever::{local_name, LocalName};

/// What follows the value of a field.
const FILL: &str = "____";

fn value<'a>(tree: &'a Tree, node: Id, name: &LocalName) -> &'a str {
    tree.attribute(node, name).map_or("", |value| value.trim())
}

fn has(tree: &Tree, node: Id, name: &LocalName) -> bool {
    tree.attribute(node, name).is_some()
}

/// Returns what an `input` is shown as; nothing of a hidden one.
pub(crate) fn input(tree: &Tree, node: Id) -> Option<String> {
    let given = value(tree, node, &local_name!("value"));
    let is_checked = has(tree, node, &local_name!("checked"));
    let kind = value(tree, node, &local_name!("type")).to_ascii_lowercase();
    let or = |text: &str, otherwise: &str| if text.is_empty() { otherwise.to_owned() } else { text.to_owned() };
    let button = |text: &str| format!("[ {text} ]");
    Some(match kind.as_str() {
        "hidden" => return None,
        "password" => format!("[{FILL}]"),
        "checkbox" => (if is_checked { "[x]" } else { "[ ]" }).to_owned(),
        "radio" => (if is_checked { "(*)" } else { "( )" }).to_owned(),
        "button" if given.is_empty() => return None,
        "button" => button(given),
        "reset" => button(&or(given, "Reset")),
        "submit" => button(&or(given, "Submit")),
        "image" => button(&or(value(tree, node, &local_name!("alt")), &or(given, "Submit"))),
        _ => format!("[{given}{FILL}]"),
    })
}

/// Returns the options of a `select` in document order, those of its groups among them.
fn options(tree: &Tree, select: Id) -> Vec<Id> {
    let mut found = Vec::new();
    for child in tree.children(select) {
        match tree.element(child) {
            Some(element) if element.name == local_name!("option") => found.push(child),
            Some(element) if element.name == local_name!("optgroup") => {
                found.extend(tree.children(child).filter(|&it| matches!(tree.element(it), Some(inner) if inner.name == local_name!("option"))));
            }
            _ => {}
        }
    }
    found.retain(|&option| !is_dropped(tree.attributes_of(option), true));
    found
}

/// Returns what a `select` is shown as: its chosen options, or the first if one has to be chosen. The texts of the tree are ranges of
/// `text`.
pub(crate) fn select(tree: &Tree, text: &[u8], node: Id) -> String {
    let options = options(tree, node);
    let mut chosen: Vec<Id> = options.iter().copied().filter(|&option| has(tree, option, &local_name!("selected"))).collect();
    if !has(tree, node, &local_name!("multiple")) {
        // the last one that says so is chosen
        chosen = chosen.last().or_else(|| options.first()).copied().into_iter().collect();
    }
    let names: Vec<String> = chosen.into_iter().map(|option| name_of(tree, text, option)).filter(|name| !name.is_empty()).collect();
    if names.is_empty() {
        format!("[{FILL}]")
    } else {
        format!("[{}]", names.join(", "))
    }
}

/// Returns the text of an option.
fn name_of(tree: &Tree, text: &[u8], option: Id) -> String {
    let mut name = String::new();
    for child in tree.children(option) {
        if let Data::Text { start, length, .. } = *tree.data(child) {
            name.push_str(&String::from_utf8_lossy(&text[start as usize..][..length as usize]));
        }
    }
    name.split_ascii_whitespace().collect::<Vec<_>>().join(" ")
}

#[cfg(test)]
mod tests {
    use super::*;
    use crate::characters::Filter;
    use crate::tree::Tree;
    use html5ever::{namespace_url, ns, Attribute, QualName};

    fn shown(attributes: &[(LocalName, &str)]) -> Option<String> {
        let mut tree = Tree::new(Filter::default());
        let attributes = attributes.iter().map(|(name, value)| Attribute { name: QualName::new(None, ns!(), name.clone()), value: (*value).into() });
        let node = tree.add_element(QualName::new(None, ns!(html), local_name!("input")), attributes, |_| true);
        input(&tree, node)
    }

    #[test]
    fn inputs() {
        let (kind, value) = (local_name!("type"), local_name!("value"));
        for (given, wanted) in [
            (vec![], Some("[____]")),
            (vec![(value.clone(), " Ann ")], Some("[Ann____]")),
            (vec![(kind.clone(), "PASSWORD"), (value.clone(), "x")], Some("[____]")),
            (vec![(kind.clone(), "hidden"), (value.clone(), "x")], None),
            (vec![(kind.clone(), "radio"), (local_name!("checked"), "")], Some("(*)")),
            (vec![(kind.clone(), "checkbox"), (value.clone(), "x")], Some("[ ]")),
            (vec![(kind.clone(), "submit")], Some("[ Submit ]")),
            (vec![(kind.clone(), "button"), (value, "Go")], Some("[ Go ]")),
            (vec![(kind, "button")], None),
        ] {
            assert_eq!(shown(&given).as_deref(), wanted, "{given:?}");
        }
    }
}
