//! Embedded contents, as a link that is named by their title or file.

use crate::tree::{Id, Tree};
use html5ever::{local_name, LocalName};
use tendril::StrTendril;

/// A link to embedded contents.
#[derive(Debug, PartialEq, Eq)]
pub(crate) struct Link {
    pub target: StrTendril,
    pub name: String,
}

/// Returns the link to what an element embeds, if it can be followed.
pub(crate) fn link(tree: &Tree, node: Id, name: &LocalName) -> Option<Link> {
    let target = match *name {
        local_name!("object") => tree.attribute(node, &local_name!("data")),
        local_name!("audio") | local_name!("video") => tree.attribute(node, &local_name!("src")).or_else(|| source(tree, node)),
        _ => tree.attribute(node, &local_name!("src")),
    };
    let target = target.filter(|target| can_be_followed(target))?;
    let title = tree.attribute(node, &local_name!("title")).map(|title| title.trim()).filter(|title| !title.is_empty());
    Some(Link { target: target.clone(), name: title.unwrap_or_else(|| file_name(target)).to_owned() })
}

/// Returns the address of the first `source` in a `video` or `audio`.
fn source(tree: &Tree, node: Id) -> Option<&StrTendril> {
    let is_source = |&child: &Id| matches!(tree.element(child), Some(element) if element.name == local_name!("source"));
    tree.children(node).filter(is_source).find_map(|child| tree.attribute(child, &local_name!("src")))
}

/// Returns the name of an image in a link: that of its file, or else of the link's.
pub(crate) fn image_name(tree: &Tree, image: Id, link: Id) -> String {
    let source = tree.attribute(image, &local_name!("src")).filter(|source| can_be_followed(source));
    let name = source.or_else(|| tree.attribute(link, &local_name!("href"))).map_or("", |address| file_name(address));
    tree.filter.filtered(name).into_owned()
}

/// Returns the scheme of an address, if it states one.
pub(crate) fn scheme(address: &str) -> Option<&str> {
    match ["https://", "http://"].iter().find(|usual| address.starts_with(**usual)) {
        Some(usual) => Some(&usual[..usual.len() - "://".len()]),
        None => other_scheme(address.trim_start()),
    }
}

/// Returns what precedes the colon of an address, if it can be a scheme.
fn other_scheme(address: &str) -> Option<&str> {
    let length = address.bytes().position(|byte| !byte.is_ascii_alphanumeric() && !matches!(byte, b'+' | b'-' | b'.'))?;
    let is_scheme = address.as_bytes()[length] == b':' && address.starts_with(|c: char| c.is_ascii_alphabetic());
    is_scheme.then(|| &address[..length])
}

/// Reports whether an address leads out of the page.
fn can_be_followed(address: &str) -> bool {
    const WITHIN: [&str; 5] = ["about", "blob", "data", "javascript", "vbscript"];
    let scheme = scheme(address);
    !address.trim().is_empty() && !WITHIN.iter().any(|within| scheme.map_or(false, |scheme| scheme.eq_ignore_ascii_case(within)))
}

/// Returns the part of an address that names a file; the host where it has no path, or else all.
pub(crate) fn file_name(address: &str) -> &str {
    let address = address.trim();
    let path = address.split(|c| c == '?' || c == '#').next().unwrap_or(address).trim_end_matches('/');
    match path.rsplit('/').next() {
        Some(name) if !name.is_empty() => name,
        _ => address,
    }
}

#[cfg(test)]
mod tests {
    use super::*;

    #[test]
    fn names_of_files() {
        for (address, name) in [
            ("https://a.example/films/boat.mp4?t=3#x", "boat.mp4"),
            ("https://a.example/embed/", "embed"),
            ("https://a.example/", "a.example"),
            ("boat.mp4", "boat.mp4"),
            ("?x", "?x"),
        ] {
            assert_eq!(file_name(address), name, "{address}");
        }
    }

    #[test]
    fn addresses_that_lead_out() {
        for address in ["a.html", "https://a.example", "//a.example/x:y", "mailto:a", "a:b/c"] {
            assert!(can_be_followed(address), "{address}");
        }
        for address in ["", " ", "about:blank", "JavaScript:x()", " data:text/html,x"] {
            assert!(!can_be_followed(address), "{address}");
        }
    }
}
