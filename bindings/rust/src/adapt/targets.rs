//! Targets of links: which of them a reader is told, and how they are resolved.

use super::embedded::scheme;
use crate::tree::{Id, Tree};
use html5ever::{local_name, namespace_url, ns};
use memchr::memchr3;
use std::borrow::Cow;
use url::Url;

/// Returns a target as it is written, without the white space that a browser drops.
pub(crate) fn written(href: &str) -> Cow<'_, str> {
    let trimmed = match href.as_bytes() {
        [first, .., last] if first.is_ascii_graphic() && last.is_ascii_graphic() => href,
        _ => href.trim_matches(|c: char| c.is_ascii_whitespace()),
    };
    if memchr3(b'\t', b'\n', b'\r', trimmed.as_bytes()).is_some() {
        trimmed.chars().filter(|c| !matches!(c, '\t' | '\n' | '\r')).collect()
    } else {
        trimmed.into()
    }
}

/// Reports whether a target that is written leads somewhere else: it isn't empty, a place in the page or a script.
pub(crate) fn leads_out(written: &str) -> bool {
    let bare = written.trim_start_matches(|c| c <= ' ');
    let is_script = scheme(bare).map_or(false, |scheme| scheme.eq_ignore_ascii_case("javascript"));
    !bare.is_empty() && !bare.starts_with('#') && !is_script
}

fn without_slash(target: &str) -> &str {
    target.strip_suffix('/').unwrap_or(target)
}

/// Maximum number of bytes of a target that are missing in a text which tells it: a scheme and a slash.
pub(crate) const MAX_UNTOLD: usize = "https://".len() + "/".len();

/// Reports whether a text is a target, or one without its scheme; a slash at the end doesn't count.
pub(crate) fn is_told_by(text: &str, target: &str) -> bool {
    const SCHEMES: [&str; 3] = ["http://", "https://", "mailto:"];
    let (text, target) = (without_slash(text), without_slash(target));
    text == target || SCHEMES.iter().any(|scheme| target.strip_prefix(scheme) == Some(text))
}

/// Maximum number of bytes of a page's own base, which each target may repeat.
const MAX_BASE: usize = 500;

/// Returns the address that the targets of a page are resolved against: that of its first `base`, or else the one it was read from.
pub(crate) fn base(tree: &Tree, page: Option<&Url>) -> Option<Url> {
    let is_base = |&node: &Id| matches!(tree.element(node), Some(element) if element.name == local_name!("base") && element.space == ns!(html));
    let href = tree.ids().filter(is_base).find_map(|node| tree.attribute(node, &local_name!("href")));
    let own = href.and_then(|href| match page {
        Some(page) => page.join(href).ok(),
        None => Url::parse(href).ok(),
    });
    own.filter(|own| own.as_str().len() <= MAX_BASE).or_else(|| page.cloned())
}

/// Reports whether a target has a scheme, and so isn't resolved.
pub(crate) fn has_scheme(target: &str) -> bool {
    scheme(target).is_some()
}

/// Returns a target without a scheme resolved against an address; `None` where it can't be.
pub(crate) fn resolved(target: &str, base: Option<&Url>) -> Option<String> {
    Some(base?.join(target).ok()?.into())
}

#[cfg(test)]
mod tests {
    use super::*;
    use crate::characters::Filter;
    use html5ever::{Attribute, QualName};

    #[test]
    fn targets_that_lead_out() {
        for href in ["a", " https://a.example ", "mailto:a", "?x#y", "javascript"] {
            assert!(leads_out(&written(href)), "{href}");
        }
        for href in ["", " \n", "#", " #top", "javascript:x()", " Java\nScript:", "\u{1} javascript:x"] {
            assert!(!leads_out(&written(href)), "{href}");
        }
    }

    #[test]
    fn texts_that_tell_their_targets() {
        for (text, target) in [
            ("https://a.example/", "https://a.example"),
            ("a.example", "http://a.example/"),
            ("a@b.example", "mailto:a@b.example"),
            ("a/b.html", "a/b.html"),
        ] {
            assert!(is_told_by(text, target), "{text} {target}");
        }
        for (text, target) in [("A.example", "http://a.example"), ("a", "http://b/a"), ("", "http://b"), ("http://a", "a")] {
            assert!(!is_told_by(text, target), "{text} {target}");
        }
    }

    #[test]
    fn bases() {
        let found = |href: &str, page: Option<&Url>| {
            let mut tree = Tree::new(Filter::default());
            let attribute = Attribute { name: QualName::new(None, ns!(), local_name!("href")), value: href.into() };
            tree.add_element(QualName::new(None, ns!(html), local_name!("base")), vec![attribute], |_| true);
            base(&tree, page).map(String::from)
        };
        let page = Url::parse("https://a.example/b").unwrap();
        assert_eq!(found("c/", Some(&page)).as_deref(), Some("https://a.example/c/"));
        assert_eq!(found("http://c", None).as_deref(), Some("http://c/"));
        assert_eq!(found("c", None), None);
        assert_eq!(found(&"c".repeat(MAX_BASE), Some(&page)).as_deref(), Some("https://a.example/b"));
    }

    #[test]
    fn targets_are_resolved() {
        let base = Url::parse("https://a.example/b/c.html").unwrap();
        for (target, wanted) in [
            ("d.html?e", Some("https://a.example/b/d.html?e")),
            ("/f", Some("https://a.example/f")),
            ("//g.example/", Some("https://g.example/")),
        ] {
            assert_eq!(resolved(target, Some(&base)).as_deref(), wanted, "{target}");
        }
        assert!(has_scheme("mailto:h") && has_scheme(" HTTP://i") && !has_scheme("a/b:c"));
        assert_eq!(resolved("a", None), None);
        assert_eq!(resolved("a", Url::parse("mailto:b").ok().as_ref()), None);
    }
}
