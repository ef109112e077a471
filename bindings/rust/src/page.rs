//! Pages as lines, with what a program may want of them beside the lines.

use crate::lines::{RichAnnotation, TaggedLine};
use std::collections::HashSet;

/// A page as lines of annotated strings: [`render_lines`] and [`Config::page_from_read`] return it. With the feature `serde` it can be
/// serialized; `docs/HTML.md` has the schema.
///
/// [`render_lines`]: crate::render_lines
/// [`Config::page_from_read`]: crate::config::Config::page_from_read
#[derive(Clone, Debug, Default, PartialEq, Eq, Hash)]
#[non_exhaustive]
pub struct RenderedPage {
    /// The title, if the page has one.
    pub title: Option<String>,
    /// The language that the root of the page names, for example `en`.
    pub language: Option<String>,
    /// The targets of links, in the order in which they are shown, each once.
    pub links: Vec<String>,
    /// The lines.
    pub lines: Vec<TaggedLine<Vec<RichAnnotation>>>,
}

/// Returns the targets of the links in lines, in order, each once.
pub(crate) fn links_of(lines: &[TaggedLine<Vec<RichAnnotation>>]) -> Vec<String> {
    let annotations = lines.iter().flat_map(TaggedLine::tagged_strings).flat_map(|string| &string.tag);
    let targets = annotations.filter_map(|annotation| match annotation {
        RichAnnotation::Link(target) => Some(target),
        _ => None,
    });
    let mut known = HashSet::new();
    targets.filter(|target| known.insert(target.as_str())).cloned().collect()
}
