//! Serialized pages, as `docs/HTML.md` describes them.

use crate::lines::{Colour, RichAnnotation, TaggedLine, TaggedLineElement, TaggedString};
use crate::page::RenderedPage;
use serde::ser::{Serialize, SerializeMap, SerializeStruct, Serializer};

impl Serialize for RenderedPage {
    fn serialize<S: Serializer>(&self, serializer: S) -> Result<S::Ok, S::Error> {
        let mut page = serializer.serialize_struct("RenderedPage", 4)?;
        page.serialize_field("title", &self.title)?;
        page.serialize_field("language", &self.language)?;
        page.serialize_field("links", &self.links)?;
        page.serialize_field("lines", &self.lines)?;
        page.end()
    }
}

impl<T: Serialize> Serialize for TaggedLine<T> {
    fn serialize<S: Serializer>(&self, serializer: S) -> Result<S::Ok, S::Error> {
        serializer.collect_seq(self)
    }
}

impl<T: Serialize> Serialize for TaggedLineElement<T> {
    fn serialize<S: Serializer>(&self, serializer: S) -> Result<S::Ok, S::Error> {
        match self {
            TaggedLineElement::Str(string) => string.serialize(serializer),
            TaggedLineElement::FragmentStart(name) => {
                let mut fragment = serializer.serialize_map(Some(1))?;
                fragment.serialize_entry("fragment", name)?;
                fragment.end()
            }
        }
    }
}

impl<T: Serialize> Serialize for TaggedString<T> {
    fn serialize<S: Serializer>(&self, serializer: S) -> Result<S::Ok, S::Error> {
        let mut string = serializer.serialize_struct("TaggedString", 2)?;
        string.serialize_field("text", &self.s)?;
        string.serialize_field("annotations", &self.tag)?;
        string.end()
    }
}

/// Returns the name of an annotation's kind.
fn kind(annotation: &RichAnnotation) -> &'static str {
    match annotation {
        RichAnnotation::Default => "default",
        RichAnnotation::Link(_) => "link",
        RichAnnotation::Image(_) => "image",
        RichAnnotation::Emphasis => "emphasis",
        RichAnnotation::Strong => "strong",
        RichAnnotation::Strikeout => "strikeout",
        RichAnnotation::Code => "code",
        RichAnnotation::Preformat(_) => "preformatted",
        RichAnnotation::Colour(_) => "colour",
        RichAnnotation::BgColour(_) => "background",
    }
}

impl Serialize for RichAnnotation {
    fn serialize<S: Serializer>(&self, serializer: S) -> Result<S::Ok, S::Error> {
        let mut map = serializer.serialize_map(None)?;
        map.serialize_entry("kind", kind(self))?;
        match self {
            RichAnnotation::Link(target) => map.serialize_entry("target", target)?,
            RichAnnotation::Image(source) => map.serialize_entry("source", source)?,
            RichAnnotation::Preformat(is_continued) => map.serialize_entry("continued", is_continued)?,
            RichAnnotation::Colour(colour) | RichAnnotation::BgColour(colour) => map.serialize_entry("colour", colour)?,
            RichAnnotation::Default | RichAnnotation::Emphasis | RichAnnotation::Strong | RichAnnotation::Strikeout | RichAnnotation::Code => {}
        }
        map.end()
    }
}

impl Serialize for Colour {
    fn serialize<S: Serializer>(&self, serializer: S) -> Result<S::Ok, S::Error> {
        serializer.collect_str(self)
    }
}
