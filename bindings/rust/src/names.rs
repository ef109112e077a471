//! Cache of the names of tags and attributes: html5ever's atoms, for which each name would be hashed.

use crate::classes::{class_of, Class};
use crate::written::part;
use html5ever::{local_name, LocalName};
use std::cell::Cell;

/// Cache of recent names, with a slot for each key. The key of a name is a number of its last 8 bytes, as it is written.
pub(crate) struct Names {
    slots: [Known; 1 << SLOT_BITS],
    is_asked: fn(&LocalName) -> bool,
    /// Whether a name is longer than those that are kept from page to page.
    has_long: bool,
}

thread_local! {
    /// The cache of the last page that this thread read: most names are those of each page.
    static LAST: Cell<Option<Box<Names>>> = const { Cell::new(None) };
}

/// A name, and properties of the elements and attributes of that name.
#[derive(Clone)]
pub(crate) struct Known {
    key: u64,
    pub name: LocalName,
    /// Whether attributes of this name are asked for.
    pub is_asked: bool,
    /// Whether it is the name of a formatting element, which the tree builder reopens, and compares with others by all attributes.
    pub is_formatting: bool,
    /// Whether raw text follows the start tag of an element of this name.
    is_raw: bool,
    /// The class of HTML elements of this name.
    pub class: Class,
}

const SLOT_BITS: u32 = 9;

/// Maximum length of a name that is kept from page to page.
const MAX_KEPT: usize = 64;

/// Maximum length of a name whose key has all of its bytes.
const MAX_LENGTH: usize = 8;

/// Bit of the keys of longer names, which others may have too. No byte of a name has its highest bit.
const IS_LONGER: u64 = 1 << 63;

/// Reports whether html5ever's tree builder asks for attributes of a name, or its sink, which notes the page's language.
pub(crate) fn is_asked_by_builder(name: &LocalName) -> bool {
    matches!(
        *name,
        local_name!("color") | local_name!("encoding") | local_name!("face") | local_name!("form") | local_name!("lang") | local_name!("size") | local_name!("type")
    )
}

/// Reports whether html5ever's tree builder keeps an element of this name in its list of formatting elements.
fn is_formatting(name: &LocalName) -> bool {
    matches!(
        *name,
        local_name!("a")
            | local_name!("b")
            | local_name!("big")
            | local_name!("code")
            | local_name!("em")
            | local_name!("font")
            | local_name!("i")
            | local_name!("nobr")
            | local_name!("s")
            | local_name!("small")
            | local_name!("strike")
            | local_name!("strong")
            | local_name!("tt")
            | local_name!("u")
    )
}

/// Reports whether raw text follows the start tag of an element of this name.
fn is_raw(name: &LocalName) -> bool {
    matches!(
        *name,
        local_name!("iframe")
            | local_name!("noembed")
            | local_name!("noframes")
            | local_name!("noscript")
            | local_name!("plaintext")
            | local_name!("script")
            | local_name!("style")
            | local_name!("textarea")
            | local_name!("title")
            | local_name!("xmp")
    )
}

impl Names {
    /// Returns an empty cache. `is_asked` says which attributes are asked for, beside those that the tree builder asks for.
    pub fn new(is_asked: fn(&LocalName) -> bool) -> Names {
        // the empty name has the key 0
        let empty = Known { key: 0, name: local_name!(""), is_asked: false, is_formatting: false, is_raw: false, class: Class::Other };
        Names { slots: [(); 1 << SLOT_BITS].map(|()| empty.clone()), is_asked, has_long: false }
    }

    /// Returns the cache of the last page of this thread, if that asked for the same attributes, or else an empty one.
    pub fn of_thread(is_asked: fn(&LocalName) -> bool) -> Box<Names> {
        let last = LAST.try_with(Cell::take).ok().flatten();
        last.filter(|names| names.is_asked as usize == is_asked as usize).unwrap_or_else(|| Box::new(Names::new(is_asked)))
    }

    /// Keeps the cache for the next page of this thread, unless a name is long.
    pub fn keep(self: Box<Names>) {
        if !self.has_long {
            // at the end of a thread it is dropped
            let _ = LAST.try_with(|last| last.set(Some(self)));
        }
    }

    /// Returns the name of a tag that begins at an offset, of letters, and digits after the first, and where it ends; `None` where there
    /// is no such name, or raw text follows the tag.
    pub fn tag_name(&mut self, text: &str, start: usize) -> Option<(&Known, usize)> {
        let written = Written::new(text, start, part::OF_TAG).filter(|_| !text.as_bytes()[start].is_ascii_digit())?;
        let known = self.known(&written);
        (!known.is_raw).then(|| (known, written.end))
    }

    /// Returns the name of an attribute that begins at an offset, of letters and hyphens, and where it ends.
    pub fn attribute_name(&mut self, text: &str, start: usize) -> Option<(&Known, usize)> {
        let written = Written::new(text, start, part::OF_ATTRIBUTE)?;
        Some((self.known(&written), written.end))
    }

    #[inline(always)]
    fn known(&mut self, written: &Written<'_>) -> &Known {
        let is_longer = written.length() > MAX_LENGTH;
        let key = if is_longer { written.key | IS_LONGER } else { written.key };
        let place = (key.wrapping_mul(0x9e37_79b9_7f4a_7c15) >> (u64::BITS - SLOT_BITS)) as usize;
        if self.slots[place].key != key || is_longer {
            self.make_known(place, key, written.name());
        }
        &self.slots[place]
    }

    /// Puts a name into a slot, unless it's there.
    #[cold]
    fn make_known(&mut self, place: usize, key: u64, name: &str) {
        let slot = &self.slots[place];
        if slot.key != key || *slot.name != *name && !str::eq_ignore_ascii_case(&slot.name, name) {
            self.slots[place] = self.read(key, &name.to_ascii_lowercase());
        }
    }

    #[cold]
    fn read(&mut self, key: u64, name: &str) -> Known {
        self.has_long |= name.len() > MAX_KEPT;
        let name = LocalName::from(name);
        Known { key, is_asked: (self.is_asked)(&name) || is_asked_by_builder(&name), is_formatting: is_formatting(&name), is_raw: is_raw(&name), class: class_of(&name), name }
    }
}

/// A name in a text, of ASCII.
struct Written<'a> {
    text: &'a str,
    start: usize,
    end: usize,
    /// A number of its last 8 bytes.
    key: u64,
}

impl<'a> Written<'a> {
    /// Returns the name that begins at an offset, of bytes of a kind; `None` if it is empty.
    #[inline(always)]
    fn new(text: &'a str, start: usize, kind: u8) -> Option<Written<'a>> {
        let (mut key, mut end) = (0, start);
        for &byte in text.as_bytes().get(start..)? {
            if !part::is(kind, byte) {
                break;
            }
            key = key << 8 | u64::from(byte);
            end += 1;
        }
        (end > start).then(|| Written { text, start, end, key })
    }

    fn length(&self) -> usize {
        self.end - self.start
    }

    fn name(&self) -> &'a str {
        &self.text[self.start..self.end]
    }
}

#[cfg(test)]
mod tests {
    use super::*;

    #[test]
    fn names_are_atoms() {
        let mut names = Names::new(|name| *name == local_name!("alt"));
        for _ in 0..2 {
            for name in ["alt", "p", "colspan", "longname", "blockquote", "clockquote", "data-x", "data-longname-x", "data-longname-y"] {
                let (known, end) = names.attribute_name(name, 0).unwrap();
                assert_eq!((&known.name, known.is_asked, end), (&LocalName::from(name), name == "alt", name.len()));
            }
        }
        for name in ["Alt", "ALT", "BlockQuote", "BLOCKQUOTE", "blockquote"] {
            assert_eq!(*names.attribute_name(name, 0).unwrap().0.name, *name.to_ascii_lowercase());
        }
        assert!(names.attribute_name("", 0).is_none() && names.attribute_name("a", 2).is_none());
    }

    #[test]
    fn names_are_kept_for_the_next_page() {
        let asks_alt: fn(&LocalName) -> bool = |name| *name == local_name!("alt");
        let asks_all: fn(&LocalName) -> bool = |_| true;
        let is_known = |names: &Names, name: &str| names.slots.iter().any(|slot| *slot.name == *name);
        let read = move |is_asked, name: &str| {
            let mut names = Names::of_thread(is_asked);
            let was_known = is_known(&names, name);
            let is_asked = names.attribute_name(name, 0).unwrap().0.is_asked;
            names.keep();
            (was_known, is_asked)
        };
        assert_eq!([read(asks_alt, "src"), read(asks_alt, "src")], [(false, false), (true, false)]);
        assert_eq!(std::thread::spawn(move || read(asks_alt, "src")).join().unwrap(), (false, false));
        assert_eq!([read(asks_all, "src"), read(asks_all, "src"), read(asks_alt, "src")], [(false, true), (true, true), (false, false)]);
        let long = "a".repeat(MAX_KEPT + 1);
        assert_eq!([read(asks_alt, &long), read(asks_alt, &long), read(asks_alt, "src")], [(false, false); 3]);
    }

    #[test]
    fn names_of_tags() {
        let mut names = Names::new(|_| false);
        let mut found = |text: &str| names.tag_name(text, 1).map(|(known, end)| (known.name.to_string(), known.is_formatting, end));
        assert_eq!(found("<h1>"), Some(("h1".to_owned(), false, 3)));
        assert_eq!(found("<b>"), Some(("b".to_owned(), true, 2)));
        assert_eq!(found("<blockquote "), Some(("blockquote".to_owned(), false, 11)));
        assert_eq!(found("<1>"), None);
        assert_eq!(found("<B>"), Some(("b".to_owned(), true, 2)));
        assert_eq!((found("<style>"), found("<STYLE>")), (None, None));
    }
}
