//! Decorators and tagged lines, under the paths of html2text's module `render`.
//!
//! ```
//! use html_render::from_read_rich;
//! use html_render::render::{RichAnnotation, TaggedLine};
//!
//! fn is_strong(line: &TaggedLine<Vec<RichAnnotation>>) -> bool {
//!     line.tagged_strings().any(|string| string.tag.contains(&RichAnnotation::Strong))
//! }
//!
//! let lines = from_read_rich("<p>one<p><b>two</b>".as_bytes(), 80).unwrap();
//! assert_eq!(lines.iter().map(is_strong).collect::<Vec<_>>(), [false, false, true]);
//! ```

pub use crate::lines::{RichAnnotation, TaggedLine, TaggedLineElement, TaggedString};

/// One of the library's two decorators: signs around the parts of a document, and annotations of its characters.
///
/// A program can't implement it, since the library is given a decorator as a number:
///
/// ```compile_fail
/// use html_render::render::TextDecorator;
///
/// struct Underscores;
///
/// impl TextDecorator for Underscores {
///     type Annotation = ();
/// }
/// ```
///
/// It can take any decorator:
///
/// ```
/// use html_render::config::with_decorator;
/// use html_render::render::{PlainDecorator, RichDecorator, TextDecorator};
///
/// fn first_line<D: TextDecorator>(page: &str, decorator: D) -> String {
///     let text = with_decorator(decorator).string_from_read(page.as_bytes(), 80).unwrap();
///     text.lines().next().unwrap_or_default().to_owned()
/// }
///
/// let page = "<p><a href='/'>home</a>";
/// assert_eq!(first_line(page, PlainDecorator::new()), "[home]");
/// assert_eq!(first_line(page, RichDecorator::new()), "home");
/// ```
pub trait TextDecorator: sealed::Sealed {
    /// Annotation of a character.
    type Annotation;

    #[doc(hidden)]
    const NUMBER: u32;

    #[doc(hidden)]
    const HAS_COLOURS: bool;

    #[doc(hidden)]
    fn annotation(annotation: RichAnnotation) -> Self::Annotation;
}

mod sealed {
    pub trait Sealed {}
    impl Sealed for super::PlainDecorator {}
    impl Sealed for super::RichDecorator {}
}

/// The decorator of plain text, which annotates nothing.
///
/// ```
/// use html_render::config::with_decorator;
/// use html_render::render::PlainDecorator;
///
/// let text = with_decorator(PlainDecorator::new()).string_from_read("<li>one".as_bytes(), 80).unwrap();
/// assert_eq!(text, "one\n");
/// ```
#[derive(Clone, Copy, Debug, Default, PartialEq, Eq, Hash)]
pub struct PlainDecorator;

impl PlainDecorator {
    /// Returns the decorator of plain text.
    pub fn new() -> PlainDecorator {
        PlainDecorator
    }
}

/// The decorator of rich text, which annotates what plain text writes signs for.
///
/// ```
/// use html_render::config::with_decorator;
/// use html_render::render::{RichAnnotation, RichDecorator};
///
/// let lines = with_decorator(RichDecorator::new()).lines_from_read("<em>one</em>".as_bytes(), 80).unwrap();
/// let strings: Vec<_> = lines[0].tagged_strings().collect();
/// assert_eq!(strings[0].tag, [RichAnnotation::Emphasis]);
/// ```
#[derive(Clone, Copy, Debug, Default, PartialEq, Eq, Hash)]
pub struct RichDecorator;

impl RichDecorator {
    /// Returns the decorator of rich text.
    pub fn new() -> RichDecorator {
        RichDecorator
    }
}

impl TextDecorator for PlainDecorator {
    type Annotation = ();
    const NUMBER: u32 = 0;
    const HAS_COLOURS: bool = false;
    fn annotation(_: RichAnnotation) {}
}

impl TextDecorator for RichDecorator {
    type Annotation = RichAnnotation;
    const NUMBER: u32 = 1;
    const HAS_COLOURS: bool = true;
    fn annotation(annotation: RichAnnotation) -> RichAnnotation {
        annotation
    }
}
