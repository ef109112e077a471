//! Columns of rendered lines.

use html_render::TaggedString;

/// Returns the first line of a text that has more columns than a width.
pub fn first_beyond(text: &str, width: usize) -> Option<&str> {
    text.lines().find(|line| TaggedString { s: (*line).to_owned(), tag: () }.width() > width)
}
