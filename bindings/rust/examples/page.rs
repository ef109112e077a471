//! Prints a page that stands on standard input as text, without its navigation.

use html_render::config; // was: use html2text::config;
use std::io::{self, Read};

fn text(page: impl Read) -> Result<String, html_render::Error> {
    config::plain().add_css("nav { display: none }")?.string_from_read(page, 72)
}

fn main() -> Result<(), html_render::Error> {
    print!("{}", text(io::stdin())?);
    Ok(())
}
