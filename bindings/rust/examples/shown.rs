//! Prints what a browser shows of a page in KOI8-R on standard input.

use html_render::{config, Options};
use std::io::{self, Read};

fn shown(page: &[u8]) -> Result<String, html_render::Error> {
    let options = Options::new().charset("koi8-r")?;
    config::plain().as_shown(options).string_from_read(page, 72)
}

fn main() -> Result<(), html_render::Error> {
    let mut page = Vec::new();
    io::stdin().read_to_end(&mut page)?;
    print!("{}", shown(&page)?);
    Ok(())
}
