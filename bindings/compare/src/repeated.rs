//! Renders HTML of standard input in 80 columns so many times: `repeated html_render|html2text COUNT`.

use std::env;
use std::error::Error;
use std::io::{self, Read};

/// Columns of a line.
const WIDTH: usize = 80;

fn main() -> Result<(), Box<dyn Error>> {
    let words: Vec<String> = env::args().collect();
    let (name, count) = match words.as_slice() {
        [_, name, count] => (name.as_str(), count.parse()?),
        _ => return Err("usage: repeated html_render|html2text COUNT".into()),
    };
    let mut page = String::new();
    io::stdin().read_to_string(&mut page)?;
    for _ in 0..count {
        match name {
            "html_render" => html_render::render(&page, WIDTH)?,
            _ => html2text::from_read(page.as_bytes(), WIDTH),
        };
    }
    Ok(())
}
