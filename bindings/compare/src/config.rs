//! Prints HTML of a file as `html_render::config` renders it, without adaptations to browsers: `config WIDTH FILE`.

use std::env;
use std::error::Error;
use std::fs::File;
use std::io::{self, Write};

fn main() -> Result<(), Box<dyn Error>> {
    let words: Vec<String> = env::args().collect();
    let (width, file) = match words.as_slice() {
        [_, width, file] => (width, file),
        _ => return Err("usage: config WIDTH FILE".into()),
    };
    html_render::give_back_large_blocks();
    let text = html_render::config::plain().string_from_read(File::open(file)?, width.parse()?)?;
    io::stdout().write_all(text.as_bytes())?;
    Ok(())
}
