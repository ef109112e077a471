//! Prints HTML of a file as html2text 0.4.4 renders it: `html2text WIDTH FILE`.

use std::env;
use std::error::Error;
use std::fs::File;
use std::io::{self, BufReader, Write};

fn main() -> Result<(), Box<dyn Error>> {
    let words: Vec<String> = env::args().collect();
    let (width, file) = match words.as_slice() {
        [_, width, file] => (width, file),
        _ => return Err("usage: html2text WIDTH FILE".into()),
    };
    let text = html2text::from_read(BufReader::new(File::open(file)?), width.parse()?);
    io::stdout().write_all(text.as_bytes())?;
    Ok(())
}
