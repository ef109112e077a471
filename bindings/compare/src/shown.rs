//! Renders pages as a browser shows them, and looks at the texts: `shown LIST`, where LIST has the path of a file of HTML on each line.
//!
//! At 80, 40 and 20 columns no page may be refused, no text may have a control character, and no line may pass the width, with targets of
//! links and lines of preformatted text cut at it; a page that is too narrow for its prefixes, or for a character, is rendered with overflow.

use html_render::config::plain;
use html_render::{Error, Options};
use std::env;
use std::fs;
use std::process::ExitCode;

mod lines;

const WIDTHS: [usize; 3] = [80, 40, 20];

/// Reports whether a character can control a terminal.
fn is_control(c: char) -> bool {
    c != '\n' && c.is_control() || ('\u{202a}'..='\u{202e}').contains(&c) || ('\u{2066}'..='\u{2069}').contains(&c)
}

/// Reports whether a page is within a width, or why it is at fault.
fn look(page: &[u8], width: usize) -> Result<bool, String> {
    let config = || plain().as_shown(Options::new().wrap_links(true).wrap_code(true));
    let (text, is_within) = match config().string_from_read(page, width) {
        Err(Error::TooNarrow) => (config().allow_width_overflow().string_from_read(page, width), false),
        text => (text, true),
    };
    let text = text.map_err(|error| error.to_string())?;
    if let Some(c) = text.chars().find(|&c| is_control(c)) {
        return Err(format!("a control character: {c:?}"));
    }
    match lines::first_beyond(&text, width) {
        Some(line) if is_within => Err(format!("a line passes the width: {line:?}")),
        _ => Ok(is_within),
    }
}

fn main() -> ExitCode {
    let list = match env::args().nth(1).map(fs::read_to_string) {
        Some(Ok(list)) => list,
        _ => {
            eprintln!("usage: shown LIST");
            return ExitCode::from(2);
        }
    };
    let mut faults = 0;
    for width in WIDTHS {
        let (mut within, mut beyond) = (0, 0);
        for name in list.lines() {
            let looked = fs::read(name).map_err(|error| error.to_string()).and_then(|page| look(&page, width));
            match looked {
                Ok(true) => within += 1,
                Ok(false) => beyond += 1,
                Err(fault) => {
                    println!("{name}: at {width} columns: {fault}");
                    faults += 1;
                }
            }
        }
        println!("{width} columns: {within} pages within the width, {beyond} too narrow and rendered with overflow");
    }
    println!("{faults} faults");
    if faults == 0 {
        ExitCode::SUCCESS
    } else {
        ExitCode::FAILURE
    }
}
