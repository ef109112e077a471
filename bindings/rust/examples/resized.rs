//! Prints how many lines a page on standard input has at each of some widths. The page is parsed once.

use html_render::render::{RichAnnotation, TaggedLine};
use html_render::{config, Error, RenderTree};
use std::io;

fn lines(tree: &RenderTree, width: usize) -> Result<Vec<TaggedLine<Vec<RichAnnotation>>>, Error> {
    config::rich().render_to_lines(tree.clone(), width)
}

fn main() -> Result<(), Error> {
    let tree = html_render::parse(io::stdin())?;
    for width in [40, 80, 120] {
        println!("{width} columns: {} lines", lines(&tree, width)?.len());
    }
    Ok(())
}
