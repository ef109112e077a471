//! The repository's own pages, which are the same on each machine: documents of bench/documents, the pages of shown/cases.txt, and random
//! pages.

use std::fs;
use std::io;
use std::path::Path;

/// A page of HTML.
#[derive(Clone, Debug)]
pub struct Page {
    pub name: String,
    pub html: Vec<u8>,
    /// Columns at which it is compared.
    pub width: usize,
}

const SHOWN: &str = include_str!("../../shown/cases.txt");

/// Columns at which pages are compared that have no width of their own.
pub const WIDTH: usize = 80;

/// Number of random pages.
const RANDOM_PAGES: u64 = 400;

/// Widths of random pages, in turn.
const RANDOM_WIDTHS: [usize; 4] = [80, 60, 40, 25];

/// Returns all pages. `documents` is a folder of files of HTML.
pub fn pages(documents: &Path) -> io::Result<Vec<Page>> {
    let mut pages = shown();
    pages.extend((0..RANDOM_PAGES).map(random));
    for entry in fs::read_dir(documents)? {
        let path = entry?.path();
        let name = format!("documents/{}", path.file_stem().unwrap_or_default().to_string_lossy());
        pages.push(Page { name, html: fs::read(path)?, width: WIDTH });
    }
    pages.sort_by(|one, other| one.name.cmp(&other.name));
    Ok(pages)
}

/// Returns the pages of shown/cases.txt, each named by its row and its number among those of the row.
fn shown() -> Vec<Page> {
    let cases = SHOWN.split("\n=== ").skip(1).filter_map(|case| {
        let (row, rest) = case.split_once('\n')?;
        Some((row, rest.split_once("\n---\n")?.0))
    });
    let mut pages: Vec<Page> = Vec::new();
    for (row, html) in cases {
        let prefix = format!("shown/{}/", row.replace('`', ""));
        let number = pages.iter().filter(|page| page.name.starts_with(&prefix)).count() + 1;
        pages.push(Page { name: format!("{prefix}{number}"), html: html.into(), width: WIDTH });
    }
    pages
}

/// Returns the random page of a number.
fn random(number: u64) -> Page {
    let mut writer = Writer { random: Random(number + 1), html: String::new(), parts: PARTS[number as usize % PARTS.len()] };
    for _ in 0..writer.random.between(2, 8) {
        writer.block(0);
    }
    Page { name: format!("random/{number:03}"), html: writer.html.into(), width: RANDOM_WIDTHS[number as usize / PARTS.len() % RANDOM_WIDTHS.len()] }
}

/// Random numbers of a fixed sequence: splitmix64.
struct Random(u64);

impl Random {
    /// Returns a number below another.
    fn below(&mut self, end: u64) -> u64 {
        self.0 = self.0.wrapping_add(0x9e37_79b9_7f4a_7c15);
        let mixed = (self.0 ^ (self.0 >> 30)).wrapping_mul(0xbf58_476d_1ce4_e5b9);
        let mixed = (mixed ^ (mixed >> 27)).wrapping_mul(0x94d0_49bb_1331_11eb);
        (mixed ^ (mixed >> 31)) % end
    }

    /// Returns a number from one on and up to another.
    fn between(&mut self, first: u64, last: u64) -> u64 {
        first + self.below(last - first + 1)
    }

    fn pick<'a, T: ?Sized>(&mut self, items: &[&'a T]) -> &'a T {
        items[self.below(items.len() as u64) as usize]
    }
}

/// What random pages are made of.
#[derive(Clone, Copy)]
struct Parts {
    blocks: &'static [&'static str],
    inlines: &'static [&'static str],
    words: &'static [&'static str],
}

const PLAIN_WORDS: &[&str] = &[
    "a",
    "in",
    "the",
    "ferry",
    "leaves",
    "every",
    "hour",
    "Lighthouse",
    "lighthouse-keeper",
    "na\u{ef}ve",
    "x&amp;y",
    "<wbr>",
    "\u{4e16}\u{754c}",
    "e\u{301}t\u{e9}",
];

const ALL_WORDS: &[&str] = &[
    "a",
    "of",
    "the",
    "ferries",
    "Lighthouse",
    "no\u{a0}break",
    "&nbsp;",
    "so\u{ad}ft",
    "\u{4e16}\u{754c}",
    "\u{1f980}",
    "e\u{301}",
    "&lt;b&gt;",
    "averyveryverylongwordthatfitsnoline",
    "[1]",
    "*x*",
];

/// Four kinds of pages: prose, lists and quotes, tables, and all of what a page can have.
const PARTS: [Parts; 4] = [
    Parts { blocks: &["p", "p", "h1", "h2", "h3", "h4", "div"], inlines: &["em", "strong", "code", "a", "span", "br"], words: PLAIN_WORDS },
    Parts { blocks: &["p", "ul", "ol", "blockquote", "dl", "h2"], inlines: &["em", "a", "code"], words: PLAIN_WORDS },
    Parts { blocks: &["table", "table", "p", "h2"], inlines: &["strong", "a", "br"], words: PLAIN_WORDS },
    Parts {
        blocks: &["p", "div", "h1", "h5", "h6", "ul", "ol", "dl", "blockquote", "pre", "table", "hr", "section"],
        inlines: &["em", "strong", "b", "i", "code", "a", "span", "br", "img", "sup", "s", "sub", "label"],
        words: ALL_WORDS,
    },
];

/// Maximum depth of blocks.
const MAX_DEPTH: u32 = 3;

/// A random page as it is written.
struct Writer {
    random: Random,
    html: String,
    parts: Parts,
}

impl Writer {
    fn element(&mut self, name: &str, contents: impl FnOnce(&mut Writer)) {
        self.html.extend(["<", name, ">"]);
        contents(self);
        // ends of attributes are no part of the name
        self.html.extend(["</", name.split(' ').next().unwrap_or(name), ">"]);
    }

    fn block(&mut self, depth: u32) {
        let name = self.random.pick(self.parts.blocks);
        match name {
            "ul" | "ol" | "blockquote" | "dl" | "table" | "section" if depth == MAX_DEPTH => self.element("p", |it| it.inlines(0)),
            "ul" | "ol" => self.element(name, |it| it.repeat(1, 4, |it| it.element("li", |it| it.contents(depth + 1)))),
            "dl" => self.element("dl", |it| {
                it.repeat(1, 3, |it| {
                    it.element("dt", |it| it.inlines(1));
                    it.element("dd", |it| it.contents(depth + 1));
                });
            }),
            "table" => self.table(depth),
            "blockquote" | "section" => self.element(name, |it| it.repeat(1, 3, |it| it.block(depth + 1))),
            "pre" => self.element("pre", |it| it.repeat(1, 4, |it| it.line())),
            "hr" => self.html.push_str("<hr>"),
            _ => self.element(name, |it| it.inlines(0)),
        }
        self.html.push('\n');
    }

    fn repeat(&mut self, least: u64, most: u64, mut contents: impl FnMut(&mut Writer)) {
        for _ in 0..self.random.between(least, most) {
            contents(self);
        }
    }

    /// Writes inline contents, or blocks in one time of four.
    fn contents(&mut self, depth: u32) {
        if self.random.below(4) == 0 {
            self.repeat(1, 2, |it| it.block(depth));
        } else {
            self.inlines(1);
        }
    }

    /// Writes a table of equally long rows, some cells of which span two columns.
    fn table(&mut self, depth: u32) {
        let columns = self.random.between(1, 4);
        self.element("table", |it| {
            it.repeat(1, 4, |it| {
                it.element("tr", |it| {
                    let mut column = 0;
                    while column < columns {
                        let is_wide = column + 1 < columns && it.random.below(6) == 0;
                        it.element(if is_wide { "td colspan=2" } else { "td" }, |it| it.contents(depth + 1));
                        column += 1 + u64::from(is_wide);
                    }
                });
            });
        });
    }

    /// Writes a line of preformatted text.
    fn line(&mut self) {
        self.repeat(0, 3, |it| it.html.push(' '));
        self.repeat(0, 6, |it| it.word());
        self.html.push('\n');
    }

    /// Writes words, and elements with words in them.
    fn inlines(&mut self, depth: u32) {
        self.repeat(1, 12, |it| if depth < 2 && it.random.below(5) == 0 { it.inline(depth) } else { it.word() });
    }

    fn inline(&mut self, depth: u32) {
        match self.random.pick(self.parts.inlines) {
            "br" => self.html.push_str("<br>"),
            "img" => self.html.push_str("<img src=a.png alt='a picture'>"),
            "sup" => self.element("sup", |it| it.html.push_str("2")),
            "a" => self.element("a href='https://ferries.example/'", |it| it.inlines(2)),
            name => self.element(name, |it| it.inlines(depth + 1)),
        }
        self.html.push(' ');
    }

    fn word(&mut self) {
        let word = self.random.pick(self.parts.words);
        self.html.extend([word, " "]);
    }
}

#[cfg(test)]
mod tests {
    use super::*;

    #[test]
    fn random_pages_are_always_the_same() {
        let html = random(3).html;
        assert_eq!(html, random(3).html);
        assert_ne!(html, random(7).html);
    }
}
