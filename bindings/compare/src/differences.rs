//! Kinds of difference between the texts of html2text 0.4.4 and those of the renderer, and what decides that a difference is of a kind.
//!
//! Lines without contents are dropped. Lines that are equal but for what the kinds change are paired; what is between two such pairs, or
//! differs in one, is a difference. DIFFERENCES_0.4.4.md describes the kinds.

use crate::matching;
use std::fmt;
use std::ops::Range;

/// A kind of difference. A page is counted under the last of its kinds.
#[derive(Clone, Copy, Debug, PartialEq, Eq)]
pub enum Kind {
    Signs,
    EmptyLines,
    Spaces,
    NoBreakSpaces,
    SmallHeadings,
    Superscripts,
    StruckOut,
    EmptyLinks,
    Controls,
    LineBreaks,
    Columns,
    LeftOut,
    Drawings,
    Own,
}

/// The kinds, in their order, with their names.
pub const KINDS: [(Kind, &str); 14] = [
    (Kind::Signs, "footnotes and signs"),
    (Kind::EmptyLines, "empty lines"),
    (Kind::Spaces, "spaces"),
    (Kind::NoBreakSpaces, "no-break spaces"),
    (Kind::SmallHeadings, "small headings"),
    (Kind::Superscripts, "superscripts"),
    (Kind::StruckOut, "struck-out text"),
    (Kind::EmptyLinks, "empty links"),
    (Kind::Controls, "control characters"),
    (Kind::LineBreaks, "line breaks"),
    (Kind::Columns, "widths of columns"),
    (Kind::LeftOut, "text left out there"),
    (Kind::Drawings, "texts of drawings"),
    (Kind::Own, "a way of its own"),
];

/// A set of kinds.
#[derive(Clone, Copy, Debug, Default, PartialEq, Eq)]
pub struct Kinds(u16);

impl Kinds {
    pub fn of(kind: Kind) -> Kinds {
        Kinds(1 << kind as u16)
    }

    pub fn has(self, kind: Kind) -> bool {
        self.0 & Kinds::of(kind).0 != 0
    }

    fn add(&mut self, kind: Kind) {
        self.0 |= Kinds::of(kind).0;
    }

    fn with(self, other: Kinds) -> Kinds {
        Kinds(self.0 | other.0)
    }

    fn without(self, kind: Kind) -> Kinds {
        Kinds(self.0 & !Kinds::of(kind).0)
    }

    /// Returns the number of the last kind, if there is one.
    pub fn last(self) -> Option<usize> {
        KINDS.iter().rposition(|&(kind, _)| self.has(kind))
    }
}

impl fmt::Display for Kinds {
    fn fmt(&self, f: &mut fmt::Formatter<'_>) -> fmt::Result {
        let names: Vec<&str> = KINDS.iter().filter(|(kind, _)| self.has(*kind)).map(|(_, name)| *name).collect();
        f.write_str(&names.join(", "))
    }
}

/// What of a page decides whether a difference is of a kind.
#[derive(Clone, Copy, Debug)]
pub struct Traits {
    /// Whether it has a drawing.
    pub has_drawing: bool,
    /// Whether it has a caption, rows of a `tfoot`, or contents in a list that are in no item.
    pub has_left_out: bool,
}

impl Traits {
    pub fn of(page: &[u8]) -> Traits {
        let page = String::from_utf8_lossy(page).to_ascii_lowercase();
        let has_left_out = page.contains("<caption") || page.contains("<tfoot") || has_outside_of_items(&page);
        Traits { has_drawing: page.contains("<svg"), has_left_out }
    }
}

/// Reports whether contents follow the start of a list or the end of an item that are neither an item nor the end of the list. The page is
/// in lower case.
fn has_outside_of_items(page: &str) -> bool {
    let starts = ["<ul", "<ol", "<dl", "<menu", "<dir", "</li", "</dd", "</dt"];
    starts.iter().flat_map(|start| page.match_indices(start)).any(|(at, _)| {
        let after = page[at..].split_once('>').map_or("", |(_, after)| after);
        !begins_with_item(after)
    })
}

/// Reports whether a text begins with an item or the end of a list, after white space and comments.
fn begins_with_item(text: &str) -> bool {
    let mut rest = text.trim_start();
    while let Some(comment) = rest.strip_prefix("<!--") {
        rest = comment.split_once("-->").map_or("", |(_, after)| after).trim_start();
    }
    let tags = ["<li", "<dt", "<dd", "</ul", "</ol", "</dl", "</menu", "</dir", "</div", "<script", "<template"];
    rest.is_empty() || tags.iter().any(|tag| rest.starts_with(tag))
}

/// A difference of no kind: lines of both texts.
#[derive(Clone, Debug, PartialEq, Eq)]
pub struct Unexplained {
    pub ours: Vec<String>,
    pub theirs: Vec<String>,
}

/// Returns the kinds by which two texts differ, or the first difference that is of none.
pub fn kinds(ours: &str, theirs: &str, traits: Traits) -> Result<Kinds, Unexplained> {
    let (ours, theirs) = (lines(ours), lines(theirs));
    if ours == theirs {
        return Ok(Kinds::of(Kind::EmptyLines));
    }
    let (differences, mut found, mut next) = (differences(&ours, &theirs), Kinds::default(), 0);
    while next < differences.len() {
        match explain_first(&ours, &theirs, &differences[next..], traits) {
            Some((count, kinds)) => (found, next) = (found.with(kinds), next + count),
            None => {
                let (our, their) = differences[next].clone();
                return Err(Unexplained { ours: ours[our].to_vec(), theirs: theirs[their].to_vec() });
            }
        }
    }
    Ok(found)
}

/// Maximum number of differences that are explained as one.
const MAX_JOINED: usize = 8;

/// Returns the kinds of the first of some differences, and 1; or the kinds of the first ones as one difference, and their number: where lines
/// break elsewhere, a line may be paired with one of the same contents at another place.
fn explain_first(ours: &[String], theirs: &[String], differences: &[Difference], traits: Traits) -> Option<(usize, Kinds)> {
    let (our_start, their_start) = (differences[0].0.start, differences[0].1.start);
    differences.iter().take(MAX_JOINED).enumerate().find_map(|(place, (our, their))| {
        let (our, their) = (&ours[our_start..our.end], &theirs[their_start..their.end]);
        if place > 0 && our.iter().chain(their).any(|line| is_of_table(line)) {
            return None;
        }
        Some((place + 1, explain(&our.join("\n"), &their.join("\n"), traits)?))
    })
}

/// Returns the lines that have more than prefixes of quotes and headings, without the spaces at their ends.
fn lines(text: &str) -> Vec<String> {
    let has_contents = |line: &&str| line.contains(|c: char| !c.is_whitespace() && c != '>' && c != '#');
    text.split('\n').filter(has_contents).map(|line| line.trim_end_matches(' ').to_owned()).collect()
}

/// Reports whether a character is part of the borders of tables.
fn is_border(c: char) -> bool {
    ('\u{2500}'..='\u{257f}').contains(&c)
}

/// Reports whether a line is part of a table: it has borders, or parts cells that are below each other.
fn is_of_table(line: &str) -> bool {
    let contents = line.trim_start_matches([' ', '>', '*']);
    line.contains(is_border) || (contents.starts_with('/') && contents.bytes().all(|byte| byte == b'/'))
}

/// Returns a line without what the kinds change: two lines of the same contents are paired.
fn key(line: &str) -> String {
    plain(line).chars().filter(|&c| !c.is_whitespace() && !is_border(c) && c != '/').collect()
}

/// Lines of ours and of theirs that differ.
type Difference = (Range<usize>, Range<usize>);

/// Returns the lines that differ. Those of one table are one difference, since columns of other widths wrap cells otherwise.
fn differences(ours: &[String], theirs: &[String]) -> Vec<Difference> {
    let keys = |lines: &[String]| lines.iter().map(|line| key(line)).collect::<Vec<_>>();
    let mut found: Vec<Difference> = Vec::new();
    let (mut our_start, mut their_start) = (0, 0);
    let mut add = |our: Range<usize>, their: Range<usize>| match found.last_mut() {
        Some((last_our, last_their)) if is_one_table(ours, theirs, (last_our, last_their), (&our, &their)) => {
            (last_our.end, last_their.end) = (our.end, their.end);
        }
        _ => found.push((our, their)),
    };
    for (our, their) in matching::pairs(&keys(ours), &keys(theirs)) {
        if our > our_start || their > their_start {
            add(our_start..our, their_start..their);
        }
        if ours[our] != theirs[their] {
            add(our..our + 1, their..their + 1);
        }
        (our_start, their_start) = (our + 1, their + 1);
    }
    if our_start < ours.len() || their_start < theirs.len() {
        add(our_start..ours.len(), their_start..theirs.len());
    }
    found
}

type Ranges<'a> = (&'a Range<usize>, &'a Range<usize>);

/// Reports whether a difference and the next one are of one table: all lines between them have borders, or they meet and one of them
/// has.
fn is_one_table(ours: &[String], theirs: &[String], last: Ranges<'_>, next: Ranges<'_>) -> bool {
    let between = &ours[last.0.end..next.0.start];
    let is_table = |lines: &[String]| lines.iter().any(|line| is_of_table(line));
    let meets_table = || [last, next].iter().any(|(our, their)| is_table(&ours[our.start..our.end]) || is_table(&theirs[their.start..their.end]));
    between.iter().all(|line| is_of_table(line)) && (!between.is_empty() || meets_table())
}

/// Returns the kinds of a difference, or `None` if it is of none.
fn explain(ours: &str, theirs: &str, traits: Traits) -> Option<Kinds> {
    if let Some(kinds) = kinds_of_same_contents(ours, theirs, ours) {
        return Some(kinds);
    }
    let marked = marked_kinds(ours).with(marked_kinds(theirs));
    let (our, their) = (plain(ours), plain(theirs));
    if marked != Kinds::default() {
        if let Some(kinds) = kinds_of_same_contents(&our, &their, ours) {
            // lines with marks break at other places
            return Some(kinds.without(Kind::LineBreaks).with(marked));
        }
    }
    let is_table = [ours, theirs].iter().any(|text| text.split('\n').any(is_of_table));
    if is_table && sorted(letters(&our)) == sorted(letters(&their)) {
        return Some(Kinds::of(Kind::Columns).with(marked));
    }
    let has_all = |all: &str, some: &str| is_part(letters(some), letters(all)) || (is_table && is_part(sorted(letters(some)), sorted(letters(all))));
    if traits.has_left_out && has_all(&our, &their) {
        return Some(Kinds::of(Kind::LeftOut).with(marked));
    }
    if traits.has_drawing && has_all(&their, &our) {
        return Some(Kinds::of(Kind::Drawings).with(marked));
    }
    None
}

/// Returns the kinds by which texts of the same contents differ, or `None` if their contents differ or ours has more spaces somewhere.
/// `written` is our text as it was rendered.
fn kinds_of_same_contents(ours: &str, theirs: &str, written: &str) -> Option<Kinds> {
    if visible(ours).eq(visible(theirs)) {
        return kinds_of_white_space(ours, theirs, written);
    }
    // quotes and headings have their prefixes on each line
    let (our_lines, their_lines) = (Unprefixed::of(ours), Unprefixed::of(theirs));
    if our_lines.prefixes == their_lines.prefixes && visible(&our_lines.contents).eq(visible(&their_lines.contents)) {
        return kinds_of_white_space(&our_lines.contents, &their_lines.contents, written);
    }
    None
}

/// Returns the kinds by which the white space of texts of the same visible characters differs, or `None` if ours has more spaces outside of
/// tables.
fn kinds_of_white_space(ours: &str, theirs: &str, written: &str) -> Option<Kinds> {
    let mut found = Kinds::default();
    for (our, their) in gaps(ours).into_iter().zip(gaps(theirs)) {
        let (our_spaces, their_spaces) = (on_last_line(&our.spaces), on_last_line(&their.spaces));
        if our.spaces.contains('\n') != their.spaces.contains('\n') {
            found.add(if written.contains('\u{a0}') { Kind::NoBreakSpaces } else { Kind::LineBreaks });
        } else if our_spaces != their_spaces && our_spaces.contains('\u{a0}') {
            found.add(Kind::NoBreakSpaces);
        } else if our_spaces.len() < their_spaces.len() {
            found.add(Kind::Spaces);
        } else if our_spaces != their_spaces {
            if !our.is_in_table {
                return None;
            }
            found.add(Kind::Columns);
        }
    }
    Some(found)
}

/// Lines without their prefixes.
#[derive(Default)]
struct Unprefixed {
    /// Prefixes of quotes and headings, once for all lines in a row that have them, and of items.
    prefixes: Vec<String>,
    contents: String,
}

impl Unprefixed {
    fn of(text: &str) -> Unprefixed {
        let mut lines = Unprefixed::default();
        text.split('\n').for_each(|line| lines.add(line));
        lines
    }

    fn add(&mut self, line: &str) {
        let (mut rest, mut repeated) = (line.trim_start_matches(' '), String::new());
        while let Some((word, after)) = rest.split_once(' ').filter(|(word, _)| is_prefix(word)) {
            if word.contains(['>', '#']) {
                repeated.push_str(word);
            } else {
                self.prefixes.push(word.to_owned());
            }
            rest = after.trim_start_matches(' ');
        }
        if self.prefixes.iter().rev().find(|prefix| prefix.is_empty() || prefix.starts_with(['>', '#'])) != Some(&repeated) {
            self.prefixes.push(repeated);
        }
        self.contents.extend([rest, "\n"]);
    }
}

/// Reports whether a word is the prefix of a quote, a heading or an item.
fn is_prefix(word: &str) -> bool {
    let is_number = || word.strip_suffix('.').map_or(false, |number| !number.is_empty() && number.bytes().all(|byte| byte.is_ascii_digit()));
    matches!(word, ">" | "*" | "#" | "##" | "###" | "####") || is_number()
}

/// Returns the part of white space that is on its last line.
fn on_last_line(gap: &str) -> &str {
    gap.rsplit('\n').next().unwrap_or(gap)
}

/// Returns the characters that aren't white space.
fn visible(text: &str) -> impl Iterator<Item = char> + '_ {
    text.chars().filter(|c| !c.is_whitespace())
}

/// White space before a visible character.
struct Gap {
    spaces: String,
    /// Whether the character is in a line of a table.
    is_in_table: bool,
}

/// Returns the white space before each visible character. Each line begins with a newline.
fn gaps(text: &str) -> Vec<Gap> {
    let (mut found, mut spaces) = (Vec::new(), String::new());
    for line in text.split('\n') {
        let is_in_table = is_of_table(line);
        spaces.push('\n');
        for c in line.chars() {
            if c.is_whitespace() {
                spaces.push(c);
            } else {
                found.push(Gap { spaces: std::mem::take(&mut spaces), is_in_table });
            }
        }
    }
    found
}

/// Returns the letters and digits of a text.
fn letters(text: &str) -> Vec<char> {
    text.chars().filter(|c| c.is_alphanumeric()).collect()
}

fn sorted(mut letters: Vec<char>) -> Vec<char> {
    letters.sort_unstable();
    letters
}

/// Reports whether characters are some of others, in their order.
fn is_part(some: Vec<char>, all: Vec<char>) -> bool {
    let mut all = all.into_iter();
    some.into_iter().all(|c| all.any(|other| other == c))
}

/// Returns the kinds whose marks a text has.
fn marked_kinds(text: &str) -> Kinds {
    let mut found = Kinds::default();
    for (kind, is_marked) in [
        (Kind::SmallHeadings, text.contains(SMALL_HEADING)),
        (Kind::Superscripts, text.contains(SUPERSCRIPT) || text.contains(|c| raised_digit(c).is_some())),
        (Kind::StruckOut, text.contains(STRIKE)),
        (Kind::EmptyLinks, text.contains(EMPTY_LINK)),
        (Kind::Controls, text.contains(is_control)),
    ] {
        if is_marked {
            found.add(kind);
        }
    }
    found
}

/// The sign of a heading of level 5, and the end of that of level 6.
const SMALL_HEADING: &str = "##### ";

/// The start of a superscript, which ends with `}`.
const SUPERSCRIPT: &str = "^{";

/// The character that strikes out the one before it.
const STRIKE: char = '\u{336}';

/// A link that shows nothing.
const EMPTY_LINK: &str = "[ ]";

/// Reports whether a character is one that we drop of pages.
fn is_control(c: char) -> bool {
    (c.is_control() && c != '\n') || ('\u{202a}'..='\u{202e}').contains(&c) || ('\u{2066}'..='\u{2069}').contains(&c)
}

/// Returns a text without the marks of the kinds.
fn plain(text: &str) -> String {
    let text = ["###### ", SMALL_HEADING, SUPERSCRIPT, "[ ] ", " [ ]", EMPTY_LINK].iter().fold(text.to_owned(), |text, mark| text.replace(mark, ""));
    text.chars().filter(|&c| c != STRIKE && c != '}' && !is_control(c)).map(|c| raised_digit(c).unwrap_or(c)).collect()
}

/// Returns the digit that a raised digit is.
fn raised_digit(c: char) -> Option<char> {
    "⁰¹²³⁴⁵⁶⁷⁸⁹".chars().position(|raised| raised == c).and_then(|digit| char::from_digit(digit as u32, 10))
}

#[cfg(test)]
mod tests {
    use super::*;

    const NONE: Traits = Traits { has_drawing: false, has_left_out: false };
    const ALL: Traits = Traits { has_drawing: true, has_left_out: true };

    fn named(ours: &str, theirs: &str, traits: Traits) -> String {
        kinds(ours, theirs, traits).map_or("none".to_owned(), |kinds| kinds.to_string())
    }

    #[test]
    fn each_kind_is_found() {
        for (ours, theirs, wanted) in [
            ("a\n\nb\n", "a\nb\n>\n##\n", "empty lines"),
            ("a b\n", "a  b \n", "spaces"),
            ("a\u{a0}\u{a0}b\n", "a b\n", "no-break spaces"),
            ("a\u{a0}b c\n", "a\nb c\n", "no-break spaces"),
            ("* ##### a\n", "* a\n", "small headings"),
            ("###### a\nb\n", "a b\n", "small headings"),
            ("a\u{b2}^{x}\n", "a2x\n", "superscripts"),
            ("a\u{336}\n", "a\n", "struck-out text"),
            ("a [ ] b\n", "a b\n", "empty links"),
            ("ab\n", "a\u{202e}b\n", "control characters"),
            ("> # a b\n> # c\n", "> # a\n> # b c\n", "line breaks"),
            ("a\nb\nb c\nd\n", "a b\nb\nc d\n", "line breaks"),
            ("* a b\n", "*\n  a b\n", "line breaks"),
            ("\u{2500}\u{252c}\u{2500}\na\u{2502}bc\n", "\u{2500}\u{2500}\u{252c}\u{2500}\na \u{2502}b\n  \u{2502}c\n", "widths of columns"),
        ] {
            assert_eq!(named(ours, theirs, NONE), wanted, "{ours}");
        }
        assert_eq!(named("a\nb\nc\n", "a\nc\n", ALL), "text left out there");
        assert_eq!(named("a\nc\n", "a\nb\nc\n", ALL), "texts of drawings");
    }

    #[test]
    fn other_differences_are_of_no_kind() {
        for (ours, theirs) in [
            ("a  b\n", "a b\n"),
            (" a\n", "a\n"),
            ("a\nc\n", "a\nb\nc\n"),
            ("a\nb\nc\n", "a\nc\n"),
            ("ab\n", "ac\n"),
            ("a\u{b2}\n", "a3\n"),
            ("\u{2500}\na\n", "\u{2500}\nb\n"),
            ("a b\nx  y\n", "a\nb\nx y\n"),
            ("a  b\nc\n\u{2500}\u{252c}\u{2500}\n", "a b\nc\n\u{2500}\u{2500}\u{252c}\u{2500}\n"),
        ] {
            assert_eq!(named(ours, theirs, NONE), "none", "{ours}");
        }
        assert_eq!(named("a\nb\nc\n", "a\nc\n", Traits { has_drawing: true, ..NONE }), "none");
        assert_eq!(named("a\nc\n", "a\nb\nc\n", Traits { has_left_out: true, ..NONE }), "none");
    }

    #[test]
    fn traits_of_pages() {
        for (page, has_left_out) in [
            ("<ul> <!-- a --><li>a</LI>\n</ul>", false),
            ("<ul>a<li>b</ul>", true),
            ("<ul><li>a</li><ul><li>b</ul></ul>", true),
            ("<table><CAPTION>a", true),
            ("<dl><dt>a<dd>b</dl>", false),
        ] {
            assert_eq!(Traits::of(page.as_bytes()).has_left_out, has_left_out, "{page}");
        }
        assert!(Traits::of(b"a<SVG>").has_drawing);
    }
}
