//! Renders pages and compares them with html2text 0.4.4: `pages [--accept] KNOWN DOCUMENTS LIST [FOLDER]`.
//!
//! The pages are the repository's own (`corpus`, with the files of HTML in the folder DOCUMENTS) and those of this machine whose paths are
//! the lines of LIST. Each is rendered at widths of 80, 40 and 9 columns. Within the width where it can be: then no line may pass it. Where
//! that is too narrow for the page, with overflow: that may not fail. At 80 columns, or at its own width, its text is compared with
//! html2text's:
//!
//! - A page of the list KNOWN has to have the same text as when it was listed.
//! - Another page of this machine has to differ in known kinds alone.
//! - Another page of the repository may not differ.
//!
//! With `--accept` the list is written anew: pages of the repository that differ, and pages of this machine that differ in no known kind.
//! In FOLDER both texts of each page with a fault are written.

use corpus::{Page, WIDTH};
use differences::{Kind, Kinds, Traits, Unexplained, KINDS};
use html2text::render::text_renderer::{PlainDecorator, TextDecorator};
use html_render::config::{plain, plain_no_decorate, Config};
use html_render::{render, Error};
use known::{checksum, Entry, List};
use std::collections::HashSet;
use std::env;
use std::fs;
use std::io::ErrorKind;
use std::panic::{self, UnwindSafe};
use std::path::Path;
use std::process::ExitCode;
use std::thread;
use unsigned::Unsigned;

mod corpus;
mod differences;
mod known;
mod lines;
mod matching;
mod unsigned;

const WIDTHS: [usize; 3] = [80, 40, 9];

/// The words of the command line.
struct Words {
    is_accepting: bool,
    known: String,
    documents: String,
    list: String,
    folder: Option<String>,
}

impl Words {
    fn read(mut words: Vec<String>) -> Option<Words> {
        let is_accepting = words.first().map_or(false, |word| word == "--accept");
        words.drain(..usize::from(is_accepting));
        let mut words = words.into_iter();
        let words = Words { is_accepting, known: words.next()?, documents: words.next()?, list: words.next()?, folder: words.next() };
        Some(words)
    }
}

/// Numbers of pages of one origin.
#[derive(Default)]
struct Counts {
    pages: u64,
    within: [u64; 3],
    too_narrow: [u64; 3],
    /// Pages on which html2text panics.
    panicked: u64,
    same: u64,
    /// Pages by the last kind of their differences.
    kinds: [u64; KINDS.len()],
    listed: u64,
}

/// A text beside that of html2text.
enum Beside {
    Same,
    /// Html2text panics.
    Panicked,
    Differs(Result<Kinds, Unexplained>),
}

/// The pages that were compared.
struct Comparison {
    /// Whether the list is written anew, so that no page has to be as it is listed.
    is_accepting: bool,
    known: List,
    /// The list that would be right.
    right: List,
    folder: Option<String>,
    faults: Vec<String>,
}

/// Returns the text of a page within a width, or else with overflow, and whether it is within it.
fn text_of(config: impl Fn() -> Config<render::PlainDecorator>, page: &[u8], width: usize) -> Result<(String, bool), Error> {
    match config().string_from_read(page, width) {
        Err(Error::TooNarrow) => Ok((config().allow_width_overflow().string_from_read(page, width)?, false)),
        text => Ok((text?, true)),
    }
}

/// Counts a page as within one of the widths or too narrow for it. Returns what is wrong.
fn look(page: &[u8], at: usize, counts: &mut Counts) -> Result<(), String> {
    let (text, is_within) = text_of(plain, page, WIDTHS[at]).map_err(|error| error.to_string())?;
    if !is_within {
        counts.too_narrow[at] += 1;
        return Ok(());
    }
    counts.within[at] += 1;
    lines::first_beyond(&text, WIDTHS[at]).map_or(Ok(()), |line| Err(format!("a line passes the width: {line:?}")))
}

/// Returns html2text's text of a page, or `None` if it panics.
fn theirs(page: &Page, decorator: impl TextDecorator + UnwindSafe) -> Option<String> {
    panic::catch_unwind(|| html2text::from_read_with_decorator(&page.html[..], page.width, decorator)).ok()
}

/// Compares a page's text with html2text's. The kinds of their differences are found without footnotes and signs.
fn beside(page: &Page, text: &str) -> Result<Beside, Error> {
    let without_signs = match theirs(page, PlainDecorator::new()) {
        Some(theirs) if theirs == text => return Ok(Beside::Same),
        Some(_) => theirs(page, Unsigned),
        None => None,
    };
    let (ours, _) = text_of(plain_no_decorate, &page.html, page.width)?;
    Ok(match without_signs {
        None => Beside::Panicked,
        Some(theirs) if theirs == ours => Beside::Differs(Ok(Kinds::of(Kind::Signs))),
        Some(theirs) => Beside::Differs(differences::kinds(&ours, &theirs, Traits::of(&page.html))),
    })
}

impl Comparison {
    fn fault(&mut self, name: &str, fault: &str) {
        self.faults.push(format!("{name}: {fault}"));
    }

    /// Looks at a page and compares it. Pages of the repository have to be listed if they differ.
    fn add(&mut self, page: &Page, is_own: bool, counts: &mut Counts) {
        counts.pages += 1;
        for at in 0..WIDTHS.len() {
            if let Err(fault) = look(&page.html, at, counts) {
                self.fault(&page.name, &format!("at {} columns: {fault}", WIDTHS[at]));
            }
        }
        let (text, _) = match text_of(plain, &page.html, page.width) {
            Ok(text) => text,
            Err(error) => return self.fault(&page.name, &error.to_string()),
        };
        match beside(page, &text) {
            Ok(Beside::Same) => counts.same += 1,
            Ok(Beside::Panicked) => counts.panicked += 1,
            Ok(Beside::Differs(kinds)) => {
                if let Err(fault) = self.judge(page, &text, kinds, is_own, counts) {
                    self.fault(&page.name, &fault);
                    self.write(page, &text);
                }
            }
            Err(error) => self.fault(&page.name, &error.to_string()),
        }
    }

    /// Counts a page that differs, and judges it by the list or by the kinds of its differences.
    fn judge(&mut self, page: &Page, text: &str, found: Result<Kinds, Unexplained>, is_own: bool, counts: &mut Counts) -> Result<(), String> {
        let kinds = found.as_ref().map_or(Kinds::of(Kind::Own), |&kinds| kinds);
        if let Some(last) = kinds.last() {
            counts.kinds[last] += 1;
        }
        let entry = Entry { page: checksum(&page.html), kinds: kinds.to_string(), text: checksum(text.as_bytes()) };
        if is_own || found.is_err() {
            self.right.insert(page.name.clone(), entry.clone());
        }
        match (self.known.get(&page.name), found) {
            _ if self.is_accepting => Ok(()),
            (Some(known), _) if *known == entry => {
                counts.listed += 1;
                Ok(())
            }
            (Some(known), _) if known.page == entry.page => Err(format!("its text isn't the listed one; was: {}; is: {}", known.kinds, entry.kinds)),
            (_, Err(unexplained)) => Err(format!("differs in no known kind: {}", shown(&unexplained))),
            (_, Ok(_)) if is_own => Err(format!("isn't listed; is: {}", entry.kinds)),
            (_, Ok(_)) => Ok(()),
        }
    }

    /// Writes both texts of a page, if there is a folder for them.
    fn write(&mut self, page: &Page, ours: &str) {
        if let Some(folder) = self.folder.clone() {
            let path = format!("{folder}/{}", page.name.trim_start_matches('/').replace('/', "_"));
            let theirs = theirs(page, PlainDecorator::new()).unwrap_or_default();
            let written = fs::write(format!("{path}.ours"), ours).and_then(|()| fs::write(format!("{path}.theirs"), theirs));
            if let Err(error) = written {
                self.fault(&folder, &error.to_string());
            }
        }
    }
}

/// Returns the first lines of a difference.
fn shown(unexplained: &Unexplained) -> String {
    const MOST: usize = 3;
    let first = |lines: &[String]| lines.iter().take(MOST).map(|line| format!("{line:?}")).collect::<Vec<_>>().join(" ");
    format!("ours {}; html2text's {}", first(&unexplained.ours), first(&unexplained.theirs))
}

/// Prints what was counted.
fn print(origin: &str, counts: &Counts) {
    println!("{origin}: {}", counts.pages);
    for (at, width) in WIDTHS.iter().enumerate() {
        println!("  {width} columns: {} pages within the width, {} too narrow and rendered with overflow", counts.within[at], counts.too_narrow[at]);
    }
    println!("  as html2text 0.4.4 has them: {}; it panics on {}; listed: {}", counts.same, counts.panicked, counts.listed);
    for ((_, kind), count) in KINDS.iter().zip(counts.kinds) {
        println!("  but for {kind}: {count}");
    }
}

/// Compares all pages. Returns whether there are no faults.
fn compared(words: &Words) -> Result<bool, String> {
    let read = |name: &str| fs::read_to_string(name).map_err(|error| format!("{name}: {error}"));
    let known = known::read(&read(&words.known)?).ok_or_else(|| format!("{}: not a list", words.known))?;
    let mut comparison = Comparison { is_accepting: words.is_accepting, right: List::new(), known, folder: words.folder.clone(), faults: Vec::new() };
    let (mut own, mut others) = (Counts::default(), Counts::default());
    for page in corpus::pages(Path::new(&words.documents)).map_err(|error| error.to_string())? {
        comparison.add(&page, true, &mut own);
    }
    let list = read(&words.list)?;
    for name in list.lines() {
        match fs::read(name) {
            Ok(html) => comparison.add(&Page { name: name.to_owned(), html, width: WIDTH }, false, &mut others),
            Err(error) if error.kind() == ErrorKind::NotFound => {}
            Err(error) => comparison.fault(name, &error.to_string()),
        }
    }
    print("pages of the repository", &own);
    print("pages of this machine", &others);
    if words.is_accepting {
        let names: HashSet<&str> = list.lines().collect();
        let of_others = comparison.known.iter().filter(|(name, _)| name.starts_with('/') && !names.contains(name.as_str()));
        comparison.right.extend(of_others.map(|(name, entry)| (name.clone(), entry.clone())));
        fs::write(&words.known, known::written(&comparison.right)).map_err(|error| format!("{}: {error}", words.known))?;
        println!("{} pages are listed", comparison.right.len());
    }
    for fault in &comparison.faults {
        println!("{fault}");
    }
    println!("{} faults", comparison.faults.len());
    Ok(comparison.faults.is_empty())
}

fn main() -> ExitCode {
    let words = match Words::read(env::args().skip(1).collect()) {
        Some(words) => words,
        None => {
            eprintln!("usage: pages [--accept] KNOWN DOCUMENTS LIST [FOLDER]");
            return ExitCode::from(2);
        }
    };
    panic::set_hook(Box::new(|_| {}));
    // html2text recurses as deep as a page is
    let thread = thread::Builder::new().stack_size(1 << 30).spawn(move || compared(&words));
    match thread.map(thread::JoinHandle::join) {
        Ok(Ok(Ok(true))) => ExitCode::SUCCESS,
        Ok(Ok(Err(fault))) => {
            println!("{fault}");
            ExitCode::FAILURE
        }
        _ => ExitCode::FAILURE,
    }
}
