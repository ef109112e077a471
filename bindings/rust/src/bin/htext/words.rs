//! The words of the command line.

use html_render::{LinkMode, Options, Tables};
use std::ffi::{OsStr, OsString};
use std::mem;
use std::os::unix::ffi::{OsStrExt, OsStringExt};
use std::path::PathBuf;

/// What is wrong with the words.
#[derive(Debug)]
pub struct Usage(pub String);

#[derive(Clone, Copy, PartialEq, Eq)]
pub enum Style {
    Plain,
    Rich,
    Bare,
}

/// What is written of a page.
#[derive(Clone, Copy, PartialEq, Eq)]
pub enum Format {
    Text,
    /// A line of JSON.
    Json,
}

#[derive(Clone, Copy)]
pub enum Change {
    RawTables,
    NoBorders,
    FenceTables,
    MaxWidth(usize),
    Pad,
    PageCss,
    KeepControls,
    Images(Images),
}

#[derive(Clone, Copy)]
pub enum Images {
    None,
    Name,
    Always,
}

/// When colours and links are written.
#[derive(Clone, Copy, PartialEq, Eq)]
pub enum Colours {
    Always,
    Never,
    /// On a terminal, unless `NO_COLOR` says otherwise.
    Auto,
}

/// What the words ask for.
pub struct Choices {
    pub width: Option<usize>,
    pub format: Format,
    /// The style of a text; `None` for plain text.
    pub style: Option<Style>,
    pub colours: Colours,
    pub changes: Vec<Change>,
    pub css: String,
    pub is_narrow: bool,
    /// Whether columns may be narrower than their words where there is room.
    pub cuts_words: bool,
    pub options: Options,
    pub output: Option<OsString>,
    /// The folder of the texts of many pages.
    pub folder: Option<OsString>,
    /// Number of pages that are rendered at once.
    pub jobs: Option<usize>,
    /// Whether paths in a list end with a zero byte.
    pub is_null_listed: bool,
    /// The files to print; `-` is standard input.
    pub files: Vec<OsString>,
}

/// How many pages are rendered to files.
pub struct Many {
    /// The folder of the texts.
    pub folder: PathBuf,
    /// Number of pages that are rendered at once; `None` for the number of processors.
    pub jobs: Option<usize>,
    /// The byte that ends a path in the list on standard input; `None` if the files are named.
    pub list_end: Option<u8>,
}

/// What the program does.
pub enum Task {
    Print(Choices),
    Write(Choices, Many),
    Help,
    Version,
}

/// A word that is an option, and the value in the same word.
struct Word {
    option: String,
    value: Option<OsString>,
}

impl Word {
    /// Reads `--option`, `--option=value`, `-o`, `-ovalue` or `-o=value`.
    fn of(word: &OsStr) -> Word {
        let bytes = word.as_bytes();
        let (option, value) = if bytes.starts_with(b"--") {
            match bytes.iter().position(|&byte| byte == b'=') {
                Some(at) => (&bytes[..at], Some(&bytes[at + 1..])),
                None => (bytes, None),
            }
        } else {
            // an option of one character
            let length = word.to_string_lossy().chars().nth(1).map_or(0, char::len_utf8);
            let (option, rest) = bytes.split_at((1 + length).min(bytes.len()));
            (option, (!rest.is_empty()).then(|| rest.strip_prefix(b"=").unwrap_or(rest)))
        };
        Word { option: String::from_utf8_lossy(option).into_owned(), value: value.map(|value| OsString::from_vec(value.to_vec())) }
    }

    fn fault(&self, what: &str) -> Usage {
        Usage(format!("{} {what}", self.option))
    }

    /// Returns the value, which may be the next word.
    fn value(&mut self, words: &mut impl Iterator<Item = OsString>) -> Result<OsString, Usage> {
        self.value.take().or_else(|| words.next()).ok_or_else(|| self.fault("takes a value"))
    }

    fn text(&mut self, words: &mut impl Iterator<Item = OsString>) -> Result<String, Usage> {
        self.value(words)?.into_string().map_err(|_| self.fault("takes a text in UTF-8"))
    }

    fn number(&mut self, words: &mut impl Iterator<Item = OsString>) -> Result<usize, Usage> {
        let text = self.text(words)?;
        text.parse().map_err(|_| self.fault(&format!("takes a number of columns, and not {text:?}")))
    }

    /// Returns a number from 1 on.
    fn count(&mut self, words: &mut impl Iterator<Item = OsString>) -> Result<usize, Usage> {
        let text = self.text(words)?;
        text.parse().ok().filter(|&count| count > 0).ok_or_else(|| self.fault(&format!("takes a number from 1 on, and not {text:?}")))
    }

    /// Refuses a value.
    fn alone(&self) -> Result<(), Usage> {
        match self.value {
            Some(_) => Err(self.fault("takes no value")),
            None => Ok(()),
        }
    }
}

/// Reads the words of the command line.
pub fn read(mut words: impl Iterator<Item = OsString>) -> Result<Task, Usage> {
    let mut choices = Choices {
        width: None,
        format: Format::Text,
        style: None,
        colours: Colours::Auto,
        changes: Vec::new(),
        css: String::new(),
        is_narrow: false,
        cuts_words: false,
        options: Options::new(),
        output: None,
        folder: None,
        jobs: None,
        is_null_listed: false,
        files: Vec::new(),
    };
    while let Some(word) = words.next() {
        if word == "--" {
            choices.files.extend(&mut words);
        } else if word == "-" || !word.as_bytes().starts_with(b"-") {
            choices.files.push(word);
        } else if let Some(task) = choices.take(Word::of(&word), &mut words)? {
            return Ok(task);
        }
    }
    choices.into_task()
}

impl Choices {
    /// Returns what the program does, if all words are read.
    fn into_task(mut self) -> Result<Task, Usage> {
        if self.format == Format::Json && self.style.is_some() {
            return Err(Usage("--style is for --format text".to_owned()));
        }
        let folder = match self.folder.take() {
            Some(folder) => PathBuf::from(folder),
            None => return self.into_print(),
        };
        let is_listed = self.files.is_empty();
        if self.output.is_some() {
            return Err(Usage("--output and --output-dir can't be used together".to_owned()));
        }
        if self.is_null_listed && !is_listed {
            return Err(Usage("--null is for a list of files on standard input".to_owned()));
        }
        let end = if self.is_null_listed { 0 } else { b'\n' };
        let many = Many { folder, jobs: self.jobs, list_end: is_listed.then(|| end) };
        Ok(Task::Write(self, many))
    }

    /// Returns that files are printed.
    fn into_print(mut self) -> Result<Task, Usage> {
        if self.jobs.is_some() || self.is_null_listed {
            return Err(Usage(format!("{} needs --output-dir", if self.jobs.is_some() { "--jobs" } else { "--null" })));
        }
        if self.files.is_empty() {
            self.files.push("-".into());
        }
        Ok(Task::Print(self))
    }

    /// Takes an option. Returns what the program does in the place of printing, if the option says so.
    fn take(&mut self, mut word: Word, words: &mut impl Iterator<Item = OsString>) -> Result<Option<Task>, Usage> {
        let option = word.option.clone();
        match option.as_str() {
            "-w" | "--width" => self.width = Some(word.number(words)?),
            "-s" | "--style" => {
                self.style = match word.text(words)?.as_str() {
                    "plain" => Some(Style::Plain),
                    "rich" => Some(Style::Rich),
                    "bare" => Some(Style::Bare),
                    other => return Err(Usage(format!("no such style: {other}"))),
                }
            }
            "--format" => {
                self.format = match word.text(words)?.as_str() {
                    "text" => Format::Text,
                    "json" => Format::Json,
                    other => return Err(Usage(format!("no such format: {other}"))),
                }
            }
            "-o" | "--output" => self.output = Some(word.value(words)?),
            "--output-dir" => self.folder = Some(word.value(words)?),
            "-j" | "--jobs" => self.jobs = Some(word.count(words)?),
            "--charset" => {
                let label = word.text(words)?;
                self.options = mem::take(&mut self.options).charset(&label).map_err(|_| Usage(format!("no such charset: {label}")))?;
            }
            "--base" => {
                let address = word.text(words)?;
                self.options = mem::take(&mut self.options).base(&address).map_err(|_| Usage(format!("no absolute address: {address}")))?;
            }
            "--links" => self.options = mem::take(&mut self.options).links(link_mode(&word.text(words)?)?),
            "--color" => {
                self.colours = match word.text(words)?.as_str() {
                    "always" => Colours::Always,
                    "never" => Colours::Never,
                    "auto" => Colours::Auto,
                    other => return Err(Usage(format!("no such mode: {other}"))),
                }
            }
            "--tables" => {
                let tables = match word.text(words)?.as_str() {
                    "all" => Tables::All,
                    "data" => Tables::Data,
                    "none" => Tables::None,
                    other => return Err(Usage(format!("no such tables: {other}"))),
                };
                self.options = mem::take(&mut self.options).tables(tables);
            }
            "--max-nodes" => self.options = mem::take(&mut self.options).max_nodes(word.count(words)?),
            "--css" => self.css.push_str(&word.text(words)?),
            "--max-width" => self.changes.push(Change::MaxWidth(word.number(words)?)),
            "--images" => self.changes.push(Change::Images(match word.text(words)?.as_str() {
                "none" => Images::None,
                "name" => Images::Name,
                "always" => Images::Always,
                other => return Err(Usage(format!("no such mode: {other}"))),
            })),
            _ => return self.take_alone(&word),
        }
        Ok(None)
    }

    /// Takes an option without a value.
    fn take_alone(&mut self, word: &Word) -> Result<Option<Task>, Usage> {
        let change = match word.option.as_str() {
            "-h" | "--help" => return Ok(Some(Task::Help)),
            "-V" | "--version" => return Ok(Some(Task::Version)),
            "--title" | "--no-links" | "--wrap-links" | "--no-wrap-links" | "--wrap-code" | "--row-rules" => {
                let options = mem::take(&mut self.options);
                self.options = match word.option.as_str() {
                    "--title" => options.title(),
                    "--no-links" => options.links(LinkMode::None),
                    "--wrap-code" => options.wrap_code(true),
                    "--row-rules" => options.row_rules(),
                    wraps => options.wrap_links(wraps == "--wrap-links"),
                };
                return word.alone().map(|()| None);
            }
            "--narrow" => {
                self.is_narrow = true;
                return word.alone().map(|()| None);
            }
            "--cut-words" => {
                self.cuts_words = true;
                return word.alone().map(|()| None);
            }
            "-0" | "--null" => {
                self.is_null_listed = true;
                return word.alone().map(|()| None);
            }
            "--raw-tables" => Change::RawTables,
            "--no-borders" => Change::NoBorders,
            "--fence-tables" => Change::FenceTables,
            "--pad" => {
                self.options = mem::take(&mut self.options).pad();
                Change::Pad
            }
            "--page-css" => Change::PageCss,
            "--keep-controls" => Change::KeepControls,
            other => return Err(Usage(format!("no such option: {other}"))),
        };
        word.alone()?;
        self.changes.push(change);
        Ok(None)
    }
}

fn link_mode(word: &str) -> Result<LinkMode, Usage> {
    match word {
        "notes" => Ok(LinkMode::Notes),
        "inline" => Ok(LinkMode::Inline),
        "list" => Ok(LinkMode::List),
        "none" => Ok(LinkMode::None),
        other => Err(Usage(format!("no such mode: {other}"))),
    }
}

#[cfg(test)]
mod tests {
    use super::*;

    fn word(text: &[u8]) -> (String, Option<Vec<u8>>) {
        let word = Word::of(OsStr::from_bytes(text));
        (word.option, word.value.map(OsStringExt::into_vec))
    }

    #[test]
    fn options_and_values() {
        for (text, option, value) in [
            ("-w80", "-w", Some("80")),
            ("-w=80", "-w", Some("80")),
            ("-w", "-w", None),
            ("--width=80", "--width", Some("80")),
            ("--css=a=b", "--css", Some("a=b")),
            ("-\u{e9}x", "-\u{e9}", Some("x")),
        ] {
            assert_eq!(word(text.as_bytes()), (option.to_owned(), value.map(|value| value.as_bytes().to_vec())), "{text}");
        }
        assert_eq!(word(b"--output=\xff"), ("--output".to_owned(), Some(b"\xff".to_vec())));
        assert_eq!(word(b"-o\xff"), ("-o".to_owned(), Some(b"\xff".to_vec())));
        assert_eq!(word(b"-\xff").1, None);
    }
}
