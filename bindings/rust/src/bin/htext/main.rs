//! Prints HTML as wrapped text: `htext --help` tells how.

mod many;
mod outputs;
mod terminal;
mod words;

use html_render::config::{plain, plain_no_decorate, rich, Config, ImageRenderMode};
use html_render::render::TextDecorator;
use html_render::Error;
use std::ffi::{OsStr, OsString};
use std::fs::File;
use std::io::{self, Read, Write};
use std::path::Path;
use std::process::ExitCode;
use words::{Change, Choices, Colours, Format, Images, Many, Style, Task, Usage};

const HELP: &str = "\
Usage: htext [OPTION]... [FILE]...

Prints the HTML of each FILE, or of standard input where it is - or there is
none, as text wrapped to a width.

  -w, --width N       columns of a line; else those of the terminal, or 80
  -s, --style STYLE   plain: signs round emphasis, footnotes for links (default)
                      rich: colours and links, where the output is a terminal
                      bare: neither
      --format FORMAT text (default), or json: a line for each FILE with its title,
                      language, links and lines, which are annotated
      --color WHEN    colours and links of style rich: always, never, or auto:
                      on a terminal, unless NO_COLOR is set (default)
  -o, --output FILE   write the text to FILE
      --output-dir DIR
                      write the text of each FILE to a file of its own: that of
                      a/b.html to DIR/a/b.txt, in 80 columns or those of --width.
                      Where no FILE is named, standard input lists them, one on a
                      line
  -j, --jobs N        render N pages at once into DIR; else as many as there are
                      processors
  -0, --null          each path of the list ends with a zero byte
      --title         show the title of the page above its text
      --charset NAME  the encoding of the page, as HTTP or a mail names it; else
                      what the page declares, or UTF-8, or windows-1252
      --links MODE    targets of links: notes, numbers and footnotes (of style
                      plain); inline, after each link; list, at the end without
                      numbers; none (of style bare)
      --no-links      the same as --links none
      --wrap-links    targets at the end are cut at the width
      --no-wrap-links they aren't, and may pass it (default)
      --base URL      the address of the page, against which targets are resolved
      --tables WHICH  tables that are drawn: data (default), all, none; the others
                      are shown as the blocks and lines in their cells
      --row-rules     a line under each row of a table; without it none between
                      short rows, but under the heads
      --raw-tables    cells of tables stand one below another
      --cut-words     columns don't get the width of their longest words
      --no-borders    tables are drawn without borders
      --fence-tables  tables stand between lines of three backquotes
      --wrap-code     lines of preformatted text are cut at the width; without it
                      they may pass it
      --max-width N   a paragraph's lines have at most N columns
      --pad           lines are filled with spaces; without it none end with one
      --images MODE   of images without a text: none, name (of the file), always
      --narrow        fail where a character or a prefix is wider than a line,
                      rather than let it stand beyond the width
      --css RULES     style rules, as 'h1.note { color: #aa0000 }'; again for more
      --page-css      the rules of the page's own <style> elements
      --keep-controls keep control characters of the page, which can control a
                      terminal
      --max-nodes N   refuse a page of more than N nodes, or attributes that are
                      read; else of more than 5 million
  -h, --help          print this
  -V, --version       print the version

Exit status: 0 done, 1 not rendered, 2 wrong usage, 3 not read or not written;
of several files that of the first which isn't done.
";

/// Why a text isn't printed.
enum Fault {
    Usage(String),
    /// A file that isn't rendered.
    Render(OsString, Error),
    /// A file that isn't written; `None` for standard output.
    Write(Option<OsString>, io::Error),
}

impl Fault {
    fn status(&self) -> u8 {
        match self {
            Fault::Usage(_) => 2,
            Fault::Render(_, Error::IoError(_)) | Fault::Write(..) => 3,
            Fault::Render(..) => 1,
        }
    }

    /// Reports whether it only says that who reads the output has enough of it.
    fn is_enough(&self) -> bool {
        matches!(self, Fault::Write(None, error) if error.kind() == io::ErrorKind::BrokenPipe)
    }

    fn tell(&self) {
        match self {
            Fault::Usage(what) => eprintln!("htext: {what}; htext --help tells how"),
            Fault::Render(file, error) => eprintln!("htext: {}: {error}", Path::new(file).display()),
            Fault::Write(Some(file), error) => eprintln!("htext: {}: {error}", Path::new(file).display()),
            Fault::Write(None, error) => eprintln!("htext: {error}"),
        }
    }
}

impl From<Usage> for Fault {
    fn from(Usage(what): Usage) -> Fault {
        Fault::Usage(what)
    }
}

fn changed<D: TextDecorator>(config: Config<D>, choices: &Choices) -> Result<Config<D>, Error> {
    let mut config = config.as_shown(choices.options.clone()).add_css(&choices.css)?;
    for change in &choices.changes {
        config = match *change {
            Change::RawTables => config.raw_mode(true),
            Change::NoBorders => config.no_table_borders(),
            Change::FenceTables => config.fence_tables(),
            Change::MaxWidth(columns) => config.max_wrap_width(columns),
            Change::Pad => config.pad_block_width(),
            Change::PageCss => config.use_doc_css(),
            Change::KeepControls => config.keep_controls(),
            Change::Images(Images::None) => config.empty_img_mode(ImageRenderMode::IgnoreEmpty),
            Change::Images(Images::Name) => config.empty_img_mode(ImageRenderMode::Filename),
            Change::Images(Images::Always) => config.empty_img_mode(ImageRenderMode::ShowAlways),
        };
    }
    if !choices.cuts_words {
        config = config.whole_words();
    }
    Ok(if choices.is_narrow { config } else { config.allow_width_overflow() })
}

fn input(file: &OsStr) -> io::Result<Box<dyn Read>> {
    if file == "-" {
        Ok(Box::new(io::stdin().lock()))
    } else {
        Ok(Box::new(File::open(file)?))
    }
}

/// Reports whether colours and links are written.
fn is_coloured(choices: &Choices) -> bool {
    match choices.colours {
        Colours::Always => true,
        Colours::Never => false,
        Colours::Auto => choices.output.is_none() && terminal::is_output() && terminal::takes_colours(),
    }
}

fn text_of(file: &OsStr, choices: &Choices, width: usize) -> Result<String, Error> {
    let input = input(file)?;
    if choices.format == Format::Json {
        return json_of(input, choices, width);
    }
    match choices.style.unwrap_or(Style::Plain) {
        Style::Rich if is_coloured(choices) => changed(rich(), choices)?.coloured(input, width, terminal::shown),
        Style::Rich => changed(rich(), choices)?.string_from_read(input, width),
        Style::Plain => changed(plain(), choices)?.string_from_read(input, width),
        Style::Bare => changed(plain_no_decorate(), choices)?.string_from_read(input, width),
    }
}

/// Returns a page as a line of JSON.
fn json_of(input: impl Read, choices: &Choices, width: usize) -> Result<String, Error> {
    let page = changed(rich(), choices)?.page_from_read(input, width)?;
    let mut line = serde_json::to_string(&page).map_err(io::Error::from)?;
    line.push('\n');
    Ok(line)
}

/// Returns the ending of the name of a file that has what is written of a page.
fn ending(format: Format) -> &'static str {
    match format {
        Format::Text => ".txt",
        Format::Json => ".json",
    }
}

/// Where texts are written. A file is made when the first one is.
struct Output<'a> {
    file: Option<&'a OsString>,
    to: Option<Box<dyn Write>>,
}

impl Output<'_> {
    fn write(&mut self, text: &str) -> Result<(), Fault> {
        self.try_to_write(text).map_err(|error| Fault::Write(self.file.cloned(), error))
    }

    fn try_to_write(&mut self, text: &str) -> io::Result<()> {
        let to = match (&mut self.to, self.file) {
            (Some(to), _) => to,
            (to @ None, Some(file)) => to.insert(Box::new(File::create(file)?)),
            (to @ None, None) => to.insert(Box::new(io::stdout().lock())),
        };
        to.write_all(text.as_bytes())?;
        to.flush()
    }
}

/// Prints the files that the choices name. A file that isn't rendered is told of, and doesn't keep the others from being printed.
/// Returns the status of the first such file, or 0.
fn print(choices: &Choices) -> Result<u8, Fault> {
    let width = choices.width.unwrap_or_else(terminal::columns);
    let mut output = Output { file: choices.output.as_ref(), to: None };
    let mut status = 0;
    for file in &choices.files {
        match text_of(file, choices, width) {
            Ok(text) => output.write(&text)?,
            Err(error) => {
                let fault = Fault::Render(file.clone(), error);
                fault.tell();
                status = if status == 0 { fault.status() } else { status };
            }
        }
    }
    Ok(status)
}

/// Columns of the text of one of many pages, if the words say nothing of them.
const COLUMNS: usize = 80;

/// Writes the text of each file to a file of its own. A file that isn't rendered is told of, and doesn't keep the others from being
/// written. Returns the status of the first such file, or 0.
fn write_many(mut choices: Choices, asked: &Many) -> Result<u8, Fault> {
    if let Some(end) = asked.list_end {
        choices.files = many::listed(io::stdin().lock(), end).map_err(|error| Fault::Render("-".into(), error.into()))?;
    }
    if choices.colours == Colours::Auto {
        choices.colours = Colours::Never;
    }
    let pages = many::Pages { files: &choices.files, folder: &asked.folder, ending: ending(choices.format) };
    outputs::check(pages.folder, pages.files, pages.ending).map_err(Fault::Usage)?;
    let width = choices.width.unwrap_or(COLUMNS);
    let jobs = asked.jobs.unwrap_or_else(many::processors);
    Ok(pages.render(jobs, |file| text_of(file, &choices, width)))
}

fn tell(text: &str) -> Result<u8, Fault> {
    Output { file: None, to: None }.write(text)?;
    Ok(0)
}

fn run() -> Result<u8, Fault> {
    match words::read(std::env::args_os().skip(1))? {
        Task::Help => tell(HELP),
        Task::Version => tell(&format!("htext {}\n", env!("CARGO_PKG_VERSION"))),
        Task::Print(choices) => {
            check_css(&choices)?;
            print(&choices)
        }
        Task::Write(choices, asked) => {
            check_css(&choices)?;
            write_many(choices, &asked)
        }
    }
}

/// Checks that each rule of the words has a block.
fn check_css(choices: &Choices) -> Result<(), Fault> {
    plain().add_css(&choices.css).map(|_| ()).map_err(|_| Fault::Usage("a rule of --css has no block".to_owned()))
}

fn main() -> ExitCode {
    html_render::give_back_large_blocks();
    match run() {
        Ok(status) => ExitCode::from(status),
        Err(fault) if fault.is_enough() => ExitCode::SUCCESS,
        Err(fault) => {
            fault.tell();
            ExitCode::from(fault.status())
        }
    }
}
