//! Renders many pages at once, each to a text of its own.
//!
//! Threads take the pages in order, one at a time, so that what they need of memory grows with their number. Faults are told of in the
//! order of the pages.

use crate::outputs::path_of_text;
use crate::terminal;
use crate::Fault;
use html_render::Error;
use std::collections::BTreeMap;
use std::ffi::{OsStr, OsString};
use std::fs::{self, OpenOptions};
use std::io::{self, Read, Write};
use std::os::unix::ffi::OsStringExt;
use std::path::Path;
use std::process;
use std::sync::atomic::{AtomicUsize, Ordering};
use std::sync::{Mutex, MutexGuard, PoisonError};
use std::thread;
use std::time::{Duration, Instant};

/// Time between two lines of progress.
const PERIOD: Duration = Duration::from_millis(100);

/// Pages whose texts are written to files.
pub struct Pages<'a> {
    pub files: &'a [OsString],
    /// The folder of the texts.
    pub folder: &'a Path,
    /// The ending of a text's name.
    pub ending: &'a str,
}

/// What is said of the pages, in their order.
struct Report {
    count: usize,
    /// Number of pages that are done, all before which are done too.
    told: usize,
    /// What became of pages after these.
    ahead: BTreeMap<usize, Option<Fault>>,
    faults: usize,
    /// The status of the first fault, or 0.
    status: u8,
    /// When the last line of progress was written; `None` if none is.
    progress: Option<Instant>,
}

impl Report {
    fn new(count: usize) -> Report {
        let progress = terminal::is_error_output().then(Instant::now);
        Report { count, told: 0, ahead: BTreeMap::new(), faults: 0, status: 0, progress }
    }

    /// Notes what became of a page. Tells of the faults of all pages before which none is open.
    fn end_page(&mut self, number: usize, fault: Option<Fault>) {
        self.ahead.insert(number, fault);
        while let Some(fault) = self.ahead.remove(&self.told) {
            self.told += 1;
            if let Some(fault) = fault {
                self.tell(&fault);
            }
        }
        self.show_progress();
    }

    fn tell(&mut self, fault: &Fault) {
        self.clear_progress();
        fault.tell();
        self.faults += 1;
        if self.status == 0 {
            self.status = fault.status();
        }
    }

    fn show_progress(&mut self) {
        if self.progress.map_or(false, |last| last.elapsed() >= PERIOD) {
            eprint!("\r{} of {} pages", self.told + self.ahead.len(), self.count);
            self.progress = Some(Instant::now());
        }
    }

    fn clear_progress(&self) {
        if self.progress.is_some() {
            eprint!("\r\x1b[K");
        }
    }

    /// Tells how many pages have faults, if any have. Returns the status of the first one, or 0.
    fn end(self) -> u8 {
        self.clear_progress();
        if self.faults > 0 {
            eprintln!("htext: {} of {} pages have no text", self.faults, self.count);
        }
        self.status
    }
}

/// Returns the lock on a value. A thread that panics ends the program.
fn locked<T>(value: &Mutex<T>) -> MutexGuard<'_, T> {
    value.lock().unwrap_or_else(PoisonError::into_inner)
}

/// Writes a text under another name in the folder of its file, and renames that to the file.
fn write_whole(path: &Path, text: &str, number: usize) -> io::Result<()> {
    let folder = path.parent().unwrap_or_else(|| Path::new("."));
    fs::create_dir_all(folder)?;
    let unfinished = folder.join(format!(".htext-{}-{number}", process::id()));
    let written = OpenOptions::new().write(true).create_new(true).open(&unfinished).and_then(|mut file| {
        file.write_all(text.as_bytes())?;
        fs::rename(&unfinished, path)
    });
    if written.is_err() {
        // what is left of it is of no use; why it wasn't written is told
        let _ = fs::remove_file(&unfinished);
    }
    written
}

impl Pages<'_> {
    /// Renders a page by a function, and writes its text.
    fn end_page(&self, number: usize, text_of: &impl Fn(&OsStr) -> Result<String, Error>) -> Result<(), Fault> {
        let file = &self.files[number];
        let text = text_of(file).map_err(|error| Fault::Render(file.clone(), error))?;
        let path = path_of_text(self.folder, file, self.ending);
        write_whole(&path, &text, number).map_err(|error| Fault::Write(Some(path.into_os_string()), error))
    }

    /// Renders all pages by a function, in so many threads, or in fewer if the system has no more, and writes their texts. Returns the
    /// status of the first page that has none, or 0.
    pub fn render(&self, jobs: usize, text_of: impl Fn(&OsStr) -> Result<String, Error> + Sync) -> u8 {
        let next = AtomicUsize::new(0);
        let report = Mutex::new(Report::new(self.files.len()));
        let work = || loop {
            let number = next.fetch_add(1, Ordering::Relaxed);
            if number >= self.files.len() {
                return;
            }
            let fault = self.end_page(number, &text_of).err();
            locked(&report).end_page(number, fault);
        };
        thread::scope(|scope| {
            for _ in 1..jobs.min(self.files.len()) {
                if thread::Builder::new().spawn_scoped(scope, work).is_err() {
                    break;
                }
            }
            work();
        });
        report.into_inner().unwrap_or_else(PoisonError::into_inner).end()
    }
}

/// Returns the number of processors that the program may use.
pub fn processors() -> usize {
    thread::available_parallelism().map_or(1, usize::from)
}

/// Reads a list of paths, each of which ends with a byte. Empty ones are passed over.
pub fn listed(mut input: impl Read, end: u8) -> io::Result<Vec<OsString>> {
    let mut bytes = Vec::new();
    input.read_to_end(&mut bytes)?;
    let paths = bytes.split(|&byte| byte == end).filter(|path| !path.is_empty());
    Ok(paths.map(|path| OsString::from_vec(path.to_vec())).collect())
}

#[cfg(test)]
mod tests {
    use super::*;

    #[test]
    fn lists_of_paths() {
        let read = |list: &str, end| listed(list.as_bytes(), end).unwrap();
        assert_eq!(read("a b.html\nc\n\n", b'\n'), ["a b.html", "c"]);
        assert_eq!(read("a\nb\0c", 0), ["a\nb", "c"]);
        assert!(read("", b'\n').is_empty());
    }
}
