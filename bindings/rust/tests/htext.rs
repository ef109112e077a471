//! The program.

use std::ffi::OsStr;
use std::fs::{self, File};
use std::io::Write;
use std::os::unix::ffi::OsStrExt;
use std::path::{Path, PathBuf};
use std::process::{Command, Output, Stdio};
use std::thread;
use std::time::Duration;

fn htext(words: &[&str], page: &str) -> Output {
    let mut child = Command::new(env!("CARGO_BIN_EXE_htext"))
        .args(words)
        .stdin(Stdio::piped())
        .stdout(Stdio::piped())
        .stderr(Stdio::piped())
        .spawn()
        .unwrap();
    // a program that refuses its words doesn't read
    let _ = child.stdin.take().unwrap().write_all(page.as_bytes());
    child.wait_with_output().unwrap()
}

fn text(words: &[&str], page: &str) -> String {
    let output = htext(words, page);
    assert!(output.status.success() && output.stderr.is_empty(), "{output:?}");
    String::from_utf8(output.stdout).unwrap()
}

fn fault(words: &[&str], page: &str) -> (i32, String) {
    let output = htext(words, page);
    assert!(output.stdout.is_empty());
    (output.status.code().unwrap(), String::from_utf8(output.stderr).unwrap())
}

const PAGE: &str = "<h1>Ferries</h1><p>See <a href='https://ferries.example'>the <em>fares</em></a></p>";

#[test]
fn styles() {
    assert_eq!(text(&[], PAGE), "# Ferries\n\nSee the *fares*[1]\n\n[1]: https://ferries.example\n");
    assert_eq!(text(&["--no-links"], PAGE), "# Ferries\n\nSee the *fares*\n");
    assert_eq!(text(&["-s", "bare"], PAGE), "# Ferries\n\nSee the fares\n");
    assert_eq!(text(&["--style=rich"], PAGE), "# Ferries\n\nSee the fares\n");
}

#[test]
fn targets_of_links() {
    let page = "<p><a href=a.html>one</a> <a href='/b'>two</a> <a href=a.html>three</a> <a href='https://c.example/'>c.example</a> <a href='#d'>four</a>";
    let base = "--base=https://x.example/y/";
    assert_eq!(text(&[], page), "one[1] two[2] three[1] c.example four\n\n[1]: a.html\n[2]: /b\n");
    assert_eq!(text(&[base], page), "one[1] two[2] three[1] c.example four\n\n[1]: https://x.example/y/a.html\n[2]: https://x.example/b\n");
    assert_eq!(text(&["--links", "inline"], page), "one <a.html> two </b> three <a.html> c.example four\n");
    assert_eq!(text(&["--links=list", base], page), "one two three c.example four\n\nhttps://x.example/y/a.html\nhttps://x.example/b\n");
    for words in [["--links", "none"].as_slice(), &["--no-links"], &["-sbare"], &["-srich"]] {
        assert_eq!(text(words, page), "one two three c.example four\n");
    }
    assert_eq!(text(&["-sbare", "--links=notes"], "<a href=a>b</a>"), "b[1]\n\n[1]: a\n");
    let long = "<a href='https://x.example/y'>z</a>";
    assert_eq!(text(&["-w9"], long), "z[1]\n\n[1]: https://x.example/y\n");
    assert_eq!(text(&["-w9", "--wrap-links", "--no-wrap-links"], long), text(&["-w9"], long));
    assert_eq!(text(&["-w9", "--wrap-links"], long), "z[1]\n\n[1]: http\ns://x.exa\nmple/y\n");
    assert_eq!(fault(&["--links", "all"], "").0, 2);
    assert_eq!(fault(&["--base", "a.html"], "").0, 2);
}

#[test]
fn colours() {
    let page = "<h1>One</h1><p>two <b>three</b> <a href='https://four.example/'>five</a> <a href='#six'>six</a>";
    let always = "# \u{1b}[1mOne\u{1b}[0m\n\ntwo \u{1b}[1mthree\u{1b}[0m \u{1b}]8;;https://four.example/\u{1b}\\\u{1b}[4mfive\u{1b}[0m\u{1b}]8;;\u{1b}\\ \u{1b}[4msix\u{1b}[0m\n";
    assert_eq!(text(&["-srich", "--color=always"], page), always);
    for words in [["-srich", "--color", "never"].as_slice(), &["-srich", "--color=auto"], &["-srich"]] {
        assert_eq!(text(words, page), "# One\n\ntwo three five six\n");
    }
    assert_eq!(text(&["--color=always"], "<b>a</b>"), "**a**\n");
    assert_eq!(fault(&["--color", "red"], "").0, 2);
}

#[test]
fn widths() {
    assert_eq!(text(&["-w", "5", "-"], "<p>one two"), "one\ntwo\n");
    assert_eq!(text(&["--max-width", "3"], "<p>one two"), "one\ntwo\n");
    assert_eq!(text(&["--width=4", "--pad"], "<p>one"), "one \n");
    assert_eq!(text(&["-w", "1"], "\u{754c}"), "\u{754c}\n");
}

#[test]
fn pages_of_many_nodes_are_refused() {
    assert_eq!(text(&["--max-nodes", "6"], "<p>one"), "one\n");
    assert_eq!(text(&["--max-nodes=99999999999"], "<p>one"), "one\n");
    for words in [["--max-nodes=5"].as_slice(), &["--max-nodes", "1"], &["--max-nodes=5", "--format=json"], &["--max-nodes=5", "-srich"], &["--max-nodes=5", "-sbare"]] {
        assert_eq!(fault(words, "<p>one"), (1, "htext: -: too large\n".to_owned()), "{words:?}");
    }
    for nodes in ["0", "-1", "many", ""] {
        assert_eq!(fault(&["--max-nodes", nodes], ""), (2, format!("htext: --max-nodes takes a number from 1 on, and not {nodes:?}; htext --help tells how\n")));
    }
}

#[test]
fn tables() {
    let table = "<table border=1><tr><td>a<td>b</table>";
    assert_eq!(text(&["--no-borders"], table), "a b\n");
    assert_eq!(text(&["--raw-tables"], table), "a\nb\n");
    assert_eq!(text(&["--no-borders", "--fence-tables"], table), "```\na b\n```\n");
    assert_eq!(text(&["--tables=none"], table), "a  b\n");
    assert_eq!(text(&["--tables", "none", "--raw-tables"], table), "a\nb\n");
    let words = "<table border=1><tr><td>Price<td>of the best quality</table>";
    assert_eq!(text(&["-w14", "--no-borders"], words), "Price of the\n      best\n      quality\n");
    assert_eq!(text(&["-w14", "--no-borders", "--cut-words"], words), "Pri of the\nce  best\n    quality\n");
    let layout = "<table><tr><td>a<td>b</table>";
    assert_eq!(text(&[], layout), "a  b\n");
    assert_eq!(text(&["--tables=data"], layout), "a  b\n");
    assert_eq!(text(&["--tables=all"], layout), text(&[], table));
}

#[test]
fn rows_of_tables() {
    let table = "<table><thead><tr><td>a<td>b<tbody><tr><td>c<td>d<tr><td>e<td>f</table>";
    let whole = "─┬─\na│b\n─┼─\nc│d\n─┼─\ne│f\n─┴─\n";
    for style in ["-splain", "-sbare", "-srich"] {
        assert_eq!(text(&[style], table), "─┬─\na│b\n─┼─\nc│d\ne│f\n─┴─\n");
        assert_eq!(text(&[style, "--row-rules"], table), whole);
        assert_eq!(text(&[style, "--no-borders"], table), "a b\nc d\ne f\n");
        assert_eq!(text(&[style, "--raw-tables"], table), "a\nb\nc\nd\ne\nf\n");
    }
    // a line of the page itself could be taken for a border
    for (page, lines) in [("<p>\u{253c}", "\u{253c}"), ("<img src=a alt='\u{2534}'>", "[\u{2534}]")] {
        assert_eq!(text(&[], &format!("{page}{table}")), format!("{lines}\n\n{whole}"));
    }
}

#[test]
fn preformatted_text() {
    let page = "<ul><li>a<pre>one two three\n\tfour</pre></ul>";
    assert_eq!(text(&["-w30"], page), "* a\n\n      one two three\n              four\n");
    assert_eq!(text(&["-w16"], page), "* a\n\n   one two three\n           four\n");
    for style in ["-splain", "-sbare", "-srich"] {
        assert_eq!(text(&[style, "-w12"], page), "* a\n\n      one two three\n              four\n");
    }
    assert_eq!(text(&["-w12", "--wrap-code"], page), "* a\n\n      one tw\n  o three\n\n    four\n");
    assert_eq!(text(&["-w12", "--css", "pre { white-space: pre-wrap }"], page), "* a\n\n      one\n  two three\n\n  four\n");
}

#[test]
fn style_rules() {
    let page = "<style>.ad { display: none }</style><p class=ad>buy<p>text";
    assert_eq!(text(&[], page), "buy\n\ntext\n");
    assert_eq!(text(&["--page-css"], page), "text\n");
    assert_eq!(text(&["--css", "p { display: none }"], page), "");
}

#[test]
fn images() {
    assert_eq!(text(&["--images", "name"], "<img src='a/b.png' alt=''>"), "[b.png]\n");
}

#[test]
fn faults() {
    assert_eq!(fault(&["--narrow", "-w", "1"], "\u{754c}").0, 1);
    assert_eq!(fault(&["--width"], ""), (2, "htext: --width takes a value; htext --help tells how\n".to_owned()));
    assert_eq!(fault(&["-w", "x"], "").0, 2);
    assert_eq!(fault(&["--colours"], ""), (2, "htext: no such option: --colours; htext --help tells how\n".to_owned()));
    assert_eq!(fault(&["--css", "h1"], "x").0, 2);
    assert_eq!(fault(&["--charset", "klingon"], "").0, 2);
    assert_eq!(fault(&["--pad=1"], "").0, 2);
    assert_eq!(fault(&["--tables=some"], ""), (2, "htext: no such tables: some; htext --help tells how\n".to_owned()));
    let (status, message) = fault(&["no/such.html"], "");
    assert!(status == 3 && message.starts_with("htext: no/such.html: "), "{message}");
    assert!(fault(&["--narrow", "-w1"], "\u{754c}").1.starts_with("htext: -: "));
}

#[test]
fn values_in_a_word() {
    for words in [["-w5"], ["-w=5"], ["--width=5"]] {
        assert_eq!(text(&words, "<p>one two"), "one\ntwo\n");
    }
    assert_eq!(text(&["-sbare"], PAGE), text(&["-s", "bare"], PAGE));
}

/// A folder of its own for a test.
fn folder(name: &str) -> PathBuf {
    let folder = PathBuf::from(env!("CARGO_TARGET_TMPDIR")).join(name);
    fs::create_dir_all(&folder).unwrap();
    folder
}

#[test]
fn several_files() {
    let folder = folder("several");
    let file = |name: &[u8]| folder.join(OsStr::from_bytes(name));
    let (one, other, missing) = (file(b"one.html"), file(b"other-\xff.html"), file(b"missing"));
    fs::write(&one, "<p>a").unwrap();
    fs::write(&other, "<p>b").unwrap();
    let run = |files: &[&Path]| {
        let output = Command::new(env!("CARGO_BIN_EXE_htext")).args(files).stdin(Stdio::null()).output().unwrap();
        (output.status.code(), String::from_utf8(output.stdout).unwrap(), String::from_utf8_lossy(&output.stderr).into_owned())
    };
    assert_eq!(run(&[&one, &other]), (Some(0), "a\nb\n".to_owned(), String::new()));
    let (status, text, message) = run(&[&one, &missing, &other]);
    assert_eq!((status, text.as_str()), (Some(3), "a\nb\n"));
    assert!(message.starts_with(&format!("htext: {}: ", missing.display())), "{message}");
}

/// Runs htext in a folder, with a list on standard input.
fn in_folder(folder: &Path, words: &[&str], list: &str) -> (i32, String) {
    let mut child = Command::new(env!("CARGO_BIN_EXE_htext")).args(words).current_dir(folder).stdin(Stdio::piped()).stdout(Stdio::piped()).stderr(Stdio::piped()).spawn().unwrap();
    let _ = child.stdin.take().unwrap().write_all(list.as_bytes());
    let output = child.wait_with_output().unwrap();
    assert!(output.stdout.is_empty(), "{output:?}");
    (output.status.code().unwrap(), String::from_utf8(output.stderr).unwrap())
}

/// Returns the files below a folder, in order, with their contents.
fn files_below(folder: &Path) -> Vec<(String, Vec<u8>)> {
    let mut found = Vec::new();
    let mut ahead = vec![folder.to_owned()];
    while let Some(path) = ahead.pop() {
        if path.is_dir() {
            ahead.extend(fs::read_dir(&path).unwrap().map(|entry| entry.unwrap().path()));
        } else {
            let name = path.strip_prefix(folder).unwrap().to_str().unwrap().to_owned();
            found.push((name, fs::read(&path).unwrap()));
        }
    }
    found.sort();
    found
}

/// Makes a folder of its own for a test, with pages.
fn folder_of_pages(name: &str, pages: &[(&str, &str)]) -> PathBuf {
    let folder = folder(name);
    fs::remove_dir_all(&folder).unwrap();
    for (page, html) in pages {
        let path = folder.join(page);
        fs::create_dir_all(path.parent().unwrap()).unwrap();
        fs::write(path, html).unwrap();
    }
    folder
}

#[test]
fn many_pages() {
    let folder = folder_of_pages("many", &[("a.html", "<p>a<hr>"), ("b/c.HTM", "<p>c"), ("b/d", "<p>d")]);
    let written = |name: &str| files_below(&folder.join(name)).into_iter().map(|(name, text)| (name, String::from_utf8(text).unwrap())).collect::<Vec<_>>();
    let texts = [("a.txt", format!("a\n\n{}\n", "─".repeat(80))), ("b/c.txt", "c\n".to_owned()), ("b/d.txt", "d\n".to_owned())].map(|(name, text)| (name.to_owned(), text));
    assert_eq!(in_folder(&folder, &["--output-dir", "named", "a.html", "./b/c.HTM", "b/../b/d"], ""), (0, String::new()));
    assert_eq!(written("named"), texts);
    assert_eq!(in_folder(&folder, &["--jobs=3", "--output-dir=lines/of/x"], "a.html\nb/c.HTM\n\nb/d"), (0, String::new()));
    assert_eq!(written("lines/of/x"), texts);
    assert_eq!(in_folder(&folder, &["-0", "-j2", "--output-dir=zeros", "-w9"], "a.html\0b/d\0"), (0, String::new()));
    assert_eq!(written("zeros"), [("a.txt".to_owned(), format!("a\n\n{}\n", "─".repeat(9))), ("b/d.txt".to_owned(), "d\n".to_owned())]);
    assert_eq!(in_folder(&folder, &["--output-dir=none"], ""), (0, String::new()));
    assert!(!folder.join("none").exists());
}

#[test]
fn faults_among_many_pages() {
    let folder = folder_of_pages("faults", &[("a.html", "<p>a"), ("wide.html", "\u{754c}"), ("z.html", "<p>z"), ("texts/a.txt", "old"), ("texts/file", "")]);
    let words = |jobs| ["-w1", "--narrow", jobs, "--output-dir=texts", "a.html", "missing.html", "wide.html", "file/b.html", "z.html"];
    fs::create_dir(folder.join("file")).unwrap();
    fs::write(folder.join("file/b.html"), "<p>b").unwrap();
    let expected = (
        3,
        "htext: missing.html: No such file or directory (os error 2)\n\
         htext: wide.html: Output width not wide enough.\n\
         htext: texts/file/b.txt: File exists (os error 17)\n\
         htext: 3 of 5 pages have no text\n"
            .to_owned(),
    );
    for jobs in ["-j1", "-j2", "-j9"] {
        assert_eq!(in_folder(&folder, &words(jobs), ""), expected, "{jobs}");
        let names: Vec<String> = files_below(&folder.join("texts")).into_iter().map(|(name, _)| name).collect();
        assert_eq!(names, ["a.txt", "file", "z.txt"]);
        assert_eq!(fs::read_to_string(folder.join("texts/a.txt")).unwrap(), "a\n");
    }
}

#[test]
fn any_number_of_jobs_writes_the_same() {
    let pages: Vec<(String, String)> = (0..200).map(|number| (format!("{}/{number}.html", number % 7), format!("<h1>{number}</h1>{}", "<p>a b c".repeat(number * 7 % 300)))).collect();
    let folder = folder_of_pages("jobs", &pages.iter().map(|(name, html)| (name.as_str(), html.as_str())).collect::<Vec<_>>());
    let list: String = pages.iter().map(|(name, _)| name.to_owned() + "\n").collect();
    let written = [1, 2, 7].map(|jobs| {
        let texts = format!("../jobs-{jobs}");
        assert_eq!(in_folder(&folder, &["--output-dir", &texts, "--jobs", &jobs.to_string()], &list), (0, String::new()));
        files_below(&folder.join(texts))
    });
    assert_eq!(written[0].len(), 200);
    assert!(written.iter().all(|texts| *texts == written[0]));
}

#[test]
fn wrong_usage_of_many_pages() {
    let folder = folder_of_pages("usage", &[("a.html", "<p>a"), ("a.htm", "<p>b")]);
    for (words, list, message) in [
        (["--output-dir=x", "a.html", "a.htm"].as_slice(), "", "a.html and a.htm have one text, x/a.txt"),
        (&["--output-dir=x"], "a.html\na.html\n", "a.html and a.html have one text, x/a.txt"),
        (&["--output-dir=.", "a.html", "./a.txt"], "", "./a.txt is a page and a text"),
        (&["--output-dir=x", "-"], "", "- has no name for its text"),
        (&["--output-dir=x", "-o", "y", "a.html"], "", "--output and --output-dir can't be used together"),
        (&["--output-dir=x", "--null", "a.html"], "", "--null is for a list of files on standard input"),
        (&["--jobs=2", "a.html"], "", "--jobs needs --output-dir"),
        (&["-0", "a.html"], "", "--null needs --output-dir"),
        (&["--jobs=0", "--output-dir=x", "a.html"], "", "--jobs takes a number from 1 on, and not \"0\""),
    ] {
        assert_eq!(in_folder(&folder, words, list), (2, format!("htext: {message}; htext --help tells how\n")));
    }
    assert_eq!(files_below(&folder).len(), 2);
}

#[test]
fn progress_on_a_terminal() {
    let folder = folder_of_pages("progress", &[("a.html", "<p>a")]);
    let pipe = folder.join("b.html");
    assert!(Command::new("mkfifo").arg(&pipe).status().unwrap().success());
    // `script` gives the program a terminal
    let command = format!("{} --jobs 1 --output-dir texts a.html b.html missing", env!("CARGO_BIN_EXE_htext"));
    let mut child = Command::new("script");
    child.args(["-qec", &command, "/dev/null"]).current_dir(&folder).stdin(Stdio::null()).stdout(Stdio::piped());
    let child = child.spawn().unwrap();
    // it is opened as the program opens it, and ends after the time between two lines of progress
    let mut page = File::options().write(true).open(&pipe).unwrap();
    thread::sleep(Duration::from_millis(150));
    page.write_all(b"<p>b").unwrap();
    drop(page);
    let output = child.wait_with_output().unwrap();
    let shown = String::from_utf8(output.stdout).unwrap();
    assert!(shown.contains("\r2 of 3 pages"), "{shown:?}");
    assert!(shown.ends_with("\r\u{1b}[Khtext: missing: No such file or directory (os error 2)\r\n\r\u{1b}[Khtext: 1 of 3 pages have no text\r\n"), "{shown:?}");
    assert_eq!(output.status.code(), Some(3));
    assert_eq!(fs::read_to_string(folder.join("texts/b.txt")).unwrap(), "b\n");
}

#[test]
fn lines_of_json() {
    let page = "<html lang=' en '><title> a  title </title><p id=top>a <b>b</b> <a href=x><s>c</s></a> <a href=y>d</a> <a href=x>e</a><p>\
                <code>f</code> <sup>th</sup> <img src=g alt=h> <em style='color: #aa0000; background: #000'>i</em><pre>j</pre>";
    let lines = [
        r#"[{"fragment":"top"},{"text":"a ","annotations":[]},{"text":"b","annotations":[{"kind":"strong"}]},{"text":" ","annotations":[]},"#,
        "{\"text\":\"c\u{336}\",\"annotations\":[{\"kind\":\"link\",\"target\":\"x\"},{\"kind\":\"strikeout\"}]},{\"text\":\" \",\"annotations\":[]},",
        r#"{"text":"d","annotations":[{"kind":"link","target":"y"}]},{"text":" ","annotations":[]},"#,
        r#"{"text":"e","annotations":[{"kind":"link","target":"x"}]}]"#,
    ];
    let shown = text(&["--format", "json"], page);
    assert!(shown.starts_with(r#"{"title":"a title","language":"en","links":["x","y"],"lines":["#), "{shown}");
    assert!(shown.contains(&lines.concat()), "{shown}");
    for annotation in [
        r#"{"kind":"code"}"#,
        r#"{"kind":"default"}"#,
        r#"{"kind":"image","source":"g"}"#,
        r##"[{"kind":"colour","colour":"#aa0000"},{"kind":"background","colour":"#000000"},{"kind":"emphasis"}]"##,
        r#"{"kind":"preformatted","continued":false}"#,
    ] {
        assert!(shown.contains(annotation), "{annotation} {shown}");
    }
    assert!(shown.ends_with("}]]}\n") && shown.lines().count() == 1, "{shown}");
    assert_eq!(text(&["--format=json"], ""), "{\"title\":null,\"language\":null,\"links\":[],\"lines\":[]}\n");
    assert_eq!(text(&["--format=text"], page), text(&[], page));
    for words in [["--format=xml"].as_slice(), &["--format=json", "-srich"], &["--format=json", "--style=plain"]] {
        assert_eq!(fault(words, "").0, 2);
    }
}

#[test]
fn output_to_a_file() {
    let file = folder("output").join("text");
    let _ = fs::remove_file(&file);
    let name = file.to_str().unwrap();
    assert_eq!(text(&["-o", name, "--style", "rich"], "<p>a"), "");
    assert_eq!(fs::read_to_string(&file).unwrap(), "a\n");
    fs::remove_file(&file).unwrap();
    assert_eq!(fault(&["-o", name, "no/such.html"], "").0, 3);
    assert!(!file.exists());
    assert_eq!(fault(&["-o", "no/such/folder"], "").0, 3);
}

#[test]
fn titles_charsets_and_controls() {
    assert_eq!(text(&["--title"], "<title>T</title><p>a"), "T\n\na\n");
    assert_eq!(text(&["--charset=koi8-r"], "<p>a"), "a\n");
    assert_eq!(text(&["--keep-controls", "--no-links"], "<p>a<a href='&#27;'>b</a>"), "ab\n");
    assert_eq!(text(&[], "<a href='&#27;x'>b</a>"), "b[1]\n\n[1]: x\n");
    assert_eq!(text(&["--keep-controls"], "<a href='&#27;x'>b</a>"), "b[1]\n\n[1]: \u{1b}x\n");
}

#[test]
fn help() {
    assert!(text(&["--help"], "").starts_with("Usage: htext"));
    assert_eq!(text(&["-V"], ""), "htext 0.1.0\n");
}
