//! Encodings of pages, beside those that `iconv` writes.

use html_render::config::plain;
use html_render::{Error, Options};
use std::io::Write;
use std::process::{Command, Stdio};

const WESTERN: &str = "caf\u{e9} \u{20ac}";
const CYRILLIC: &str = "\u{43c}\u{438}\u{440}";
const CHINESE: &str = "\u{4f60}\u{597d}\u{4e16}\u{754c}\u{3400}";
const JAPANESE: &str = "\u{65e5}\u{672c}\u{8a9e}\u{30ab}\u{30ca}";
const KOREAN: &str = "\u{c548}\u{b155}\u{b625}";

fn iconv(text: &str, to: &str) -> Vec<u8> {
    let mut child = Command::new("iconv").args(["-f", "UTF-8", "-t", to]).stdin(Stdio::piped()).stdout(Stdio::piped()).spawn().unwrap();
    child.stdin.take().unwrap().write_all(text.as_bytes()).unwrap();
    let output = child.wait_with_output().unwrap();
    assert!(output.status.success(), "{to}");
    output.stdout
}

fn shown(page: &[u8], options: Options) -> String {
    plain().as_shown(options).string_from_read(page, 80).unwrap()
}

#[test]
fn as_iconv_writes_them() {
    for (text, of_iconv, label) in [
        (WESTERN, "CP1252", "windows-1252"),
        (WESTERN, "CP1252", "iso-8859-1"),
        (CYRILLIC, "KOI8-R", "koi8-r"),
        (CHINESE, "GB18030", "gb18030"),
        (JAPANESE, "CP932", "shift_jis"),
        (JAPANESE, "ISO-2022-JP", "iso-2022-jp"),
        (KOREAN, "CP949", "euc-kr"),
    ] {
        let wanted = format!("{text}\n");
        let declared = format!("<meta charset={label}><p>{text}");
        let pragma = format!("<meta http-equiv=content-type content='text/html; charset={label}'><p>{text}");
        for page in [declared, pragma] {
            assert_eq!(shown(&iconv(&page, of_iconv), Options::new()), wanted, "{label}");
        }
        let named = Options::new().charset(label).unwrap();
        assert_eq!(shown(&iconv(&format!("<meta charset=utf-8><p>{text}"), of_iconv), named), wanted, "{label}");
    }
}

#[test]
fn utf_16() {
    let page = format!("<meta charset=utf-8><p>{JAPANESE}");
    for (of_iconv, label) in [("UTF-16LE", "utf-16"), ("UTF-16BE", "utf-16be")] {
        let named = Options::new().charset(label).unwrap();
        assert_eq!(shown(&iconv(&page, of_iconv), named), format!("{JAPANESE}\n"));
        let marked = iconv(&format!("\u{feff}{page}"), of_iconv);
        assert_eq!(shown(&marked, Options::new().charset("koi8-r").unwrap()), format!("{JAPANESE}\n"));
    }
    let declared = format!("<meta charset=utf-16><p>{JAPANESE}");
    assert_eq!(shown(declared.as_bytes(), Options::new()), format!("{JAPANESE}\n"));
}

#[test]
fn nothing_said() {
    assert_eq!(shown(format!("<p>{CYRILLIC}").as_bytes(), Options::new()), format!("{CYRILLIC}\n"));
    assert_eq!(shown(&iconv(&format!("<p>{WESTERN}"), "CP1252"), Options::new()), format!("{WESTERN}\n"));
    assert!(matches!(Options::new().charset("klingon"), Err(Error::UnknownCharset)));
}
