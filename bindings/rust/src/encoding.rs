//! The text of a page's bytes, as HTML (13.2.3) and the Encoding standard say.
//!
//! The encoding is that of a byte order mark; else the one that the caller names, from HTTP or a mail; else the one that the first
//! 1,024 bytes declare; else UTF-8 if all bytes are, and windows-1252 if not.

use crate::error::Error;
use encoding_rs::{Encoding, UTF_16BE, UTF_16LE, UTF_8, WINDOWS_1252, X_USER_DEFINED};
use memchr::memchr_iter;

/// Number of bytes in which a declaration is looked for.
const PRESCAN: usize = 1_024;

/// Number of bytes that are decoded at once.
const BLOCK: usize = 1 << 16;

/// Returns the encoding of a label, as `latin1`, if there is one.
pub(crate) fn of_label(label: &str) -> Option<&'static Encoding> {
    Encoding::for_label(label.as_bytes())
}

/// Returns the text of a page, in the encoding that is named, declared or found.
pub(crate) fn decode(bytes: Vec<u8>, named: Option<&'static Encoding>) -> Result<String, Error> {
    if let Some((encoding, mark)) = Encoding::for_bom(&bytes) {
        let mut bytes = bytes;
        bytes.drain(..mark);
        return decode_as(bytes, encoding);
    }
    match named.or_else(|| declared(&bytes[..bytes.len().min(PRESCAN)])) {
        Some(encoding) => decode_as(bytes, encoding),
        None => String::from_utf8(bytes).or_else(|error| decode_as(error.into_bytes(), WINDOWS_1252)),
    }
}

/// Returns the text of a page in UTF-8, without a byte order mark.
pub(crate) fn decode_utf8(bytes: Vec<u8>) -> Result<String, Error> {
    let mut bytes = bytes;
    if bytes.starts_with("\u{feff}".as_bytes()) {
        bytes.drain(.."\u{feff}".len());
    }
    decode_as(bytes, UTF_8)
}

/// Returns the text of bytes without a byte order mark. What is malformed becomes U+FFFD.
fn decode_as(bytes: Vec<u8>, encoding: &'static Encoding) -> Result<String, Error> {
    let bytes = if encoding == UTF_8 {
        match String::from_utf8(bytes) {
            Ok(text) => return Ok(text),
            Err(error) => error.into_bytes(),
        }
    } else {
        bytes
    };
    let mut decoder = encoding.new_decoder_without_bom_handling();
    let mut text = String::new();
    let mut blocks = bytes.chunks(BLOCK).peekable();
    while let Some(block) = blocks.next() {
        let length = decoder.max_utf8_buffer_length(block.len()).ok_or(Error::OutOfMemory)?;
        text.try_reserve(length).map_err(|_| Error::OutOfMemory)?;
        let _ = decoder.decode_to_string(block, &mut text, blocks.peek().is_none());
    }
    Ok(text)
}

/// Returns the encoding that the first bytes of a page declare: "prescan a byte stream to determine its encoding".
fn declared(bytes: &[u8]) -> Option<&'static Encoding> {
    if bytes.starts_with(b"<\0?\0x\0") {
        return Some(UTF_16LE);
    }
    if bytes.starts_with(b"\0<\0?\0x") {
        return Some(UTF_16BE);
    }
    let has_meta = memchr_iter(b'<', bytes).any(|at| is_meta(&bytes[at..]));
    has_meta.then(|| Scanner { bytes, at: 0 }.meta()).flatten().or_else(|| xml_declaration(bytes))
}

/// Returns the encoding that a declaration in ASCII can mean.
fn declarable(label: &[u8]) -> Option<&'static Encoding> {
    Encoding::for_label(label).map(|encoding| {
        if encoding == UTF_16BE || encoding == UTF_16LE {
            UTF_8
        } else if encoding == X_USER_DEFINED {
            WINDOWS_1252
        } else {
            encoding
        }
    })
}

/// Returns the encoding that an XML declaration at the start names.
fn xml_declaration(bytes: &[u8]) -> Option<&'static Encoding> {
    let declaration = bytes.strip_prefix(b"<?xml")?;
    let declaration = &declaration[..declaration.iter().position(|&byte| byte == b'>')?];
    let name = declaration.windows(8).position(|window| window == b"encoding")?;
    let mut scanner = Scanner { bytes: declaration, at: name + 8 };
    let is_blank = |byte| byte <= b' ';
    scanner.skip_while(is_blank);
    if scanner.next()? != b'=' {
        return None;
    }
    scanner.skip_while(is_blank);
    let quote = scanner.next().filter(|&byte| byte == b'"' || byte == b'\'')?;
    let label = &declaration[scanner.at..];
    let label = &label[..label.iter().position(|&byte| byte == quote)?];
    if label.iter().any(|&byte| is_blank(byte)) {
        return None;
    }
    declarable(label)
}

fn is_space(byte: u8) -> bool {
    matches!(byte, b'\t' | b'\n' | b'\x0c' | b'\r' | b' ')
}

/// Bytes of a page that are scanned. Each function ends with `None` where they run out.
struct Scanner<'a> {
    bytes: &'a [u8],
    at: usize,
}

impl Scanner<'_> {
    fn peek(&self) -> Option<u8> {
        self.bytes.get(self.at).copied()
    }

    fn next(&mut self) -> Option<u8> {
        let byte = self.peek()?;
        self.at += 1;
        Some(byte)
    }

    fn skip_while(&mut self, is_skipped: impl Fn(u8) -> bool) {
        while self.peek().map_or(false, &is_skipped) {
            self.at += 1;
        }
    }

    /// Skips all up to a text, and that.
    fn skip_past(&mut self, end: &[u8]) -> Option<()> {
        let rest = &self.bytes[self.at..];
        let length = rest.windows(end.len()).position(|window| window == end)?;
        self.at += length + end.len();
        Some(())
    }

    /// Returns the encoding that a `meta` declares.
    fn meta(&mut self) -> Option<&'static Encoding> {
        loop {
            let rest = &self.bytes[self.at..];
            if rest.starts_with(b"<!--") {
                // `<!-->` is a whole comment
                self.at += 2;
                self.skip_past(b"-->")?;
            } else if is_meta(rest) {
                self.at += 5;
                if let Some(encoding) = self.meta_attributes()? {
                    return Some(encoding);
                }
            } else if is_tag(rest) {
                self.skip_while(|byte| !is_space(byte) && byte != b'>');
                while self.attribute()?.is_some() {}
            } else if matches!(rest, [b'<', b'!' | b'/' | b'?', ..]) {
                self.skip_past(b">")?;
            } else {
                self.next()?;
            }
        }
    }

    /// Returns the encoding that the attributes of a `meta` declare, if they do.
    fn meta_attributes(&mut self) -> Option<Option<&'static Encoding>> {
        let mut seen: Vec<Vec<u8>> = Vec::new();
        let (mut is_pragma, mut needs_pragma, mut encoding) = (false, None, None);
        while let Some((name, value)) = self.attribute()? {
            if seen.contains(&name) {
                continue;
            }
            match name.as_slice() {
                b"http-equiv" => is_pragma |= value == b"content-type",
                b"content" if encoding.is_none() => {
                    if let Some(found) = of_content(&value) {
                        encoding = Some(found);
                        needs_pragma = Some(true);
                    }
                }
                b"charset" => {
                    encoding = declarable(&value);
                    needs_pragma = Some(false);
                }
                _ => {}
            }
            seen.push(name);
        }
        let counts = matches!(needs_pragma, Some(needs) if !needs || is_pragma);
        Some(encoding.filter(|_| counts))
    }

    /// Returns an attribute's name and value in small letters, or nothing at a tag's end: "get an attribute".
    fn attribute(&mut self) -> Option<Option<(Vec<u8>, Vec<u8>)>> {
        self.skip_while(|byte| is_space(byte) || byte == b'/');
        if self.peek()? == b'>' {
            self.at += 1;
            return Some(None);
        }
        let mut name = Vec::new();
        loop {
            match self.peek()? {
                b'=' if !name.is_empty() => break,
                byte if is_space(byte) => break,
                b'/' | b'>' => return Some(Some((name, Vec::new()))),
                byte => name.push(byte.to_ascii_lowercase()),
            }
            self.at += 1;
        }
        self.skip_while(is_space);
        if self.peek()? != b'=' {
            return Some(Some((name, Vec::new())));
        }
        self.at += 1;
        self.skip_while(is_space);
        let mut value = Vec::new();
        match self.peek()? {
            quote @ (b'"' | b'\'') => {
                self.at += 1;
                loop {
                    match self.next()? {
                        byte if byte == quote => break,
                        byte => value.push(byte.to_ascii_lowercase()),
                    }
                }
            }
            _ => loop {
                match self.peek()? {
                    byte if is_space(byte) || byte == b'>' => break,
                    byte => value.push(byte.to_ascii_lowercase()),
                }
                self.at += 1;
            },
        }
        Some(Some((name, value)))
    }
}

fn is_meta(rest: &[u8]) -> bool {
    rest.len() > 5 && rest[..5].eq_ignore_ascii_case(b"<meta") && (is_space(rest[5]) || rest[5] == b'/')
}

fn is_tag(rest: &[u8]) -> bool {
    matches!(rest, [b'<', b'a'..=b'z' | b'A'..=b'Z', ..] | [b'<', b'/', b'a'..=b'z' | b'A'..=b'Z', ..])
}

/// Returns the encoding that the value of `content` names: "extracting a character encoding from a meta element".
fn of_content(value: &[u8]) -> Option<&'static Encoding> {
    let mut rest = value;
    loop {
        let found = rest.windows(7).position(|window| window == b"charset")?;
        let mut scanner = Scanner { bytes: rest, at: found + 7 };
        scanner.skip_while(is_space);
        if scanner.peek()? != b'=' {
            rest = &rest[scanner.at..];
            continue;
        }
        scanner.at += 1;
        scanner.skip_while(is_space);
        let label = &rest[scanner.at..];
        let end = match label.first()? {
            quote @ (b'"' | b'\'') => return declarable(label[1..].split(|byte| byte == quote).next().filter(|found| found.len() + 1 < label.len())?),
            _ => label.iter().position(|&byte| is_space(byte) || byte == b';').unwrap_or(label.len()),
        };
        return declarable(&label[..end]);
    }
}

#[cfg(test)]
mod tests {
    use super::*;

    fn name(page: &str) -> Option<&'static str> {
        declared(page.as_bytes()).map(Encoding::name)
    }

    #[test]
    fn declarations() {
        for (page, encoding) in [
            ("<meta charset=koi8-r>", Some("KOI8-R")),
            ("<html><head><META  CharSet = ' Big5 ' /></head>", Some("Big5")),
            ("<meta http-equiv='Content-Type' content='text/html; charset=\"gb2312\"'>", Some("GBK")),
            ("<meta content='text/html; charset=euc-kr; x' http-equiv=content-type>", Some("EUC-KR")),
            ("<meta content='text/html; charset=euc-kr'>", None),
            ("<meta http-equiv=refresh content='1; charset=euc-kr'>", None),
            ("<meta charset=utf-16le>", Some("UTF-8")),
            ("<meta charset=x-user-defined>", Some("windows-1252")),
            ("<meta charset=nonsense><meta charset=koi8-u>", Some("KOI8-U")),
            ("<!-- <meta charset=koi8-r> --><p title='<meta charset=koi8-r>'><meta charset=big5>", Some("Big5")),
            ("<!--><meta charset=big5>", Some("Big5")),
            ("<?xml version='1.0' encoding='shift_jis'?><p>", Some("Shift_JIS")),
            ("<?xml version='1.0' encoding='shift_jis'?><meta charset=big5>", Some("Big5")),
            ("<?xml version='1.0' encoding='utf-16'?>", Some("UTF-8")),
            ("<meta charset=big5", None),
            ("<p>", None),
        ] {
            assert_eq!(name(page), encoding, "{page}");
        }
        let far = "x".repeat(PRESCAN) + "<meta charset=koi8-r>\u{e9}";
        assert_eq!(decode(far.clone().into_bytes(), None).unwrap(), far);
    }

    #[test]
    fn marks_and_names() {
        let decoded = |bytes: &[u8], label| decode(bytes.to_vec(), of_label(label)).unwrap();
        assert_eq!(decoded(b"\xef\xbb\xbf\xc3\xa9", "koi8-r"), "\u{e9}");
        assert_eq!(decoded(b"\xff\xfe\xe9\0", ""), "\u{e9}");
        assert_eq!(decoded(b"\xfe\xff\0\xe9", ""), "\u{e9}");
        assert_eq!(decoded(b"\0\xe9", "utf-16be"), "\u{e9}");
        assert_eq!(decoded(b"<\0?\0x\0", ""), "<?x");
        assert_eq!(decoded(b"\xe9\x80", ""), "\u{e9}\u{20ac}");
        assert_eq!(decoded(b"\xc3\xa9", ""), "\u{e9}");
        assert_eq!(decoded(b"\xe9", "utf-8"), "\u{fffd}");
        assert_eq!(decoded(b"\xc1", "koi8-r"), "\u{430}");
        assert_eq!(decode_utf8(b"\xef\xbb\xbfa\xe9".to_vec()).unwrap(), "a\u{fffd}");
    }

    #[test]
    fn a_character_between_blocks() {
        let page = "a".repeat(BLOCK - 1) + "\u{e9}";
        let (bytes, _, _) = encoding_rs::GB18030.encode(&page);
        assert_eq!(decode(bytes.into_owned(), of_label("gb18030")).unwrap(), page);
    }
}
