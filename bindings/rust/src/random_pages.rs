//! Random pages for tests: tags of all kinds, plainly and oddly written, in and out of place.

use markup5ever::data::NAMED_ENTITIES;

/// Random numbers and pages, the same for the same seed.
pub(crate) struct Random {
    state: u64,
    /// The names of character references, and what these begin with.
    references: Vec<&'static str>,
}

/// Names of all elements for which HTML has rules, and of some for which it has none.
const ALL: [&str; 146] = [
    "a", "abbr", "address", "annotation-xml", "applet", "area", "article", "aside", "audio", "b", "base", "basefont", "bdo", "bgsound",
    "big", "blockquote", "body", "br", "button", "caption", "center", "cite", "code", "col", "colgroup", "dd", "del", "desc", "details",
    "dfn", "dialog", "dir", "div", "dl", "dt", "em", "embed", "fieldset", "figcaption", "figure", "font", "footer", "foreignobject", "form",
    "frame", "frameset", "g", "h1", "h2", "h3", "h6", "head", "header", "hgroup", "hr", "html", "i", "iframe", "image", "img", "input",
    "ins", "isindex", "kbd", "keygen", "label", "legend", "li", "link", "listing", "main", "malignmark", "map", "marquee", "math", "menu",
    "menuitem", "meta", "mglyph", "mi", "mn", "mo", "ms", "mtext", "nav", "nobr", "noembed", "noframes", "noscript", "object", "ol",
    "optgroup", "option", "output", "p", "param", "path", "picture", "plaintext", "pre", "progress", "q", "rb", "rp", "rt", "rtc", "ruby",
    "s", "samp", "script", "section", "select", "small", "source", "span", "strike", "strong", "style", "sub", "summary", "sup", "svg",
    "table", "tbody", "td", "template", "textarea", "tfoot", "th", "thead", "title", "tr", "track", "tt", "u", "ul", "var", "video", "wbr",
    "xmp", "x-y", "blockquotes", "clockquote", "h7", "t", "tablet",
];

/// Names of elements that most pages have.
const USUAL: [&str; 40] = [
    "p", "p", "div", "div", "span", "a", "a", "b", "b", "i", "em", "font", "code", "ul", "ol", "li", "dl", "dt", "dd", "h1", "h2", "table",
    "table", "tbody", "tr", "tr", "td", "td", "th", "caption", "section", "address", "button", "form", "pre", "nobr", "select", "option",
    "object", "br",
];

const VOID: [&str; 14] = ["area", "base", "br", "col", "embed", "frame", "hr", "img", "input", "link", "meta", "param", "source", "wbr"];

const ATTRIBUTES: [&str; 24] = [
    "id", "id", "class", "href", "src", "alt", "title", "style", "color", "face", "size", "type", "lang", "name", "start", "colspan",
    "hidden", "encoding", "data-x", "data-long-name", "data-x1", "xlink:href", "definitionurl", "viewbox",
];

const VALUES: [&str; 30] = [
    "", "i", "i", "c d", "a/b?c=d", "a=b", "1/", "/", "a>b", "a<b", "it's", "a\"b", "`", " ", "\n", "\r", "a\r\nb", "\0", "\u{e9}\u{754c}",
    "hidden", "text/html", "a&b", "a&b=c&d", "&", "a& b", "&amp;amp;", "&amp", "&ltx", "&copy=",
    "a value that is longer than most windows, so that it is read in parts",
];

/// What may be between the attributes of a tag.
const SEPARATORS: [&str; 12] = ["/", " /", "/ ", "\n", "\t ", "\r\n", "\x0c", " =", " =x", " \"", " '", "<"];

const TEXTS: [&str; 41] = [
    "x", "x", "text", "a b", " ", " ", "\n", "\n", "\t", " \n ", "\r", "\r\n", "\n\r", "\x0c", "\0", "a\0b", "a\rb", "\u{e9}\u{754c}",
    "\u{feff}", "\u{a0}", "<", "< ", "<<", "<1", "</", "</ ", "</>", "</1>", "<?", "<?x?>", ">", "\"", "'", "]]>", "&", "& ", "&&", "&\r",
    "&;", "&#;", "&#x;",
];

const DECLARATIONS: [&str; 18] = [
    "<!DOCTYPE html>", "<!doctype>", "<!doctype html >", "<!DOCTYPEhtml>", "<!DOCTYPE html SYSTEM 'about:legacy-compat'>",
    "<!DOCTYPE html PUBLIC \">", "<!DOCTYPE x\0 y>", "<!DOCTYPE", "<!>", "<!x>", "<!-x>", "<!",
    "<!DOCTYPE html PUBLIC \"-//W3C//DTD HTML 4.01 Transitional//EN\" \"http://www.w3.org/TR/html4/loose.dtd\">",
    "<!DOCTYPE HTML PUBLIC '-//IETF//DTD HTML//EN'>", "<![CDATA[x]]>", "<![CDATA[a>b\0\r]]]>", "<![CDATA[", "<![cdata[x]]>",
];

/// What is in comments and ends them, or does so nearly.
const COMMENTS: [&str; 14] = ["", "-", "-", "--", ">", "->", "!", "!>", "--!", "<!--", " c ", "\0", "\r", "a>b"];

const COMMENT_ENDS: [&str; 7] = ["-->", "-->", "-->", "--!>", "->", ">", ""];

/// Numbers whose characters HTML says something of, or which are beside such ones.
const NUMBERS: [u64; 40] = [
    0, 1, 8, 9, 10, 11, 12, 13, 14, 31, 32, 38, 60, 65, 126, 127, 128, 129, 130, 150, 159, 160, 233, 0xd7ff, 0xd800, 0xdfff, 0xe000, 0xfdcf,
    0xfdd0, 0xfdef, 0xfffd, 0xfffe, 0xffff, 0x1_0000, 0x1_ffff, 0x10_ffff, 0x11_0000, 0x7fff_ffff, 0x1_0000_0041, u64::MAX,
];

/// Beginnings of pages, after which rules of different parts of HTML apply.
const CONTEXTS: [&str; 26] = [
    "", "", "x", "x<br>", "<!DOCTYPE html>x", "<body>x<p>", "<html><head></head><body>x", "<head>", "<html lang=\"en\"><title>t</title>x",
    "<table><tr><td>x", "x<table>", "x<table><tr>", "<!DOCTYPE html><p>x<table>", "x<table><caption>", "x<ul><li>", "x<dl><dt>", "x<p><b>",
    "x<button>", "x<object>", "x<select>", "x<svg>", "x<math><mtext>", "<template>x", "x<table><template>", "<frameset>", "x</body>",
];

/// Whole parts of pages that change which rules apply to what follows.
const TURNS: [&str; 22] = [
    "a</body><!-- c -->b", "</body>\n<p>", "</html> <!-- c -->", "<p><b><b><b><b>a</p><p>", "<p><b><b><b><b>a</b></p>b", "<i><i><i><i>",
    "</b></b></b>c", "</p></li></td>", "<table> <!doctype>y", "<table> &#32;y", "<pre>\n", "<pre>&#10;\n", "<textarea>\n</textarea>",
    "<svg><foreignObject><p>", "<svg><title>t</title><path d=\"m\"/>", "<svg><font color='a'>",
    "<math><annotation-xml encoding='text/html'><p>", "<math><annotation-xml><p>", "<table><input type=hidden>",
    "<table><input type=\"x\">", "<p><font size=1><font size=1><font size=1><font size=1>a</font></p>b",
    "<p><a href=\"&amp;\"><a href=x></p>b",
];

/// Characters that change what a tokenizer does, and others.
const SIGNS: [&str; 17] = ["<", ">", "\"", "'", "/", "=", "&", ";", "-", "!", "\0", "\r", "\n", " ", "X", "#", "\u{e9}"];

impl Random {
    pub fn new(seed: u64) -> Random {
        let mut references: Vec<&str> = NAMED_ENTITIES.keys().copied().collect();
        references.sort_unstable();
        Random { state: seed, references }
    }

    /// Returns a number below a limit.
    pub fn below(&mut self, limit: usize) -> usize {
        self.state = self.state.wrapping_mul(6364136223846793005).wrapping_add(1442695040888963407);
        (self.state >> 33) as usize % limit
    }

    fn is_one_of(&mut self, count: usize) -> bool {
        self.below(count) == 0
    }

    fn pick<'a>(&mut self, texts: &[&'a str]) -> &'a str {
        texts[self.below(texts.len())]
    }

    /// Returns a page, whose document doesn't depend on the pieces in which html5ever's tokenizer is given it.
    pub fn page(&mut self) -> String {
        loop {
            let page = match self.below(8) {
                0..=2 => self.soup(),
                3..=5 => self.regular(),
                _ => self.spliced(),
            };
            if !depends_on_pieces(&page) {
                return page;
            }
        }
    }

    /// Returns a page of few names, whose tags are in any order.
    fn soup(&mut self) -> String {
        let of_page: Vec<&str> = (0..1 + self.below(10)).map(|_| self.name()).collect();
        let mut page = self.pick(&CONTEXTS).to_owned();
        let most = if self.is_one_of(8) { 120 } else { 30 };
        for _ in 0..1 + self.below(most) {
            let name = self.pick(&of_page);
            let part = match self.below(20) {
                0..=8 => self.start_tag(name),
                9..=13 => self.end_tag(name),
                14..=17 => self.usual_text(),
                _ => self.text(),
            };
            page.push_str(&part);
        }
        page
    }

    /// Returns a page most of which is well-formed.
    fn regular(&mut self) -> String {
        let mut page = self.pick(&CONTEXTS).to_owned();
        let mut open: Vec<&str> = Vec::new();
        let mean_length = 5 + self.below(60);
        for _ in 0..self.below(90) {
            if self.is_one_of(mean_length) {
                let name = self.name();
                let part = match self.below(4) {
                    0 => self.end_tag(name),
                    1 => self.start_tag(name),
                    2 => self.pick(&TURNS).to_owned(),
                    _ => self.text(),
                };
                page.push_str(&part);
                continue;
            }
            match self.below(10) {
                0..=3 => {
                    let name = self.name_inside(open.last().copied());
                    let tag = if self.is_one_of(4) { self.start_tag(name) } else { ["<", name, ">"].concat() };
                    page.push_str(&tag);
                    if !VOID.contains(&name) {
                        open.push(name);
                    }
                }
                4..=6 => page.push_str(&self.usual_text()),
                _ => {
                    for _ in 0..1 + usize::from(self.is_one_of(12)) {
                        if let Some(name) = open.pop().filter(|_| !self.is_one_of(10)) {
                            page.push_str(&["</", name, ">"].concat());
                        }
                    }
                }
            }
        }
        page
    }

    /// Returns a page of parts of others, some of which are changed.
    fn spliced(&mut self) -> String {
        let mut page = self.pick(&CONTEXTS).to_owned();
        for _ in 0..1 + self.below(3) {
            let other = if self.is_one_of(2) { self.soup() } else { self.regular() };
            let start = self.boundary(&other, 0);
            let end = self.boundary(&other, start);
            page.push_str(&other[start..end]);
        }
        for _ in 0..self.below(8) {
            self.change(&mut page);
        }
        page
    }

    /// Changes something of a page.
    fn change(&mut self, page: &mut String) {
        let start = self.boundary(page, 0);
        let next = page[start..].chars().next().map_or(start, |c| start + c.len_utf8());
        let length = self.below(24);
        let end = (start + length..page.len()).find(|&at| page.is_char_boundary(at)).unwrap_or(page.len());
        match self.below(6) {
            0 => page.replace_range(start..end, ""),
            1 => page.insert_str(start, &page[start..end].to_owned()),
            2 => page.insert_str(start, &self.text()),
            3 => page.replace_range(start..next, self.pick(&SIGNS)),
            other => {
                let name = self.name();
                let tag = if other == 4 { self.start_tag(name) } else { self.end_tag(name) };
                page.insert_str(start, &tag);
            }
        }
    }

    /// Returns a place between two characters of a page, at an offset or after it.
    fn boundary(&mut self, page: &str, from: usize) -> usize {
        let place = from + self.below(page.len() - from + 1);
        (from..=place).rev().find(|&at| page.is_char_boundary(at)).unwrap_or(from)
    }

    fn name(&mut self) -> &'static str {
        if self.is_one_of(3) {
            self.pick(&ALL)
        } else {
            self.pick(&USUAL)
        }
    }

    /// Returns the name of an element that is usually in another.
    fn name_inside(&mut self, outer: Option<&str>) -> &'static str {
        match outer {
            Some("table") => self.pick(&["tbody", "tr", "tr", "td", "caption", "thead", "colgroup"]),
            Some("tbody" | "thead" | "tfoot") => self.pick(&["tr", "tr", "td"]),
            Some("tr") => self.pick(&["td", "th"]),
            Some("ul" | "ol") => "li",
            Some("dl") => self.pick(&["dt", "dd"]),
            Some("select") => self.pick(&["option", "optgroup"]),
            _ => self.name(),
        }
    }

    /// Returns a name with some capital letters, or none.
    fn cased(&mut self, name: &str) -> String {
        match self.below(24) {
            0 => name.to_ascii_uppercase(),
            1 => name.chars().map(|c| if self.is_one_of(2) { c.to_ascii_uppercase() } else { c }).collect(),
            _ => name.to_owned(),
        }
    }

    fn start_tag(&mut self, name: &str) -> String {
        let mut tag = "<".to_owned() + &self.cased(name);
        for _ in 0..[0, 0, 0, 1, 1, 2, 4][self.below(7)] {
            let attribute = self.attribute();
            tag.push_str(&attribute);
        }
        if self.is_one_of(30) {
            let (name, one, other) = (self.pick(&ATTRIBUTES), self.pick(&VALUES), self.pick(&VALUES));
            tag.push_str(&format!(" {name}=\"{one}\" {name}=\"{other}\""));
        }
        tag.push_str(match self.below(60) {
            0 => "",
            1 | 2 => "/>",
            3 | 4 => " />",
            5 | 6 => " >",
            _ => ">",
        });
        tag
    }

    fn end_tag(&mut self, name: &str) -> String {
        let attribute = if self.is_one_of(30) { self.attribute() } else { String::new() };
        let end = match self.below(60) {
            0 => "",
            1 => " >",
            2 => "/>",
            _ => ">",
        };
        ["</", &self.cased(name), &attribute, end].concat()
    }

    /// Returns an attribute with the space before it, or something else that may be in a tag.
    fn attribute(&mut self) -> String {
        let name = self.pick(&ATTRIBUTES);
        let name = self.cased(name);
        let value = if self.is_one_of(4) { self.reference() } else { self.pick(&VALUES).to_owned() };
        let space = self.pick(&[" ", " ", " ", " ", " ", " ", " ", "  ", "\n", ""]);
        match self.below(20) {
            0..=8 => format!("{space}{name}=\"{value}\""),
            9..=11 => format!("{space}{name}='{value}'"),
            12..=14 => format!("{space}{name}={value}"),
            15 => format!("{space}{name} = \"{value}\""),
            16 | 17 => format!("{space}{name}"),
            _ => self.pick(&SEPARATORS).to_owned(),
        }
    }

    fn usual_text(&mut self) -> String {
        self.pick(&["x", "a b", " ", "\n", "\n  ", "y ", "&amp;", "a&lt;b", "<!-- c -->", "<br>", "<hr>", "<img alt=\"i\">"]).to_owned()
    }

    /// Returns a text, a reference, a comment or a declaration.
    fn text(&mut self) -> String {
        match self.below(8) {
            0..=2 => self.pick(&TEXTS).to_owned(),
            3 | 4 => self.reference(),
            5 => self.pick(&DECLARATIONS).to_owned(),
            _ => {
                let content: String = (0..self.below(4)).map(|_| self.pick(&COMMENTS)).collect();
                ["<!--", &content, self.pick(&COMMENT_ENDS)].concat()
            }
        }
    }

    /// Returns a character reference, or what looks like one, and what may follow it.
    fn reference(&mut self) -> String {
        let number = NUMBERS[self.below(NUMBERS.len())];
        let written = match self.below(9) {
            0 => format!("#{number}"),
            1 => format!("#0{number}"),
            2 => format!("#x{number:x}"),
            3 => format!("#X{number:X}"),
            4 => self.pick(&["amp", "lt", "gt", "quot", "nbsp", "mdash", "eacute", "shy", "zwnj", "Tab", "NewLine", "notin", "nGt"]).to_owned(),
            5 => self.pick(&["amp", "AMP", "lt", "copy", "not", "para"]).to_owned() + self.pick(&["x", "=", "it", "1"]),
            _ => {
                let place = self.below(self.references.len());
                self.references[place].to_owned()
            }
        };
        ["&", &written, self.pick(&[";", ";", ";", ";", "", ";;", ";\r", ";\r\n", ";\n", "\r", " ", "=", "<"])].concat()
    }
}

/// Reports whether html5ever's tokenizer may read a page otherwise if it is given it in other pieces: after a carriage return and newline
/// between `=` and a value it drops a character, if that is in the piece of the newline.
pub(crate) fn depends_on_pieces(page: &str) -> bool {
    let value = |rest: &str| rest.trim_start_matches([' ', '\t', '\n', '\x0c', '\r']).len();
    page.split('=').skip(1).any(|rest| rest[..rest.len() - value(rest)].contains("\r\n"))
}

/// Returns a page without what isn't needed for a property that it has.
pub(crate) fn reduced(page: &str, has_property: impl Fn(&str) -> bool) -> String {
    let mut page: Vec<char> = page.chars().collect();
    let mut length = page.len();
    while length > 0 {
        let mut start = 0;
        while start < page.len() {
            let end = (start + length).min(page.len());
            let shorter: String = page[..start].iter().chain(&page[end..]).collect();
            if has_property(&shorter) {
                page.drain(start..end);
            } else {
                start += length;
            }
        }
        length /= 2;
    }
    page.into_iter().collect()
}

#[cfg(test)]
mod tests {
    use super::*;

    #[test]
    fn a_seed_repeats_its_pages() {
        let pages = |seed| {
            let mut random = Random::new(seed);
            [(); 3].map(|()| random.page())
        };
        assert_eq!(pages(1), pages(1));
        assert_ne!(pages(1), pages(2));
    }

    #[test]
    fn pages_are_looked_at_and_reduced() {
        assert!(depends_on_pieces("<p a= \r\n>") && !depends_on_pieces("<p a=\r b=\"\r\n\">\r\n"));
        assert_eq!(reduced("<p>a<b>\u{e9}<i>c", |page| page.contains('\u{e9}') && page.contains('c')), "\u{e9}c");
    }
}
