//! Reads HTML into a tree builder: html5ever's tokenizer, but for texts and tags that are plainly written.
//!
//! html5ever's tokenizer goes over the name of a tag character by character, at some 300 instructions each. Most of a page is text,
//! comments, and what `written` reads: character references and tags. These become the same tokens here, comments without their contents.
//! All else goes through html5ever's tokenizer, up to the end of a tag, a comment or a doctype that doesn't begin raw text: there it is
//! back in the state in which texts and tags are read, which HTML calls the data state.

use crate::limits::{self, Refusal, FEW_ATTRIBUTES};
use crate::names::Names;
use crate::sink::{Sink, Wanted};
use crate::watched::{TagName, Watched};
use crate::written::{self, Next, Reference, Value};
use html5ever::tokenizer::{BufferQueue, Token, TokenSink, Tokenizer, TokenizerOpts, TokenizerResult};
use html5ever::tree_builder::TreeBuilderOpts;
use html5ever::{namespace_url, ns, Attribute, QualName};
use memchr::{memchr, memchr2, memchr3, memchr_iter, memmem};
use tendril::StrTendril;

/// Usual length of a window: number of bytes of a page that its tendrils share, and the most that one token or call has.
const WINDOW: usize = if cfg!(test) { 24 } else { 1 << 16 };

/// Maximum number of bytes that a tendril stores inline.
const INLINE: usize = 8;

/// A page, of which pieces become tendrils that share a copy of a part of it.
struct Page<'a> {
    text: &'a str,
    start: usize,
    window: StrTendril,
    /// Maximum number of bytes of a window, at least 4.
    window_length: usize,
    /// Whether some text has a carriage return or a zero byte.
    is_odd: bool,
    has_zeros: bool,
}

impl<'a> Page<'a> {
    fn new(text: &'a str) -> Page<'a> {
        let odd = memchr2(b'\r', 0, text.as_bytes());
        let has_zeros = odd.map_or(false, |first| memchr(0, &text.as_bytes()[first..]).is_some());
        Page { text, start: 0, window: StrTendril::new(), window_length: WINDOW, is_odd: odd.is_some(), has_zeros }
    }

    /// Returns where a part that begins at an offset ends, if it is to end at another and to fit a window.
    fn end(&self, start: usize, end: usize) -> usize {
        if end - start <= self.window_length {
            return end;
        }
        let most = start + self.window_length;
        (most - 3..=most).rev().find(|&at| self.text.is_char_boundary(at)).unwrap_or(end)
    }

    /// Returns the number of bytes of the text at an offset, up to a tag or a byte that the tokenizer changes.
    fn text_length(&self, start: usize) -> usize {
        let rest = &self.text.as_bytes()[start..];
        let end = if self.is_odd { self.find_special(rest) } else { memchr2(b'<', b'&', rest) };
        end.unwrap_or(rest.len())
    }

    /// Returns the position of the first byte that begins a tag, or that the tokenizer changes.
    #[cold]
    fn find_special(&self, rest: &[u8]) -> Option<usize> {
        if self.has_zeros {
            return rest.iter().position(|byte| matches!(byte, b'<' | b'&' | b'\r' | 0));
        }
        memchr3(b'<', b'&', b'\r', rest)
    }

    /// Returns the value of an attribute; `None` if it is longer than a window, or html5ever has to read it.
    #[inline]
    fn value(&self, written: &Value) -> Option<StrTendril> {
        let text = &self.text[written.range.clone()];
        if text.len() > self.window_length || self.is_odd && memchr2(b'\r', 0, text.as_bytes()).is_some() {
            return None;
        }
        if written.may_refer {
            return written::referred(text);
        }
        Some(text.into())
    }

    /// Returns a piece that fits a window.
    #[inline]
    fn piece(&mut self, start: usize, end: usize) -> StrTendril {
        if end - start <= INLINE {
            return StrTendril::from_slice(&self.text[start..end]);
        }
        if start < self.start || end > self.start + self.window.len() {
            self.start = start;
            self.window = StrTendril::from_slice(&self.text[start..self.end(start, self.text.len())]);
        }
        self.window.subtendril((start - self.start) as u32, (end - start) as u32)
    }
}

/// Takes the text of a page, and gives its tree.
pub(crate) struct Reader<'a> {
    tokenizer: Tokenizer<Watched<'a>>,
    queue: BufferQueue,
    page: Page<'a>,
    names: Box<Names>,
    /// The attributes of the tag that is read, whose memory the next one takes.
    attributes: Vec<Attribute>,
    /// Whether the tokenizer is in the data state, with nothing that it still waits for.
    is_in_data: bool,
}

/// Returns the number of bytes of a comment's content and its end, which may be that of the page.
fn comment_length(content: &[u8]) -> usize {
    if let [b'>', ..] = content {
        return 1;
    }
    if let [b'-', b'>', ..] = content {
        return 2;
    }
    let ends = memmem::find_iter(content, "--");
    let mut ended = ends.filter_map(|at| match &content[at + 2..] {
        [b'>', ..] => Some(at + 3),
        [b'!', b'>', ..] => Some(at + 4),
        // one hyphen more
        [b'-', b'>', ..] => Some(at + 4),
        [b'-', b'!', b'>', ..] => Some(at + 5),
        _ => None,
    });
    ended.next().unwrap_or(content.len())
}

impl<'a> Reader<'a> {
    /// Reads a page into a sink.
    pub fn read(page: &'a str, sink: Sink, wanted: Wanted, options: TreeBuilderOpts) -> Result<Sink, Refusal> {
        Reader::new(page, sink, wanted, options).read_all()
    }

    fn read_all(mut self) -> Result<Sink, Refusal> {
        self.tokenizer.sink.look_at_size();
        let mut at = 0;
        while at < self.page.text.len() && self.tokenizer.sink.refusal.is_none() {
            at = if self.is_in_data { self.read_in_data(at) } else { self.feed_raw(at) };
        }
        self.tokenizer.end();
        self.names.keep();
        match self.tokenizer.sink.refusal {
            Some(refusal) => Err(refusal),
            None => Ok(self.tokenizer.sink.builder.sink),
        }
    }

    fn new(page: &'a str, sink: Sink, wanted: Wanted, options: TreeBuilderOpts) -> Reader<'a> {
        let watched = Watched::new(page, sink, wanted, options);
        // the tokenizer would drop a byte order mark before each piece that it is given
        let options = TokenizerOpts { discard_bom: false, ..TokenizerOpts::default() };
        Reader {
            tokenizer: Tokenizer::new(watched, options),
            queue: BufferQueue::new(),
            page: Page::new(page),
            names: Names::of_thread(wanted.is_asked),
            attributes: Vec::new(),
            is_in_data: true,
        }
    }

    fn push(&mut self, piece: StrTendril) {
        self.queue.push_back(piece);
        while let TokenizerResult::Script(_) = self.tokenizer.feed(&mut self.queue) {}
    }

    /// Gives the tokenizer a part of the page.
    fn feed(&mut self, start: usize, end: usize) {
        let mut at = start;
        while at < end && self.tokenizer.sink.refusal.is_none() {
            let next = self.page.end(at, end);
            let piece = self.page.piece(at, next);
            self.push(piece);
            at = next;
        }
    }

    /// Gives the tokenizer a part of the page and then the `>` that can end it, and looks whether the data state follows.
    fn feed_to_end(&mut self, start: usize, end: usize) {
        self.feed(start, end);
        self.tokenizer.sink.is_at_end = false;
        self.push(StrTendril::from_char('>'));
        self.is_in_data = self.tokenizer.sink.is_at_end;
    }

    /// Gives the tokenizer a part of the page and then a tag whose name begins at an offset, within the limits. Returns its end.
    fn feed_tag(&mut self, start: usize, name: usize) -> usize {
        let extent = limits::tag_extent(self.page.text.as_bytes(), name);
        if extent.is_closed {
            self.feed_to_end(start, extent.cut.unwrap_or(extent.end - 1));
        } else {
            self.is_in_data = false;
            self.feed(start, extent.cut.unwrap_or(extent.end));
        }
        extent.end
    }

    /// Gives the tokenizer all up to the next `>` and that. Returns where it ends.
    fn feed_past(&mut self, start: usize, from: usize) -> usize {
        match memchr(b'>', &self.page.text.as_bytes()[from..]) {
            Some(length) => {
                self.feed_to_end(start, from + length);
                from + length + 1
            }
            None => self.feed_rest(start),
        }
    }

    /// Gives the tokenizer the rest of the page. Returns its end.
    fn feed_rest(&mut self, start: usize) -> usize {
        self.is_in_data = false;
        self.feed(start, self.page.text.len());
        self.page.text.len()
    }

    /// Gives the tokenizer what begins here in the data state: text, and the tag, comment or doctype after it. Returns its end.
    fn feed_in_data(&mut self, start: usize) -> usize {
        let bytes = self.page.text.as_bytes();
        for open in memchr_iter(b'<', &bytes[start..]).map(|length| start + length) {
            match &bytes[open + 1..] {
                [b'a'..=b'z' | b'A'..=b'Z', ..] => return self.feed_tag(start, open + 1),
                [b'/', b'a'..=b'z' | b'A'..=b'Z', ..] => return self.feed_tag(start, open + 2),
                // this is dropped, and gives no token
                [b'/', b'>', ..] => {
                    self.feed(start, open + 3);
                    return open + 3;
                }
                [b'!', b'[', ..] if self.tokenizer.sink.adjusted_current_node_present_but_not_in_html_namespace() => {
                    return self.feed_foreign_declaration(start, open);
                }
                [b'/' | b'!' | b'?', ..] => return self.feed_past(start, open),
                // the `<` is text
                _ => {}
            }
        }
        self.feed_rest(start)
    }

    /// Gives the tokenizer a CDATA section or a comment in foreign content. Returns its end.
    fn feed_foreign_declaration(&mut self, start: usize, open: usize) -> usize {
        let rest = &self.page.text[open..];
        if !rest.starts_with("<![CDATA[") {
            return self.feed_past(start, open);
        }
        match rest.find("]]>") {
            Some(length) => {
                let end = open + length + "]]>".len();
                self.feed(start, end);
                end
            }
            None => self.feed_rest(start),
        }
    }

    /// Gives the tokenizer what begins here in another state: raw text up to its end tag, or a part of a comment. Returns its end.
    fn feed_raw(&mut self, start: usize) -> usize {
        let bytes = self.page.text.as_bytes();
        let raw = match &self.tokenizer.sink.raw {
            Some(raw) => raw,
            None => return self.feed_past(start, start),
        };
        let is_end = |open: usize| {
            let name = open + 2..open + 2 + raw.len();
            bytes.get(open + 1) == Some(&b'/') && matches!(bytes.get(name), Some(found) if found.eq_ignore_ascii_case(raw.as_bytes()))
        };
        match memchr_iter(b'<', &bytes[start..]).map(|length| start + length).find(|&open| is_end(open)) {
            Some(open) => self.feed_tag(start, open + 2),
            None => self.feed_rest(start),
        }
    }

    /// Reads a text, a tag or a comment that begins here in the data state. Returns its end. No raw text follows what is given to the tree
    /// builder, which then always says to go on.
    fn read_in_data(&mut self, start: usize) -> usize {
        let bytes = self.page.text.as_bytes();
        match &bytes[start..] {
            [b'<', b'!', b'-', b'-', content @ ..] => {
                self.tokenizer.sink.take_comment();
                start + "<!--".len() + comment_length(content)
            }
            [b'<', b'/', ..] => self.give_plain_end_tag(start).unwrap_or_else(|| self.feed_in_data(start)),
            [b'<', ..] => self.give_plain_start_tag(start).unwrap_or_else(|| self.feed_in_data(start)),
            [b'&', ..] => self.give_reference(start).unwrap_or_else(|| self.feed_in_data(start)),
            _ => {
                let end = start + self.page.text_length(start);
                if end == start {
                    return self.give_newline(start).unwrap_or_else(|| self.feed_in_data(start));
                }
                self.give_text(start, end);
                end
            }
        }
    }

    /// Gives the tree builder the characters of the reference, or the ampersand, that begins here. Returns its end.
    fn give_reference(&mut self, start: usize) -> Option<usize> {
        let text = &self.page.text[start..];
        let Reference { character, second, length } = written::reference(text).or_else(|| written::ampersand(text.as_bytes()))?;
        self.tokenizer.sink.take_char(character);
        if let Some(second) = second {
            self.tokenizer.sink.take_char(second);
        }
        Some(start + length)
    }

    /// Gives the tree builder a newline for the carriage return that begins here. Returns its end.
    #[cold]
    fn give_newline(&mut self, start: usize) -> Option<usize> {
        let rest = self.page.text.as_bytes()[start..].strip_prefix(b"\r")?;
        self.tokenizer.sink.take_char('\n');
        Some(start + 1 + usize::from(rest.first() == Some(&b'\n')))
    }

    /// Gives the tree builder a text.
    fn give_text(&mut self, start: usize, end: usize) {
        if self.tokenizer.sink.takes_text(&self.page.text[start..end]) {
            return;
        }
        let mut at = start;
        while at < end && self.tokenizer.sink.refusal.is_none() {
            let next = self.page.end(at, end);
            let piece = self.page.piece(at, next);
            let _ = self.tokenizer.sink.give(Token::CharacterTokens(piece));
            at = next;
        }
    }

    /// Reads the attribute that begins here into a tag's, if it is asked for. Returns where it ends; `None` where it isn't plainly written, or
    /// the tag has one of that name.
    fn plain_attribute(&mut self, start: usize, is_formatting: bool) -> Option<usize> {
        let (known, name_end) = self.names.attribute_name(self.page.text, start)?;
        let written = written::value(self.page.text.as_bytes(), name_end)?;
        if known.is_asked || is_formatting {
            if self.attributes.iter().any(|other| other.name.local == known.name) {
                return None;
            }
            let name = QualName::new(None, ns!(), known.name.clone());
            let value = self.page.value(&written)?;
            self.attributes.push(Attribute { name, value });
        }
        Some(written.end)
    }

    /// Gives the tree builder the end tag that begins here, where it is plainly written. Returns its end.
    fn give_plain_end_tag(&mut self, start: usize) -> Option<usize> {
        let (known, name_end) = self.names.tag_name(self.page.text, start + "</".len())?;
        let end = match written::next_in_tag(self.page.text.as_bytes(), name_end)? {
            Next::End { end, .. } => end,
            Next::Attribute(_) => return None,
        };
        let watched = &mut self.tokenizer.sink;
        watched.learn();
        let _ = watched.take_end_tag(&known.name, known.class);
        Some(end)
    }

    /// Gives the tree builder the start tag that begins here, where it is plainly written and no raw text follows. Returns its end. The tag
    /// has the attributes that are asked for; the tree builder compares formatting elements, and they have all.
    fn give_plain_start_tag(&mut self, start: usize) -> Option<usize> {
        let text = self.page.text.as_bytes();
        let (known, mut at) = self.names.tag_name(self.page.text, start + 1)?;
        let (tag, is_formatting) = (TagName { name: known.name.clone(), class: known.class }, known.is_formatting);
        self.attributes.clear();
        let mut count = 0;
        let (end, self_closing) = loop {
            match written::next_in_tag(text, at)? {
                Next::End { end, self_closing } => break (end, self_closing),
                Next::Attribute(_) if count == FEW_ATTRIBUTES => return None,
                Next::Attribute(attribute) => at = self.plain_attribute(attribute, is_formatting)?,
            }
            count += 1;
        };
        let watched = &mut self.tokenizer.sink;
        watched.learn();
        let _ = watched.take_start_tag(tag, &mut self.attributes, self_closing, Some(start));
        Some(end)
    }
}

#[cfg(test)]
mod tests {
    use super::*;
    use crate::adapt;
    use crate::characters::Filter;
    use crate::config::plain;
    use crate::html5ever_alone::{self, Outline};
    use crate::moves::Moves;
    use crate::random_pages::{depends_on_pieces, reduced, Random};
    use crate::record;
    use crate::tree::{Data, Id, Tree, DOCUMENT, MAX_ATTRIBUTES};
    use html5ever::{local_name, LocalName};
    use markup5ever::data::NAMED_ENTITIES;
    use std::panic::catch_unwind;
    use std::time::SystemTime;

    /// Number of pages of a round.
    const PAGES: usize = 100;

    /// Number of rounds, unless the variable HTML_RENDER_ROUNDS of the environment says another one.
    const ROUNDS: usize = 20;

    const WANTED: Wanted = Wanted { is_asked: record::is_asked, css: true, max_nodes: limits::MAX_NODES };

    fn new_sink(wanted: Wanted) -> Sink {
        Sink::new(Tree::new(Filter { keeps_controls: true, ..Filter::default() }), wanted)
    }

    fn by_reader(page: &str) -> Sink {
        Reader::read(page, new_sink(WANTED), WANTED, TreeBuilderOpts::default()).unwrap()
    }

    /// How a page is read.
    #[derive(Clone, Copy, Debug)]
    struct Way {
        /// Whether it is adapted to what a browser shows.
        is_adapted: bool,
        window_length: usize,
    }

    impl Way {
        fn is_asked(self) -> fn(&LocalName) -> bool {
            if self.is_adapted {
                adapt::is_asked
            } else {
                record::is_asked
            }
        }

        fn options(self) -> TreeBuilderOpts {
            TreeBuilderOpts { drop_doctype: true, scripting_enabled: !self.is_adapted, ..TreeBuilderOpts::default() }
        }

        /// Returns the document of a page.
        fn document(self, page: &str) -> String {
            let wanted = Wanted { is_asked: self.is_asked(), css: true, max_nodes: limits::MAX_NODES };
            let mut reader = Reader::new(page, new_sink(wanted), wanted, self.options());
            reader.page.window_length = self.window_length;
            let Sink { tree, css, is_quirky, language, .. } = reader.read_all().unwrap();
            let is_table = |node: &Id| matches!(tree.element(*node), Some(element) if element.name == local_name!("table"));
            assert_eq!(tree.tables, tree.ids().filter(is_table).collect::<Vec<_>>(), "{page:?}");
            let mut outline = Outline::new(is_quirky, language.as_deref(), &css);
            write_children(&tree, DOCUMENT, &mut outline);
            outline.finish()
        }

        /// Returns the document that html5ever alone builds of a page.
        fn document_by_html5ever(self, page: &str) -> String {
            html5ever_alone::document(page, self.is_asked(), self.options())
        }

        fn differs(self, page: &str) -> bool {
            catch_unwind(|| self.document(page) != self.document_by_html5ever(page)).unwrap_or(true)
        }
    }

    fn write_children(tree: &Tree, parent: Id, outline: &mut Outline) {
        for child in tree.children(parent) {
            match tree.data(child) {
                Data::Root => {}
                &Data::Text { start, length, continues } => {
                    let text = &tree.text[start as usize..][..length as usize];
                    outline.text(std::str::from_utf8(text).unwrap(), continues);
                }
                Data::Comment => outline.comment(),
                Data::Element(element) => {
                    let attributes = tree.attributes(element).iter().map(|attribute| (&attribute.name, &attribute.value));
                    outline.open(&element.space, &element.name, attributes);
                    if element.space == ns!(html) && element.name == local_name!("template") {
                        outline.open_contents();
                        write_children(tree, child + 1, outline);
                        outline.close_contents();
                    }
                    write_children(tree, child, outline);
                    outline.close();
                }
            }
        }
    }

    /// Compares the documents of random pages with those that html5ever alone builds. Prints the seed, and a page whose documents differ.
    fn compare_random_pages(seed: u64, rounds: usize) {
        println!("HTML_RENDER_SEED={seed}");
        let mut random = Random::new(seed);
        for _ in 0..rounds * PAGES {
            let page = random.page();
            let longest = 1 << random.below(17);
            let way = Way { is_adapted: random.below(2) == 0, window_length: (5 + random.below(longest)).min(1 << 16) };
            if way.differs(&page) {
                let page = reduced(&page, |page| !depends_on_pieces(page) && way.differs(page));
                println!("{way:?} {page:?}");
                assert_eq!(way.document(&page), way.document_by_html5ever(&page));
                unreachable!("a page that is read otherwise at another time: {page:?}");
            }
        }
    }

    /// Returns the number in a variable of the environment, if it is set.
    fn variable(name: &str) -> Option<u64> {
        let value = std::env::var(name).ok()?;
        Some(value.parse().unwrap_or_else(|_| panic!("{name} is no number: {value}")))
    }

    #[test]
    fn documents_of_a_seed() {
        compare_random_pages(1, 2 * ROUNDS);
    }

    #[test]
    fn documents_of_a_new_seed() {
        let since = SystemTime::now().duration_since(SystemTime::UNIX_EPOCH).unwrap();
        let seed = variable("HTML_RENDER_SEED").unwrap_or(since.as_nanos() as u64);
        compare_random_pages(seed, variable("HTML_RENDER_ROUNDS").map_or(ROUNDS, |rounds| rounds as usize));
    }

    #[test]
    fn documents_of_pages() {
        let pages = [
            // white space of a table is held back until it is known whether text follows
            "x<table> <!doctype>y",
            "x<table> <!doctype>\0 </p>y",
            "x<table><tr> <!DOCTYPE html>&amp;<td>z",
            "x<table> <!-- c -->y",
            "x<table> </p>y",
            "x<table> \0y",
            // the end of a form leaves a term or an item directly in another
            "x<dt><form><dt/><m></form><dt>\x0c<!><dt><m><dt>",
            "x<li><form><li></form><li>y<!><li><b><li></li></b>z",
            // more attributes than usual
            "x<svg><a a b c d e f g h i j k l m n o p q xlink:href=r>s",
        ];
        for (page, is_adapted) in pages.into_iter().flat_map(|page| [(page, false), (page, true)]) {
            let way = Way { is_adapted, window_length: WINDOW };
            assert_eq!(way.document(page), way.document_by_html5ever(page), "{page:?}");
        }
    }

    #[test]
    fn documents_of_references() {
        let names = NAMED_ENTITIES.keys().map(|name| format!("&{name}"));
        let numbers = (0..0x300).chain([0xd7ff, 0xd800, 0xdfff, 0xe000, 0xfdd0, 0xffff, 0x1_0000, 0x10_ffff, 0x11_0000, u32::MAX]);
        let references: Vec<String> = names.chain(numbers.flat_map(|number| [format!("&#{number}"), format!("&#x{number:x}")])).collect();
        let way = Way { is_adapted: true, window_length: WINDOW };
        for some in references.chunks(100) {
            for end in [";", "", ";\r", "=", "x"] {
                let page: String = some.iter().map(|reference| format!("<p title=\"{reference}{end}\">{reference}{end}")).collect();
                assert_eq!(way.document(&page), way.document_by_html5ever(&page), "{page:?}");
            }
        }
    }

    #[test]
    fn as_the_library_moves_nodes() {
        let mut random = Random::new(1);
        for page in (0..2_000).map(|_| random.page()) {
            let moves = Moves::read(page.strip_prefix('\u{feff}').unwrap_or(&page));
            for width in [9, 80] {
                let ours = plain().keep_controls().string_from_read(page.as_bytes(), width);
                let theirs = plain().with_settings(|settings| moves.render(settings, width));
                assert_eq!(format!("{ours:?}"), format!("{theirs:?}"), "{page:?}");
            }
        }
    }

    #[test]
    fn attributes_are_limited_in_each_state() {
        let attributes: String = (0..2 * MAX_ATTRIBUTES).map(|number| format!(" a{number}='>'")).collect();
        for (before, name) in [("", "p"), ("</>", "p"), ("&amp; < ", "p"), ("<svg><![CDATA[>]]>", "p"), ("<title>", "/title"), ("<script>", "/script"), ("", "/p")] {
            let page = format!("{before}<{name}{attributes}>x");
            let mut most = 0;
            let mut reader = Reader::new(&page, new_sink(WANTED), WANTED, TreeBuilderOpts::default());
            let mut at = 0;
            while at < page.len() {
                at = if reader.is_in_data { reader.read_in_data(at) } else { reader.feed_raw(at) };
                most = most.max(reader.tokenizer.sink.most_attributes);
            }
            assert_eq!(most, MAX_ATTRIBUTES, "{before}<{name}");
        }
    }

    #[test]
    fn nodes_are_limited() {
        let read = |page: &str| Reader::read(page, new_sink(WANTED), WANTED, TreeBuilderOpts::default()).map(|sink| sink.tree.node_count());
        assert!(read(&"<br>".repeat(limits::MAX_NODES / 2)).is_ok());
        assert_eq!(read(&"<br>".repeat(limits::MAX_NODES)), Err(Refusal::TooLarge));
        let fonts: String = (0..500).map(|size| format!("<font size={size}>")).collect();
        assert_eq!(read(&("<p>".to_owned() + &fonts + &"<p>x".repeat(1_000))), Err(Refusal::TooLarge));
    }

    #[test]
    fn limits_of_nodes_are_exact() {
        let read = |page: &str, max_nodes| {
            let wanted = Wanted { max_nodes, ..WANTED };
            Reader::read(page, new_sink(wanted), wanted, TreeBuilderOpts::default()).map(|sink| (sink.tree.node_count(), sink.tree.attribute_count()))
        };
        let attributes = "<i id=a class=b>".repeat(100);
        for page in ["", "<p>a<b>b</p>c", "<table><tr><td>a", &"<hr>".repeat(1_000), &"<p><b><i>x".repeat(20), &attributes] {
            let (nodes, attributes) = read(page, usize::MAX).unwrap();
            let most = nodes.max(attributes);
            assert_eq!(read(page, most), Ok((nodes, attributes)), "{page}");
            for less in [most - 1, most / 2, 1, 0] {
                assert_eq!(read(page, less), Err(Refusal::TooLarge), "{page} in {less}");
            }
        }
    }

    #[test]
    fn each_token_has_room() {
        let attributes = "id=a class=b name=c href=d src=e alt=f start=g rowspan=h colspan=i";
        for count in [1, 7, 30, 200] {
            let fonts: String = (0..count).map(|size| format!("<font {attributes} size={size}>")).collect();
            for rest in ["<p>x", "<p>x</font>y", "<table><td>x<tr>y", "<a><div><a>", "<nobr><p><nobr>", "<div></font></div>"] {
                let read = by_reader(&["<p>", &fonts, &rest.repeat(3), "<b>"].concat());
                assert!(read.tree.node_count() > count, "{count} {rest}");
            }
        }
    }

    #[test]
    fn start_tags_past_the_limit_are_dropped() {
        // the depth of the node that was made last
        let depth = |page: &str| {
            let tree = by_reader(&[page, "<br>"].concat()).tree;
            std::iter::successors(tree.ids().last(), |&node| Some(tree.parent(node)).filter(|&parent| parent != crate::tree::NONE)).count()
        };
        assert_eq!(depth(&"<div>".repeat(600)), depth(&"<div>".repeat(2_000)));
        let fonts: String = (0..600).map(|size| format!("<font size={size}><p>x")).collect();
        assert!(depth(&fonts) <= 600);
        let attributes = "<p id=\"a\" class=\"b\" title=\"c\" name=\"d\">".repeat(1_000);
        assert_eq!(depth(&(attributes + &"<div>".repeat(2_000))), depth(&"<div>".repeat(2_000)));
        let scripts = "<div>".repeat(600) + "<script>x</script><br>y";
        assert_eq!(by_reader(&scripts).tree.text, b"y");
    }
}
