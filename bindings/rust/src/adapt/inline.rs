//! Text and what is in it: which signs are written around emphasis, and after links.

use super::elements::Run;
use super::emphasis::{Emphasis, Signed};
use super::flow::{self, Flow};
use super::gaps::Gaps;
use super::links::{EndedLink, Links};
use crate::record::{Handle, Recorder};
use crate::tree::{Id, Piece};
use html5ever::local_name;

/// Text as it is recorded.
pub(crate) struct Inline {
    flow: Flow,
    /// Whether emphasis has signs.
    has_signs: bool,
    emphasis: Emphasis,
    pub links: Links,
    pub gaps: Gaps,
}

impl Inline {
    /// Returns the start of a text whose emphasis may have signs.
    pub fn new(links: Links, has_signs: bool, emphasis: Emphasis) -> Inline {
        Inline { flow: Flow::default(), has_signs, emphasis, links, gaps: Gaps::default() }
    }

    pub fn has_signs(&self) -> bool {
        self.has_signs
    }

    /// Reports whether an element has the private class of those without signs.
    pub fn has_unsigned_class(&self) -> bool {
        self.emphasis.has_class()
    }

    /// Reports whether what comes can change what is known of a link or an element with signs.
    #[inline]
    fn is_watching(&self) -> bool {
        self.links.is_open() || self.emphasis.is_watching()
    }

    /// Notes a text before it is recorded. Returns what of it is recorded.
    #[inline(always)]
    pub fn add_text(&mut self, recorder: &mut Recorder, piece: Piece) -> Piece {
        self.gaps.add_text(recorder, piece);
        if self.is_watching() {
            self.add_watched_text(recorder, piece)
        } else {
            self.flow.set_last(piece);
            piece
        }
    }

    #[inline(never)]
    fn add_watched_text(&mut self, recorder: &mut Recorder, piece: Piece) -> Piece {
        let text = flow::bytes(&recorder.text, piece);
        let blank = flow::blank_start(text);
        if self.links.is_open() {
            self.links.add_text(text, blank);
        }
        let rest = self.emphasis.add_text(recorder, &mut self.flow, piece, blank as u32);
        if let Some(step) = self.emphasis.take_inserted() {
            self.links.shift(step);
        }
        if rest.1 > 0 {
            self.flow.add(recorder, rest);
        }
        rest
    }

    /// Records a text.
    pub fn record_text(&mut self, recorder: &mut Recorder, parent: Handle, piece: Piece) {
        let rest = self.add_text(recorder, piece);
        if rest.1 > 0 {
            recorder.text(parent, rest);
        }
    }

    /// Notes an image without a text, which is shown if nothing else in the link around it is.
    pub fn add_image(&mut self, handle: Handle, node: Id) {
        if self.links.add_image(handle, node) {
            self.flow.interrupt();
        }
    }

    /// Notes a picture or a field that is shown.
    pub fn add_object(&mut self, recorder: &mut Recorder) {
        self.gaps.add_contents(recorder);
        self.flow.interrupt();
        self.links.add_object();
        self.emphasis.fill();
    }

    /// Notes that lines begin whose white space stays where it is.
    pub fn begin_lines(&mut self) {
        self.emphasis.fill();
    }

    /// Notes that an element begins.
    #[inline]
    pub fn begin(&mut self, recorder: &mut Recorder, run: Run) {
        if run != Run::Inline {
            self.flow.end_word();
            self.gaps.begin(recorder, run);
            if self.is_watching() {
                self.begin_watched(recorder, run);
            }
        }
    }

    #[inline(never)]
    fn begin_watched(&mut self, recorder: &mut Recorder, run: Run) {
        self.emphasis.end_word();
        if run != Run::Break {
            self.flow.interrupt();
        }
        if run.is_block() {
            self.links.begin_block();
            self.emphasis.add_block(recorder);
        }
    }

    /// Notes a line break that was recorded as a step of this number.
    pub fn add_break(&mut self, step: usize) {
        if self.is_watching() {
            self.flow.add_break(step);
        }
    }

    /// Notes that a recorded element ends.
    #[inline(always)]
    pub fn end(&mut self, handle: Handle, run: Run) {
        self.flow.end_word();
        self.gaps.end(run);
        if self.is_watching() {
            self.end_watched(handle, run);
        }
    }

    #[inline(never)]
    fn end_watched(&mut self, handle: Handle, run: Run) {
        self.emphasis.end_word();
        if run.is_block() {
            self.links.end_block(handle);
        }
    }

    /// Opens a recorded element with signs. It has none in the signs of another.
    pub fn open_signed(&mut self, recorder: &mut Recorder, mut signed: Signed, is_signed: bool) {
        if self.has_signs {
            if !is_signed || self.emphasis.is_in_signs() {
                self.emphasis.drop_signs(recorder, &mut signed);
            }
            self.emphasis.open(signed);
        }
    }

    /// Ends the innermost element with signs.
    pub fn close_signed(&mut self, recorder: &mut Recorder) {
        if self.has_signs {
            self.emphasis.close(recorder, &mut self.flow);
        }
    }

    /// Ends the innermost link, of whose lone image a function returns the name.
    pub fn close_link(&mut self, recorder: &mut Recorder, handle: Handle, name_of: impl FnOnce(Id, Id) -> String) {
        let link = match self.links.close() {
            Some(link) => link,
            None => return,
        };
        if let Some((image, node, link)) = link.image {
            recorder.attribute(image, &local_name!("alt"), &name_of(node, link));
            self.gaps.add_contents(recorder);
            self.emphasis.fill();
        }
        if let (Some(step), false) = (link.empty_step, self.links.keeps_targets()) {
            // a link without text is nothing, and another element without text is nothing too
            recorder.rename(step, &local_name!("span"));
        }
        self.record_sign(recorder, handle, link);
    }

    /// Records what is shown of a link's target, after the last visible character in it.
    fn record_sign(&mut self, recorder: &mut Recorder, handle: Handle, link: EndedLink) {
        let block = link.block;
        let sign = match self.links.sign(link) {
            Some(sign) => recorder.keep(sign),
            None => return,
        };
        if self.flow.insert_before_break(recorder, sign) {
            return;
        }
        let place = block.unwrap_or(handle);
        let space = self.flow.cut_trailing(recorder);
        let step = recorder.steps.len();
        // the place may be before that of a blank line
        let gaps = std::mem::take(&mut self.gaps);
        self.record_text(recorder, place, sign);
        self.flow.add_sign(step);
        if let Some(space) = space {
            self.record_text(recorder, place, space);
        }
        self.gaps = gaps;
        if block.is_some() {
            self.flow.end_word();
        }
    }
}

#[cfg(test)]
mod tests {
    use crate::config::{plain, plain_no_decorate, rich};
    use crate::options::{LinkMode, Options};
    use crate::outline;
    use crate::random_pages::Random;

    fn recorded(page: &str) -> String {
        outline::of(&plain().as_shown(Options::new()), page)
    }

    fn notes(options: Options, page: &str) -> Vec<String> {
        plain().as_shown(options).recorded(page).2
    }

    #[test]
    fn signs_in_words() {
        for (page, wanted) in [
            ("un<b>believ</b>able", "un<!b>believ</>able"),
            ("a <b>b</b>, <em>c</em>", "a <b>b</>, <em>c</>"),
            ("<b>a</b>b c<b>d</b> <i>e</i>", "<!b>a</>b c<!b>d</> <i>e</>"),
            ("<b>a</b><i>b</i>", "<!b>a</><i>b</>"),
            ("<b>a<i>b</i></b><span>c</span>", "<!b>a<i>b</></><span>c</>"),
            ("<b>a</b><em>b</em>", "<!b>a</><!em>b</>"),
            ("<b><em>a</em></b>b", "<!b><!em>a</></>b"),
            ("<em><code>a</code> <b>b</b></em> <b>c</b>", "<em><!code>a</> <!b>b</></> <b>c</>"),
            ("a<b>b <em>c</em></b> <b>d<p>e <em>f</em></p></b>", "a<!b>b <em>c</></> <!b>d<p>e <em>f</></></>"),
            ("\u{e9}<b>\u{e9}</b>", "\u{e9}<!b>\u{e9}</>"),
            ("<b>a</b><br>b<div>c</div><b>d</b><p>e", "<b>a</><br></>b<div>c</><b>d</><p>e</>"),
            ("\u{4e16}<b>\u{754c}</b>\u{4e16}", "\u{4e16}<b>\u{754c}</>\u{4e16}"),
            ("a<b class='k l'>b</b>", "a<!b>b</>"),
            ("a<img src=x><b>b</b>", "a<img></><!b>b</>"),
            ("a<img src=x alt=y><b>b</b>", "a<img y></><b>b</>"),
        ] {
            outline::check(Options::new(), page, wanted);
        }
    }

    #[test]
    fn signs_around_nothing_and_blocks() {
        for (page, wanted) in [
            ("<b></b><em> </em>a", "<span></> <span></>a"),
            ("<b><em></em></b>", "<span><!span></></>"),
            ("<b><img src=x></b><b><img src=x alt=y></b>", "<span><img></></><b><img y></></>"),
            ("<b><pre>a</pre></b>", "<!b><pre>    a</></>"),
            ("<b>a<div>b<em>c</em></div></b>", "<!b>a<div>b<!em>c</></></>"),
            ("<pre><code>a</code>\n</pre>", "<pre>    <!code>a</>\n</>"),
            ("<pre>a <b>b</b></pre><listing><i><em>c</em></i></listing>", "<pre>    a <!b>b</></><listing><pre><i>    <!em>c</></></></>"),
            ("<b style='visibility: hidden'>a</b>", "<!span></>"),
        ] {
            outline::check(Options::new(), page, wanted);
        }
    }

    #[test]
    fn white_space_goes_outside_of_signs() {
        for (page, wanted) in [
            ("a<b> b </b>c", "a <b>b</> c"),
            ("<b><em> a </em></b>b", " <b><!em>a</></> b"),
            ("<b> <em>\n <i>a</i> </em> </b>", " <b><!em><i>a</></></>  "),
            ("<b>a <em> </em></b>b", "<b>a<!span></></>  b"),
            ("<b>a<br> </b>- <b><em>c<br></em></b>d", "<b>a</><br></> - <b><!em>c</></><br></>d"),
            ("<b>\u{a0}a\u{a0}</b>", "\u{a0}<b>a</>\u{a0}"),
            ("<b>a <a href=x> b </a></b>c", "<b>a <a> b</></>[1] c"),
        ] {
            outline::check(Options::new(), page, wanted);
        }
    }

    #[test]
    fn a_rule_that_selects_nothing_changes_nothing() {
        let mut random = Random::new(1);
        let mut joined = 0;
        for _ in 0..400 {
            let page = random.page();
            for page in [page.clone(), page.replace("<p>", "<hr><hr>"), page.replace("<i>", "<b>")] {
                let config = || plain().allow_width_overflow().as_shown(Options::new());
                let styled = || config().add_css("x { color: red }").unwrap();
                for width in [3, 40] {
                    assert_eq!(config().string_from_read(page.as_bytes(), width).unwrap(), styled().string_from_read(page.as_bytes(), width).unwrap(), "{page}");
                }
                assert_eq!(config().lines_from_read(page.as_bytes(), 20).unwrap(), styled().lines_from_read(page.as_bytes(), 20).unwrap(), "{page}");
                joined += usize::from(config().recorded(&page).0.len() < styled().recorded(&page).0.len());
            }
        }
        assert!(joined > 100, "{joined}");
    }

    #[test]
    fn without_signs_nothing_is_moved() {
        assert_eq!(outline::of(&plain_no_decorate().as_shown(Options::new()), "a<b> b </b>c<b></b>"), "a<b> b </>c<b></>");
        assert_eq!(outline::of(&rich().as_shown(Options::new()), "a<b>b</b>"), "a<b>b</>");
    }

    #[test]
    fn numbers_of_links() {
        for (page, wanted, footnotes) in [
            ("<code><a href=x>a</a></code><b><a href=y>b<br></a> </b>", "<code><a>a</></>[1]<b><a>b</></>[2]<br></> ", "[1]: x [2]: y"),
            ("<a href=x>a</a>b<a href=y>c</a><a href=' x '>d</a>", "<a>a[1]</>b<a>c[2]</><a>d[1]</>", "[1]: x [2]: y"),
            ("<a href=x>a </a>b", "<a>a[1] </>b", "[1]: x"),
            ("<a href='http://a.example/'>a.example </a>", "<a>a.example </>", ""),
            ("<a href='http://a.example/'><b>a.</b>example</a>", "<a><b>a.</>example</>", ""),
            ("<a href=#a>a</a><a href=' JavaScript:b'>b</a><a href=''>c</a>", "<a>a</><a>b</><a>c</>", ""),
            ("<a href=x> </a><a href=y><i></i></a><a href=z><b hidden>a</b></a>", "<span> </><span><i></></><span></>", ""),
            ("<a href=x><div>a <b>b</b></div>\n</a>", "<a><div>a <b>b</>[1]\n</></>", "[1]: x"),
            ("<a href=x>a <br></a>-<a href=y><b>c<br>\n</b></a>", "<a>a[1]<br></></>-<a><b>c</>[2]<br></>\n</>", "[1]: x [2]: y"),
            ("<a href=x> <img src=y> </a>", "<a> <img y></>[1] </>", "[1]: x"),
            ("<a href=x><h1>a</h1><p>b</p></a>", "<a><h1>a</><p>b[1]</></>", "[1]: x"),
            ("<a href=x><img src='a/b.png'></a>", "<a><img b.png></>[1]</>", "[1]: x"),
            ("<a href=x><img src='b.png' alt=''>a</a><img src=c>", "<a><img></>a[1]</><img></>", "[1]: x"),
            ("<a href=x><img src='data:,'></a>", "<a><img x></>[1]</>", "[1]: x"),
            ("<a href=x><svg><text>a</text></svg></a>", "<a><svg><svg></><text> a</></>[1] </>", "[1]: x"),
            ("<a href=x><svg><title>a</title></svg></a>", "<a><svg><svg><title>a</></></>[1]</>", "[1]: x"),
            ("<a name=x>a</a>", "<a>a</>", ""),
            ("<iframe src=x></iframe>", "<iframe><a>x</></>", ""),
            ("<iframe src='y/x'></iframe>", "<iframe><a>x[1]</></>", "[1]: y/x"),
        ] {
            assert_eq!((recorded(page).as_str(), notes(Options::new(), page).join(" ").as_str()), (wanted, footnotes), "{page}");
        }
    }

    #[test]
    fn other_ways_to_show_targets() {
        let page = "<a href=x>a</a><a href=y>b</a><a href=x>c</a>";
        let shown = |mode| (outline::of(&plain().as_shown(Options::new().links(mode)), page), notes(Options::new().links(mode), page).join(" "));
        assert_eq!(shown(LinkMode::Inline), ("<a>a <x></><a>b <y></><a>c <x></>".to_owned(), String::new()));
        assert_eq!(shown(LinkMode::List), ("<a>a</><a>b</><a>c</>".to_owned(), "x y".to_owned()));
        assert_eq!(shown(LinkMode::None), ("<a>a</><a>b</><a>c</>".to_owned(), String::new()));
        assert_eq!(outline::of(&rich().as_shown(Options::new().links(LinkMode::None)), page), "<a x>a</><a y>b</><a x>c</>");
        assert_eq!(outline::of(&plain_no_decorate().as_shown(Options::new()), page), "<a>a</><a>b</><a>c</>");
    }

    #[test]
    fn targets_are_resolved() {
        let base = || Options::new().base("https://a.example/b/c").unwrap();
        assert_eq!(notes(base(), "<a href=d>a</a><a href='#e'>b</a><a href='mailto:f'>c</a>"), ["[1]: https://a.example/b/d", "[2]: mailto:f"]);
        assert_eq!(notes(base(), "<base href='/g/'><base href=h><a href=d>a</a>"), ["[1]: https://a.example/g/d"]);
        assert_eq!(notes(Options::new(), "<base href='http://g/'><a href=d>a</a>"), ["[1]: http://g/d"]);
        assert_eq!(notes(Options::new(), "<base href='g/'><a href=d>a</a>"), ["[1]: d"]);
        assert_eq!(outline::of(&rich().as_shown(base()), "<a href='#d'>a</a>"), "<a https://a.example/b/c#d>a</>");
    }

    #[test]
    fn citations_are_raised() {
        for (page, wanted) in [
            ("a<sup><a href='#b'><span>[</span>12]</a></sup><sup>[3]</sup> <sup> [4] </sup>", "a<span><a><span></>\u{b9}\u{b2}</></> <span>\u{b3}</> <span>\u{2074}</>"),
            ("<sup><a href=b:c>[1]</a></sup>", "<span><a>\u{b9}[1]</></>"),
            ("<sup>[a]</sup><sup>[]</sup><sup>[1</sup><sup>[1]2</sup>", "<span>[a]</><span>[]</><span>[1</><span>[1]2</>"),
            ("<sup>[1<img src=a alt=b>]</sup><pre><sup>[1]</sup></pre>", "<span>[1<img b></>]</><pre>    <span>[1]</></>"),
        ] {
            assert_eq!(recorded(page), wanted, "{page}");
        }
    }

    #[test]
    fn headings_have_no_signs() {
        for (page, wanted) in [
            ("<h2><b>a</b> <code>b</code></h2><b>c</b>", "<h2><!b>a</> <!code>b</></><b>c</>"),
            ("<sup><b>a</b></sup>", "<sup><!b>a</></>"),
            ("<table><tr><th><b>a</b><td>b</table>", "<table><tbody><tr><th><!b>a</></><td>b</></></></><span></>"),
            ("<table border=1><tr><td><p><b>a</b></p><td><b>b</b><tr><td><b>c</b><td>d</table>", "<table><tbody><tr><td><p><!b>\u{206a}a</></></><td><!b>b</></></><tr><td><b>c</></><td>d</></></></><span></>"),
        ] {
            outline::check(Options::new(), page, wanted);
        }
    }

    #[test]
    fn what_rules_hide_has_no_numbers() {
        let hides = |css: &str, page: &str| plain().add_css(css).unwrap().as_shown(Options::new()).recorded(page).2.join(" ");
        let page = "<nav><a href=x>a</a></nav><p id=i class='j k'><a href=y>b</a>";
        for (css, wanted) in [
            ("nav { display: none }", "[1]: y"),
            ("p#i.k { display: none }", "[1]: x"),
            (".j.l { display: none } p::before { display: none }", "[1]: x [2]: y"),
            (".k { display: none } * { color: red }", "[1]: x"),
            ("a { display: none }", ""),
        ] {
            assert_eq!(hides(css, page), wanted, "{css}");
        }
        assert_eq!(hides("p { display: none }", "<p style='display: block'><a href=x>a</a>"), "[1]: x");
        assert_eq!(hides("p { display: none !important }", "<p style='display: block'><a href=x>a</a>"), "");
    }

    #[test]
    fn headings_are_strong_in_rich_text() {
        assert_eq!(outline::of(&rich().as_shown(Options::new()), "<h1>a</h1>"), "<h1><strong>a</></>");
        assert_eq!(recorded("<h1>a</h1>"), "<h1>a</>");
    }
}
