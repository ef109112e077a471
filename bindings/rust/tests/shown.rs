//! What a browser shows of a page: the cases of `shown/cases.txt`, and what they can't say.

use html_render::config::{plain, plain_no_decorate, rich, Config, ImageRenderMode};
use html_render::render::{PlainDecorator, RichDecorator};
use html_render::{from_read, render, Colour, Options, RichAnnotation, Tables};
use std::collections::BTreeSet;

const CASES: &str = include_str!("../../shown/cases.txt");
const DOCUMENT: &str = include_str!("../../../docs/HTML.md");

/// The cases: the row of the document, the page and its text.
fn cases() -> Vec<(&'static str, &'static str, &'static str)> {
    let parts = CASES.split("\n=== ").skip(1);
    parts
        .map(|part| {
            let (row, rest) = part.split_once('\n').unwrap();
            let (page, text) = rest.split_once("\n---\n").unwrap();
            (row, page, text.trim_end_matches('\n'))
        })
        .collect()
}

#[test]
fn each_case() {
    let mut others = String::new();
    for (row, page, text) in cases() {
        let shown = render(page, 20).unwrap();
        if shown.trim_end_matches('\n') != text {
            others.push_str(&format!("{row}\n{page}\n---\n{shown}\n"));
        }
    }
    assert!(others.is_empty(), "{others}");
}

#[test]
fn each_row_of_the_document_has_a_case() {
    let elements = DOCUMENT.split("\n## ").find(|part| part.starts_with("Elements\n")).unwrap();
    let rows: BTreeSet<&str> = elements.lines().filter_map(|line| line.strip_prefix("| ")?.split(" | ").next()).filter(|row| *row != "Element").collect();
    let of_cases: BTreeSet<&str> = cases().into_iter().map(|(row, _, _)| row).collect();
    assert_eq!(rows, of_cases);
}

fn shown(html: &str, config: Config<PlainDecorator>, width: usize) -> String {
    config.as_shown(Options::new()).string_from_read(html.as_bytes(), width).unwrap()
}

#[test]
fn html2text_s_way_is_kept() {
    let page = "a<section>b</section><noscript><b>c</b></noscript><p hidden>d<hr><q>e</q>";
    assert_eq!(from_read(page.as_bytes(), 80).unwrap(), "ab<b>c</b>\n\nd\n\ne\n");
    assert_eq!(from_read("so\u{ad}ft".as_bytes(), 80).unwrap(), "so\u{ad}ft\n");
    assert_eq!(from_read(&b"\xe9"[..], 80).unwrap(), "\u{fffd}\n");
}

#[test]
fn control_characters_are_kept_if_asked() {
    let page = "<p>a<a href='x\u{1b}y'>b</a>";
    assert_eq!(shown(page, plain(), 80), "ab[1]\n\n[1]: xy\n");
    assert_eq!(shown(page, plain().keep_controls(), 80), "ab[1]\n\n[1]: x\u{1b}y\n");
    assert_eq!(from_read(page.as_bytes(), 80).unwrap(), "a[b][1]\n\n[1]: xy\n");
    let sheet = "<style>p::before { content: 'a\\1b b' }</style><p>c";
    assert_eq!(shown(sheet, plain().use_doc_css(), 80), "abc\n");
}

#[test]
fn nothing_controls_a_terminal() {
    let bad: String = ('\0'..='\u{9f}').chain('\u{202a}'..='\u{202e}').chain('\u{2066}'..='\u{2069}').filter(|c| !"\n\t".contains(*c)).filter(|c| c.is_control() || *c > '\u{9f}').collect();
    let references: String = bad.chars().map(|c| format!("&#{};", c as u32)).collect();
    let page = format!(
        "<style>b::before{{content:'{bad}'}}</style><title>t{bad}</title><p id='{bad}' class='{references}'>a{bad}{references}<b>b</b>\
         <a href='https://x/{bad}{references}' name='{references}'>c</a><img src='{references}' alt='d{references}'><svg><title>e{references}</title></svg>\
         <iframe src='f{references}'></iframe><video src=g title='h{references}'></video><pre>i{bad}{references}</pre><table><caption>{references}j<tr><td>k{references}</table>"
    );
    let is_clean = |text: &str| text.chars().all(|c| c == '\n' || !c.is_control() && !bad.contains(c));
    let options = Options::new().title();
    for width in [5, 80] {
        for config in [plain(), plain_no_decorate()] {
            let text = config.use_doc_css().allow_width_overflow().as_shown(options.clone()).string_from_read(page.as_bytes(), width).unwrap();
            assert!(is_clean(&text), "{text:?}");
            assert!("tabcdefhijk".chars().all(|c| text.contains(c)), "{text}");
        }
        let lines = rich().use_doc_css().allow_width_overflow().as_shown(options.clone()).lines_from_read(page.as_bytes(), width).unwrap();
        assert!(is_clean(&format!("{lines:?}").replace("\\0", "\0").replace("\\u{", "\u{1b}")), "{lines:?}");
    }
}

#[test]
fn rules_are_as_wide_as_there_is_room() {
    assert_eq!(shown("<hr>", plain().max_wrap_width(3), 80), "───\n");
    assert_eq!(render("<blockquote><hr>", 3).unwrap(), "> ─\n");
    assert_eq!(render("<blockquote><hr>", 2).unwrap(), "");
    assert_eq!(shown("a<hr class=b>c", plain().add_css("hr.b { display: none }").unwrap(), 80), "ac\n");
}

#[test]
fn rules_beside_each_other_are_shown_as_others() {
    const RULES: &str = "<hr><hr><hr>";
    let pages = [
        RULES.to_owned(),
        format!("a{RULES}b<br>{RULES}<br><br>c"),
        format!("<p>a</p>{RULES}<p>b</p>{RULES} {RULES}<ul><li>c</ul>{RULES}"),
        format!("<blockquote>{RULES}<table border=1><tr><td>a<td>b<td>{RULES}<td>c<td>d</table>{RULES}</blockquote>{RULES}"),
        format!("<b>a{RULES}<i>b</i></b><a href=x>{RULES}c</a><s>{RULES}</s><h2>{RULES}</h2><ol><li>{RULES}<li>d{RULES}</ol>"),
        format!("<pre>a\n{RULES}\n</pre>{RULES}<div style='white-space: pre'>{RULES} \n{RULES}</div><div style='white-space: pre-wrap'>{RULES}</div>"),
        format!("<hr id=a><hr><hr id=b><hr><hr hidden><hr style='color: red'><hr><hr title=c>{RULES}<hr class=d>{RULES}"),
        format!("<table><tr><td>a<td>{RULES}<tr><td>b<td>c</table><dl><dt>a<dd>{RULES}</dl><ul>{RULES}<li>e</ul>"),
    ];
    // a rule that may select an `hr` has each recorded apart
    let apart = "x, hr { color: #010203 }";
    for (page, width) in pages.iter().flat_map(|page| (1..25).map(move |width| (page, width))) {
        for config in [plain(), plain().pad_block_width(), plain().max_wrap_width(7), plain().raw_mode(true), plain_no_decorate()] {
            let text = |config: Config<PlainDecorator>| config.allow_width_overflow().as_shown(Options::new()).string_from_read(page.as_bytes(), width).unwrap();
            assert_eq!(text(config.clone()), text(config.add_css(apart).unwrap()), "{page} at {width}");
        }
        let lines = |config: Config<RichDecorator>| config.allow_width_overflow().as_shown(Options::new()).lines_from_read(page.as_bytes(), width).unwrap();
        assert_eq!(lines(rich()), lines(rich().add_css("x { color: red }").unwrap()), "{page} at {width}");
    }
    assert_eq!(render(RULES, 2).unwrap(), "──\n──\n──\n");
    // wider than the longest rule
    assert_eq!(render(RULES, 200_000).unwrap(), ("─".repeat(1 << 16) + "\n").repeat(3));
    assert_eq!(shown(RULES, plain().add_css("hr::before { content: 'a' }").unwrap(), 2), "a─\n─\n".repeat(3));
}

#[test]
fn rules_are_never_too_narrow() {
    for page in ["<hr>", "<ul><li><hr>", "<ol start=-9><li><hr><li>", "<dl><dd><blockquote><hr>", "<h3><hr>", "<table><tr><td><hr>", "<table><tr><td><ul><li><hr>"] {
        for width in 1..20 {
            let text = render(page, width).unwrap_or_else(|error| panic!("{page} at {width}: {error}"));
            assert!(text.lines().all(|line| line.chars().count() <= width && line.trim_end() != "─ ─"), "{page} at {width}: {text}");
        }
    }
}

#[test]
fn tables_that_are_drawn() {
    let page = "<table><tr><td>a<td>b</table><table border=1><tr><td>c<td>d</table>";
    let text = |tables| plain().as_shown(Options::new().tables(tables)).string_from_read(page.as_bytes(), 20).unwrap();
    assert_eq!(text(Tables::None), "a  b\n\nc  d\n");
    assert_eq!(text(Tables::Data), "a  b\n\n─┬─\nc│d\n─┴─\n");
    assert_eq!(text(Tables::All), "─┬─\na│b\n─┴─\n\n─┬─\nc│d\n─┴─\n");
}

#[test]
fn rules_for_parts_of_tables_that_are_not_drawn() {
    let page = "<table class=t role=none><caption>a</caption><tr><td id=b>b<br><td>c<tr class=d><th>d</table>e";
    for (css, wanted) in [
        ("p { color: red }", "a\nb\nc\nd\n\ne\n"),
        ("td { display: none }", "a\nd\n\ne\n"),
        ("td#b { display: none }", "a\nc\nd\n\ne\n"),
        ("th { display: none }", "a\nb\nc\n\ne\n"),
        ("tr.d { display: none }", "a\nb\nc\n\ne\n"),
        ("caption { display: none }", "b\nc\nd\n\ne\n"),
        ("tbody { display: none }", "a\n\ne\n"),
        ("table.t { display: none }", "e\n"),
        ("div { display: none }", "a\nb\nc\nd\n\ne\n"),
        ("td::before { content: '-' } tr::after { content: ';' }", "a\n-b\n-c\n;\nd\n;\n\ne\n"),
    ] {
        assert_eq!(shown(page, plain().add_css(css).unwrap(), 80), wanted, "{css}");
        assert_eq!(shown(&format!("<style>{css}</style>{page}"), plain().use_doc_css(), 80), wanted, "{css}");
    }
}

#[test]
fn rules_hide_cells_of_lines() {
    let page = "<table><tr><td>a<td class=b><p>b<td><i class=c>c</i><td>d</table><table><tr class=b><td>e<td>f</table>";
    for (css, wanted) in [
        (".b { display: none }", "a  c  d\n"),
        (".c { display: none }", "a\n\nb\n\nd\n\ne  f\n"),
        (".b { display: none } .c { display: none }", "a  d\n"),
    ] {
        assert_eq!(shown(page, plain().add_css(css).unwrap(), 80), wanted, "{css}");
    }
    let table = "<table><tr><td>a<td>b<tr class=c><td>d<td>e</table>";
    assert_eq!(shown(table, plain().add_css(".c { display: none }").unwrap(), 80), "a  b\n");
    assert_eq!(shown(table, plain().add_css("* { color: red }").unwrap(), 80), "─┬─\na│b\nd│e\n─┴─\n");
}

#[test]
fn rows_that_pass_the_width_are_wrapped() {
    // texts of rules aren't counted
    let page = "<table><tr><td>one two<td>three<td>four</table>";
    assert_eq!(shown(page, plain().add_css("td::before { content: '--' }").unwrap(), 20), "--one two  --three\n--four\n");
}

#[test]
fn images_in_cells() {
    let page = "<table><tr><td>a<td><img src='x/b.png'><td>c</table>";
    assert_eq!(shown(page, plain(), 80), "a  c\n");
    assert_eq!(shown(page, plain().empty_img_mode(ImageRenderMode::Filename), 80), "a  [b.png]  c\n");
}

#[test]
fn spaces_at_the_ends_of_lines() {
    let page = "<table border=1><tr><td>a<td>bc<tr><td>d<td style='background-color: red'>e</table>";
    let drawn = "─┬──\na│bc\n─┼──\nd│e";
    assert_eq!(shown(page, plain(), 80), "─┬──\na│bc\nd│e\n─┴──\n");
    let padded = format!("{drawn} \n─┴──\n");
    assert_eq!(plain().as_shown(Options::new().pad().row_rules()).string_from_read(page.as_bytes(), 80).unwrap(), padded);
    assert_eq!(from_read(page.as_bytes(), 80).unwrap(), padded);
    assert_eq!(shown("<p>a", plain().pad_block_width(), 3), "a  \n");
    let lines = |config: Config<RichDecorator>| {
        let lines = config.lines_from_read("<pre>a  <b>  </b><p style='background-color: red'>b  </p><a href=x>c  </a></pre>".as_bytes(), 80).unwrap();
        let texts = lines.iter().map(|line| line.tagged_strings().map(|string| string.s.as_str()).collect::<String>());
        texts.collect::<Vec<_>>()
    };
    assert_eq!(lines(rich().as_shown(Options::new())), ["    a", "", "    b  ", "", "    c  "]);
    assert_eq!(lines(rich().as_shown(Options::new().pad())), ["    a    ", "", "    b  ", "", "    c  "]);
}

#[test]
fn colours_of_inline_styles() {
    let colours = |page: &str, config: Config<RichDecorator>| {
        let lines = config.as_shown(Options::new()).lines_from_read(page.as_bytes(), 80).unwrap();
        let tag = lines[0].tagged_strings().next().unwrap().tag.clone();
        tag
    };
    let red = RichAnnotation::Colour(Colour { r: 255, g: 0, b: 0 });
    let blue = RichAnnotation::BgColour(Colour { r: 0, g: 0, b: 255 });
    assert_eq!(colours("<p style='color: red; background-color: blue'>a", rich()), [red.clone(), blue]);
    // over every rule of a sheet, but an important one
    let sheet = "<style>p#i.a.b.c { color: green } p { color: green }</style>";
    assert_eq!(colours(&format!("{sheet}<p id=i class='a b c' style='color: red'>a"), rich().use_doc_css()), [red.clone()]);
    let important = "<style>p { color: lime !important }</style><p style='color: red'>a";
    assert_eq!(colours(important, rich().use_doc_css()), [RichAnnotation::Colour(Colour { r: 0, g: 255, b: 0 })]);
    assert_eq!(colours("<style>p { color: lime !important }</style><p style='color: red !important'>a", rich().use_doc_css()), [red]);
}

#[test]
fn sheets_are_asked_for() {
    let page = "<style>section { display: none }</style><section>a</section>b";
    assert_eq!(shown(page, plain(), 80), "a\nb\n");
    assert_eq!(shown(page, plain().use_doc_css(), 80), "b\n");
}

#[test]
fn titles() {
    let text = |page: &str| plain().as_shown(Options::new().title()).string_from_read(page.as_bytes(), 10).unwrap();
    assert_eq!(text("<title> The\n title that is </title><p>a"), "The title\nthat is\n\na\n");
    assert_eq!(text("<title> </title><p>a"), "a\n");
    assert_eq!(text("<svg><title>b</title></svg><p>a"), "[b]\n\na\n");
}

/// Checks that a page with one table is shown with a line under its heads, and its texts as with lines between all rows.
fn check_heads(page: &str) {
    let lines = |options: Options| -> Vec<String> {
        let text = plain().as_shown(options).whole_words().string_from_read(page.as_bytes(), 20).unwrap();
        text.lines().map(str::to_owned).collect()
    };
    let is_border = |line: &String| line.chars().all(|c| matches!(c, '\u{2500}' | '\u{252c}' | '\u{2534}' | '\u{253c}' | ' '));
    let (shown, ruled) = (lines(Options::new()), lines(Options::new().row_rules()));
    assert_eq!(shown.iter().filter(|line| line.contains('\u{253c}')).count(), 1, "{page}\n{shown:?}");
    assert!(shown.iter().filter(|line| !is_border(line)).eq(ruled.iter().filter(|line| !is_border(line))), "{page}\n{shown:?}\n{ruled:?}");
}

#[test]
fn marks_of_rows_change_no_text() {
    let heads = [
        "<sup>1</sup>", "<sup>[1]</sup>", "<sup>a</sup>", "<sup><b>1</b></sup>", "<sup>1<!-- a --></sup>", "<sup>1<b></b><img src=i></sup>",
        "<sup> 1</sup>", "<sup> [a]</sup>", "<a href='#n'>[1]</a>", "<sup><a href='#n'>[1]</a></sup>", "<s><sup>1</sup></s>", "[1]",
        "<s>a</s>", "<del><p>a</p></del>", "<b><p>a</p></b>", "<b> *a</b>", "<code>a</code>", "<q>a</q>", "a<b>b</b>", " a", "<p> a</p>",
        "<a href='https://x/'>https://x/</a>", "<a href='https://x/'><b>https:</b>//x/</a>", "<a href='https://x/'><sup>1</sup></a>",
        "<a href=y><b>z</b></a>", "<a href=y><img src=i> a</a>", "<img src=i alt=a>1", "<img src=i alt=' a'>", "<input value=v>a",
        "<button>a</button>", "<svg><text> a</text></svg>", "<ul><li>a</ul>", "<blockquote>a</blockquote>", "<pre> a\n b</pre>",
        "a word of eighteen characters", "e\u{301}", "a<b>\u{336}b</b>", "\u{336}a", "&shy;a", "&nbsp;", "<br>a",
    ];
    for head in heads {
        for (start, end) in [("", ""), ("<b>", "</b>"), ("<s>", "</s>"), ("<a href=z>", "</a>")] {
            check_heads(&format!("{start}<table border=1><tr><th>{head}<th>b<tr><td>c<td>d<tr><td>e<td>f</table>{end}"));
        }
    }
}

#[test]
fn heads_without_texts_have_a_line() {
    for head in ["<sup>1</sup>", "<img src=i alt=a>", "<input>", "<select><option>a</select>", "<q></q>", "<iframe src=y></iframe>", "<svg><title>a</title></svg>"] {
        check_heads(&format!("<table border=1><tr><th>{head}<th>{head}<tr><td>c<td>d<tr><td>e<td>f</table>"));
    }
}
