//! The crate under html2text's names.

use html_render::config::{plain, plain_no_decorate, rich, ImageRenderMode};
use html_render::{from_read, from_read_rich, render, Colour, Error, RichAnnotation, TaggedLineElement};
use std::io::{self, Read};

#[test]
fn emphasis_and_links() {
    let html = "<p>A <em>wide</em> <b>world</b>, <a href='https://example.com/'>here</a></p>";
    assert_eq!(render(html, 80).unwrap(), "A *wide* **world**, here[1]\n\n[1]: https://example.com/\n");
    assert_eq!(plain_no_decorate().string_from_read(html.as_bytes(), 80).unwrap(), "A wide world, [here]\n");
}

#[test]
fn a_table_keeps_to_the_width() {
    let html = "<table><tr><td>To<td>Minutes<tr><td>Lighthouse Point<td>20</table>";
    let text = render(html, 20).unwrap();
    assert!(text.contains('│') && text.lines().all(|line| line.chars().count() <= 20), "{text}");
    let stacked = plain().raw_mode(true).string_from_read(html.as_bytes(), 20).unwrap();
    assert_eq!(stacked, "To\nMinutes\nLighthouse Point\n20\n");
}

#[test]
fn lines_have_annotations_and_marks() {
    let html = "<p id='top'>A <em>wide</em> world</p>";
    let lines = from_read_rich(html.as_bytes(), 80).unwrap();
    let strings: Vec<(&str, &[RichAnnotation])> = lines[0].tagged_strings().map(|string| (string.s.as_str(), string.tag.as_slice())).collect();
    assert_eq!(strings, [("A ", &[][..]), ("wide", &[RichAnnotation::Emphasis][..]), (" world", &[][..])]);
    assert_eq!(lines[0].iter().next(), Some(&TaggedLineElement::FragmentStart("top".to_owned())));
    let plain_lines = plain().lines_from_read(html.as_bytes(), 80).unwrap();
    assert_eq!(plain_lines[0].tagged_strings().map(|string| string.s.as_str()).collect::<String>(), "A *wide* world");
}

#[test]
fn style_sheets() {
    let html = "<style>p.ad { display: none } @media print { p { display: none } } h1, .x > b { color: red }</style><h1>Top</h1><p class='ad'>buy<p>text";
    assert_eq!(render(html, 80).unwrap(), "# Top\n\nbuy\n\ntext\n");
    assert_eq!(plain().use_doc_css().string_from_read(html.as_bytes(), 80).unwrap(), "# Top\n\ntext\n");
    let red = RichAnnotation::Colour(Colour { r: 255, g: 0, b: 0 });
    let lines = rich().use_doc_css().lines_from_read(html.as_bytes(), 80).unwrap();
    assert!(lines[0].tagged_strings().any(|string| string.s.contains("Top") && string.tag.contains(&red)));
    let with_user = plain().add_css("p#a::before { content: '> ' '>' } b { display: none !important }").unwrap();
    assert_eq!(with_user.string_from_read("<p id=a>x<b>y</b><p>z".as_bytes(), 80).unwrap(), "> >x\n\nz\n");
    let agent = plain().add_agent_css("i { display: none }").unwrap();
    assert_eq!(agent.string_from_read("a<i>b</i>c".as_bytes(), 80).unwrap(), "ac\n");
    assert!(matches!(plain().add_css("h1 color: red"), Err(Error::CssParseError)));
}

#[test]
fn settings() {
    let text = |html: &str, config: html_render::config::Config<html_render::render::PlainDecorator>, width| config.string_from_read(html.as_bytes(), width).unwrap();
    let image = "<img src='a/b.png' alt=''>";
    assert_eq!(text(image, plain(), 80), "");
    assert_eq!(text(image, plain().empty_img_mode(ImageRenderMode::Filename), 80), "[b.png]\n");
    assert_eq!(text(image, plain().empty_img_mode(ImageRenderMode::Replace("none")), 80), "[none]\n");
    assert_eq!(text(image, plain().empty_img_mode(ImageRenderMode::ShowAlways), 80), "[]\n");
    assert_eq!(text("<p>one two", plain().max_wrap_width(3), 80), "one\ntwo\n");
    assert_eq!(text("<p>one", plain().pad_block_width(), 6), "one   \n");
    assert_eq!(text("<s>one</s>", plain().unicode_strikeout(false), 80), "one\n");
    assert_eq!(text("<table><tr><td>a<td>b</table>", plain().no_table_borders(), 80), "a b\n");
    assert_eq!(text("<table><tr><td>a</table>", plain().no_table_borders().fence_tables(), 80), "```\na\n```\n");
    assert_eq!(text("<a href='xyz'>a</a>", plain().link_footnotes(false), 80), "[a]\n");
    assert_eq!(text("<a href='a-long-target'>a</a>", plain().no_link_wrapping(), 9), "[a][1]\n\n[1]: a-long-target\n");
    assert_eq!(text("<ul><li>one", plain().min_wrap_width(2), 5), "* one\n");
    assert_eq!(text("<p>\u{754c}", plain().allow_width_overflow(), 1), "\u{754c}\n");
}

#[test]
fn colours_of_a_terminal() {
    let html = "<p>A <em>wide</em> world";
    let text = rich().coloured(html.as_bytes(), 80, |tag, text| if tag.is_empty() { text.to_owned() } else { format!("<{text}>") });
    assert_eq!(text.unwrap(), "A <wide> world\n");
}

struct Broken;

impl Read for Broken {
    fn read(&mut self, _: &mut [u8]) -> io::Result<usize> {
        Err(io::Error::new(io::ErrorKind::Other, "broken"))
    }
}

#[test]
fn errors() {
    assert!(matches!(render("<p>text", 0), Err(Error::TooNarrow)));
    assert!(matches!(render("\u{754c}", 1), Err(Error::TooNarrow)));
    assert_eq!(from_read(Broken, 80).unwrap_err().to_string(), "broken");
}

#[test]
fn a_deep_page() {
    // html5ever itself looks up the way to the top at each `div`
    let html = "<div>".repeat(2_000) + "x";
    assert_eq!(render(&html, 80).unwrap(), "x\n");
}

#[test]
fn what_a_tree_builder_moves() {
    // a text that a table doesn't take goes before it, and unclosed elements are opened again
    assert_eq!(render("<table>a<tr><td>b</table>", 80).unwrap().lines().next(), Some("a"));
    assert_eq!(render("<p><b>a<p>b</b>c", 80).unwrap(), "**a**\n\nbc\n");
    assert_eq!(render("<template>a</template>b", 80).unwrap(), "b\n");
    assert_eq!(render("a\u{0}b\u{fffd}", 80).unwrap(), "ab\u{fffd}\n");
}
