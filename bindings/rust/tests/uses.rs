//! Uses of html2text's public names, as programs over html2text 0.17.4 have them. `docs/DIFFERENCES.md` has a row for each that doesn't
//! compile here.

use html_render as html2text;

use html2text::config::{self, Config, ImageRenderMode};
use html2text::render::{PlainDecorator, RichAnnotation, RichDecorator, TaggedLine, TaggedLineElement, TaggedString, TextDecorator};
use html2text::{from_read, from_read_coloured, from_read_rich, from_read_with_decorator, parse, Colour, Error, RcDom, RenderTree};

const DOCUMENT: &str = include_str!("../../../docs/DIFFERENCES.md");

/// The uses that don't compile, each under the name that the document has for it.
const LEFT_OUT: [&str; 4] = [
    "`impl TextDecorator for ..`, `TrivialDecorator`",
    "`parse_xml`, `xml_mode`, `XmlMode`",
    "`register_highlighter`, `SyntaxHighlighter`, `TextStyle`",
    "`RcDom::document`, `as_dom_string`, `get_node_by_path`, `Handle`, `dom_to_parsed_style`, the display of a `RenderTree`",
];

/// The number of uses here and in the document.
const USES: usize = 22;

const PAGE: &[u8] = b"<h1>Ferries</h1><p id=fares>See <a href='/fares'>the <em>fares</em></a>";

#[test]
fn use_of_from_read() {
    let html = b"<ul><li>Item one</li><li>Item two</li></ul>";
    assert_eq!(from_read(&html[..], 20).unwrap(), "* Item one\n* Item two\n");
}

#[test]
fn use_of_from_read_rich() {
    let lines: Vec<TaggedLine<Vec<RichAnnotation>>> = from_read_rich(PAGE, 80).unwrap();
    assert_eq!(lines.len(), 3);
}

#[test]
fn use_of_from_read_coloured() {
    fn colours(annotations: &[RichAnnotation], text: &str) -> String {
        annotations.iter().fold(text.to_owned(), |text, annotation| match annotation {
            RichAnnotation::Link(_) => format!("_{text}_"),
            _ => text,
        })
    }
    assert_eq!(from_read_coloured("<a href='/'>home</a>".as_bytes(), 80, colours).unwrap(), "_home_\n");
}

#[test]
fn use_of_from_read_with_decorator() {
    assert_eq!(from_read_with_decorator(PAGE, 80, RichDecorator::new()).unwrap(), "# Ferries\n\nSee the fares\n");
}

#[test]
fn use_of_parse() {
    let tree: RenderTree = parse(PAGE).unwrap();
    assert_eq!(config::plain_no_decorate().render_to_string(tree, 80).unwrap(), "# Ferries\n\nSee [the fares]\n");
}

#[test]
fn use_of_plain_configurations() {
    assert_eq!(config::plain().string_from_read(PAGE, 80).unwrap(), "# Ferries\n\nSee [the *fares*][1]\n\n[1]: /fares\n");
    assert_eq!(config::plain_no_decorate().string_from_read(PAGE, 80).unwrap(), "# Ferries\n\nSee [the fares]\n");
}

#[test]
fn use_of_rich_lines() {
    let lines = config::rich().lines_from_read(PAGE, 80).unwrap();
    let last = lines.last().unwrap().tagged_strings().last().unwrap();
    assert_eq!(last.tag, [RichAnnotation::Link("/fares".to_owned()), RichAnnotation::Emphasis]);
}

#[test]
fn use_of_with_decorator() {
    fn configured<D: TextDecorator>(decorator: D) -> Config<D> {
        config::with_decorator(decorator).max_wrap_width(5)
    }
    assert_eq!(configured(PlainDecorator::new()).string_from_read("<p>one two".as_bytes(), 80).unwrap(), "one\ntwo\n");
}

#[test]
fn use_of_each_stage() {
    let config = config::plain();
    let dom: RcDom = config.parse_html(PAGE).unwrap();
    let tree = config.dom_to_render_tree(&dom).unwrap();
    assert_eq!(config.render_to_string(tree, 80).unwrap(), config.string_from_read(PAGE, 80).unwrap());
}

#[test]
fn use_of_a_tree_that_is_rendered_twice() {
    struct Viewer {
        config: Config<RichDecorator>,
        tree: RenderTree,
    }

    impl Viewer {
        fn resized(&self, width: usize) -> usize {
            self.config.render_to_lines(self.tree.clone(), width).unwrap().len()
        }
    }

    let config = config::rich();
    let tree = config.dom_to_render_tree(&config.parse_html(PAGE).unwrap()).unwrap();
    let viewer = Viewer { config, tree };
    assert_eq!([80, 9, 80].map(|width| viewer.resized(width)), [3, 4, 3]);
}

#[test]
fn use_of_colours_in_text() {
    let config = config::rich();
    let stars = |annotations: &[RichAnnotation], text: &str| format!("{}{text}", "*".repeat(annotations.len()));
    let tree = parse("a <b>b</b>".as_bytes()).unwrap();
    assert_eq!(config.render_coloured(tree, 80, stars).unwrap(), "a *b\n");
    assert_eq!(config.coloured("a <b>b</b>".as_bytes(), 80, stars).unwrap(), "a *b\n");
}

#[test]
fn use_of_elements_of_lines() {
    let mut fragments = Vec::new();
    for (number, line) in from_read_rich(PAGE, 80).unwrap().iter().enumerate() {
        for element in line.iter() {
            match element {
                TaggedLineElement::Str(TaggedString { s, tag: _ }) => assert!(!s.is_empty()),
                TaggedLineElement::FragmentStart(name) => fragments.push((number, name.clone())),
            }
        }
    }
    assert_eq!(fragments, [(2, "fares".to_owned())]);
}

#[test]
fn use_of_widths_of_lines() {
    let lines = from_read_rich(PAGE, 80).unwrap();
    assert_eq!(lines.iter().map(TaggedLine::width).collect::<Vec<_>>(), [9, 0, 13]);
}

#[test]
fn use_of_strings_that_are_moved() {
    let lines = from_read_rich(PAGE, 80).unwrap();
    let strings: Vec<TaggedString<Vec<RichAnnotation>>> = lines.into_iter().flat_map(TaggedLine::into_tagged_strings).collect();
    assert_eq!(strings.iter().map(|string| string.s.as_str()).collect::<Vec<_>>(), ["# Ferries", "See ", "the ", "fares"]);
}

#[test]
fn use_of_settings() {
    let config = config::plain().allow_width_overflow().raw_mode(false).no_table_borders().fence_tables().no_link_wrapping().unicode_strikeout(true);
    let config = config.pad_block_width().max_wrap_width(8).min_wrap_width(3).link_footnotes(false);
    assert_eq!(config.string_from_read("<p>one two three".as_bytes(), 9).unwrap(), "one two  \nthree    \n");
}

#[test]
fn use_of_style_sheets() {
    let config = config::plain().use_doc_css().add_css("em { display: none }").unwrap().add_agent_css("h1 { display: none }").unwrap();
    assert_eq!(config.link_footnotes(false).string_from_read(PAGE, 80).unwrap(), "See [the ]\n");
}

#[test]
fn use_of_modes_of_images() {
    const CAT: ImageRenderMode = ImageRenderMode::Replace("\u{1f408}");
    assert_eq!(config::plain().empty_img_mode(CAT).string_from_read("<img src='cat.png'>".as_bytes(), 80).unwrap(), "[\u{1f408}]\n");
}

#[test]
fn use_of_errors_and_colours() {
    assert_eq!(from_read(PAGE, 0), Err(Error::TooNarrow));
    let page = "<p style='color: #aa0000'>text".as_bytes();
    let shown = config::rich().as_shown(html2text::Options::new()).coloured(page, 80, |annotations, text| match annotations {
        [RichAnnotation::Colour(colour @ Colour { r: 170, .. })] => format!("{colour} {text}"),
        _ => text.to_owned(),
    });
    assert_eq!(shown.unwrap(), "#aa0000 text\n");
}

#[test]
fn others_are_in_the_document() {
    let section = DOCUMENT.split("\n## ").find(|part| part.starts_with("The Rust crate")).unwrap();
    let (left_out, _) = section.split_once("\nWhat differs").unwrap();
    let rows: Vec<&str> = left_out.lines().filter_map(|line| line.strip_prefix("| ")?.split(" | ").next()).collect();
    assert_eq!(rows[1..], LEFT_OUT);
    let compiled = include_str!("uses.rs").matches("\nfn use_of_").count();
    assert_eq!(compiled + LEFT_OUT.len(), USES);
}
