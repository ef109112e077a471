//! html2text's plain text without signs and footnotes, which number links anew in each list item, heading and cell.

use html2text::render::text_renderer::{TaggedLine, TextDecorator};

pub struct Unsigned;

impl TextDecorator for Unsigned {
    type Annotation = ();

    fn decorate_link_start(&mut self, _url: &str) -> (String, ()) {
        ("[".to_owned(), ())
    }

    fn decorate_link_end(&mut self) -> String {
        "]".to_owned()
    }

    fn decorate_em_start(&mut self) -> (String, ()) {
        (String::new(), ())
    }

    fn decorate_em_end(&mut self) -> String {
        String::new()
    }

    fn decorate_strong_start(&mut self) -> (String, ()) {
        (String::new(), ())
    }

    fn decorate_strong_end(&mut self) -> String {
        String::new()
    }

    fn decorate_strikeout_start(&mut self) -> (String, ()) {
        (String::new(), ())
    }

    fn decorate_strikeout_end(&mut self) -> String {
        String::new()
    }

    fn decorate_code_start(&mut self) -> (String, ()) {
        (String::new(), ())
    }

    fn decorate_code_end(&mut self) -> String {
        String::new()
    }

    fn decorate_preformat_first(&mut self) {}

    fn decorate_preformat_cont(&mut self) {}

    fn decorate_image(&mut self, title: &str) -> (String, ()) {
        (format!("[{title}]"), ())
    }

    fn header_prefix(&mut self, level: usize) -> String {
        "#".repeat(level) + " "
    }

    fn quote_prefix(&mut self) -> String {
        "> ".to_owned()
    }

    fn unordered_item_prefix(&mut self) -> String {
        "* ".to_owned()
    }

    fn ordered_item_prefix(&mut self, i: i64) -> String {
        format!("{i}. ")
    }

    fn make_subblock_decorator(&self) -> Unsigned {
        Unsigned
    }

    fn finalise(self) -> Vec<TaggedLine<()>> {
        Vec::new()
    }
}
