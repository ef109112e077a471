//! Options of a page, as `html_render_options` of `html_render.h` has them, and what is rendered under them.

use crate::records;
use crate::status::Status;
use html_render::config::{plain, plain_no_decorate, rich, Config, ImageRenderMode};
use html_render::render::TextDecorator;
use html_render::{LinkMode, Options, Tables};

/// Flags: `html_render_page_flags` of `html_render.h`.
mod flag {
    pub const TITLE: u64 = 1;
    pub const PAGE_CSS: u64 = 2;
    pub const KEEP_CONTROLS: u64 = 4;
    pub const WRAP_LINKS: u64 = 8;
    pub const WRAP_CODE: u64 = 16;
    pub const ROW_RULES: u64 = 32;
    pub const RAW_TABLES: u64 = 64;
    pub const CUT_WORDS: u64 = 128;
    pub const NO_BORDERS: u64 = 256;
    pub const FENCE_TABLES: u64 = 512;
    pub const PAD: u64 = 1024;
    pub const NARROW: u64 = 2048;
    /// All flags that have a name.
    pub const ALL: u64 = 4095;
}

/// Signs and annotations of a text.
#[derive(Clone, Copy)]
enum Style {
    Plain,
    Rich,
    Bare,
}

/// Options of a page. Numbers that aren't in their enumerations are refused when a page is rendered.
#[derive(Clone, Copy, Default)]
pub struct Choices<'a> {
    /// Maximum columns of a paragraph's lines; 0 for no limit.
    pub max_width: usize,
    pub charset: Option<&'a str>,
    pub base: Option<&'a str>,
    /// The user's style sheet.
    pub css: &'a str,
    /// Text of images of the mode `HTML_RENDER_IMAGE_REPLACE`.
    pub image_title: &'a str,
    pub style: u32,
    pub links: u32,
    pub tables: u32,
    pub images: u32,
    pub flags: u64,
    /// Maximum number of nodes; 0 for the default.
    pub max_nodes: usize,
}

impl Choices<'_> {
    /// Returns the text of a page.
    pub fn text(&self, page: &[u8], width: usize) -> Result<String, Status> {
        Ok(match self.style()? {
            Style::Plain => self.configured(plain())?.string_from_read(page, width)?,
            Style::Rich => self.configured(rich())?.string_from_read(page, width)?,
            Style::Bare => self.configured(plain_no_decorate())?.string_from_read(page, width)?,
        })
    }

    /// Returns the lines of a page, as records.
    pub fn records(&self, page: &[u8], width: usize) -> Result<Vec<u8>, Status> {
        Ok(match self.style()? {
            Style::Plain => records::plain(&self.configured(plain())?.lines_from_read(page, width)?),
            Style::Rich => records::rich(&self.configured(rich())?.lines_from_read(page, width)?),
            Style::Bare => records::plain(&self.configured(plain_no_decorate())?.lines_from_read(page, width)?),
        })
    }

    fn has(&self, flag: u64) -> bool {
        self.flags & flag != 0
    }

    fn style(&self) -> Result<Style, Status> {
        match self.style {
            0 => Ok(Style::Plain),
            1 => Ok(Style::Rich),
            2 => Ok(Style::Bare),
            _ => Err(Status::BadArgument),
        }
    }

    /// Returns how targets of links are shown; `None` for the style's way.
    fn links(&self) -> Result<Option<LinkMode>, Status> {
        match self.links {
            0 => Ok(None),
            1 => Ok(Some(LinkMode::Notes)),
            2 => Ok(Some(LinkMode::Inline)),
            3 => Ok(Some(LinkMode::List)),
            4 => Ok(Some(LinkMode::None)),
            _ => Err(Status::BadArgument),
        }
    }

    fn tables(&self) -> Result<Tables, Status> {
        match self.tables {
            0 => Ok(Tables::Data),
            1 => Ok(Tables::All),
            2 => Ok(Tables::None),
            _ => Err(Status::BadArgument),
        }
    }

    fn images(&self) -> Result<ImageRenderMode<'_>, Status> {
        match self.images {
            0 => Ok(ImageRenderMode::IgnoreEmpty),
            1 => Ok(ImageRenderMode::ShowAlways),
            2 => Ok(ImageRenderMode::Replace(self.image_title)),
            3 => Ok(ImageRenderMode::Filename),
            _ => Err(Status::BadArgument),
        }
    }

    /// Returns how a page is read, and what is shown of it.
    fn options(&self) -> Result<Options, Status> {
        let mut options = Options::new().tables(self.tables()?).wrap_links(self.has(flag::WRAP_LINKS)).wrap_code(self.has(flag::WRAP_CODE));
        if let Some(links) = self.links()? {
            options = options.links(links);
        }
        if let Some(charset) = self.charset {
            options = options.charset(charset)?;
        }
        if let Some(base) = self.base {
            options = options.base(base)?;
        }
        if self.max_nodes != 0 {
            options = options.max_nodes(self.max_nodes);
        }
        if self.has(flag::TITLE) {
            options = options.title();
        }
        if self.has(flag::ROW_RULES) {
            options = options.row_rules();
        }
        Ok(if self.has(flag::PAD) { options.pad() } else { options })
    }

    /// Returns a configuration under these options.
    fn configured<D: TextDecorator>(&self, config: Config<D>) -> Result<Config<D>, Status> {
        if self.flags & !flag::ALL != 0 {
            return Err(Status::BadArgument);
        }
        let mut config = config.as_shown(self.options()?).empty_img_mode(self.images()?).add_css(self.css)?;
        if self.max_width > 0 {
            config = config.max_wrap_width(self.max_width);
        }
        let changes: [(u64, fn(Config<D>) -> Config<D>); 6] = [
            (flag::PAGE_CSS, Config::use_doc_css),
            (flag::KEEP_CONTROLS, Config::keep_controls),
            (flag::RAW_TABLES, |config| config.raw_mode(true)),
            (flag::NO_BORDERS, Config::no_table_borders),
            (flag::FENCE_TABLES, Config::fence_tables),
            (flag::PAD, Config::pad_block_width),
        ];
        for (flag, change) in changes {
            config = if self.has(flag) { change(config) } else { config };
        }
        config = if self.has(flag::CUT_WORDS) { config } else { config.whole_words() };
        Ok(if self.has(flag::NARROW) { config } else { config.allow_width_overflow() })
    }
}

#[cfg(test)]
mod tests {
    use super::*;

    #[test]
    fn numbers_without_a_meaning_are_refused() {
        let page = b"<p>a";
        let faulty = [
            Choices { style: 3, ..Choices::default() },
            Choices { links: 5, ..Choices::default() },
            Choices { tables: 3, ..Choices::default() },
            Choices { images: 4, ..Choices::default() },
            Choices { flags: flag::ALL + 1, ..Choices::default() },
        ];
        for choices in faulty {
            assert_eq!(choices.text(page, 9), Err(Status::BadArgument));
            assert_eq!(choices.records(page, 9), Err(Status::BadArgument));
        }
        let all = Choices { flags: flag::ALL, ..Choices::default() };
        assert_eq!(all.text(page, 3).as_deref(), Ok("a  \n"));
    }

    #[test]
    fn pages_of_many_nodes_are_refused() {
        let page = b"<p>a";
        for style in 0..3 {
            let limited = |max_nodes| Choices { style, max_nodes, ..Choices::default() };
            for max_nodes in [0, 6, usize::MAX] {
                assert_eq!(limited(max_nodes).text(page, 9).as_deref(), Ok("a\n"));
                assert!(limited(max_nodes).records(page, 9).is_ok());
            }
            for max_nodes in [1, 5] {
                assert_eq!(limited(max_nodes).text(page, 9), Err(Status::TooLarge));
                assert_eq!(limited(max_nodes).records(page, 9), Err(Status::TooLarge));
            }
        }
    }

    #[test]
    fn defaults_are_those_of_render() {
        let page = "<p>one <a href=b>two</a><table border=1><tr><td>three<td>four</table>";
        let text = Choices { charset: Some("utf-8"), ..Choices::default() }.text(page.as_bytes(), 30);
        assert_eq!(text, html_render::render(page, 30).map_err(Status::from));
    }
}
