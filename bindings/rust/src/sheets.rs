//! Rules of style sheets and signs around emphasis: settings over one text.

use crate::characters::Filter;
use crate::css::{self, Origin};
use crate::records::Setting;
use crate::tree::Piece;

/// The settings by which the elements of a page are styled.
#[derive(Clone, Debug, Default)]
pub(crate) struct Sheets {
    pub settings: Vec<Setting>,
    pub text: String,
    /// Number of classes of the rule that has most.
    pub most_classes: usize,
    /// Whether a rule selects by the name of a part of a table.
    pub names_parts: bool,
}

impl Sheets {
    /// Adds the rules of a style sheet, whose texts go through a filter. Returns whether each rule has a block.
    pub fn add(&mut self, css: &str, origin: Origin, filter: Filter) -> bool {
        let texts = &mut self.text;
        let sheet = css::read(css, origin, filter, &mut self.settings, |text| keep(texts, text));
        self.most_classes = self.most_classes.max(sheet.most_classes);
        self.names_parts |= sheet.names_parts;
        sheet.is_well
    }
}

/// Appends a text to others. Returns where it starts, and its length.
pub(crate) fn keep(texts: &mut String, text: &str) -> Piece {
    let start = texts.len() as u32;
    texts.push_str(text);
    (start, text.len() as u32)
}
