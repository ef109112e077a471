//! Pages as the library is given them, and what becomes of the lines that it returns.

use crate::edits::Edits;
use crate::error::Error;
use crate::footnotes::Footnotes;
use crate::lines::{self, RichAnnotation, TaggedLine};
use crate::record::Recorder;
use crate::records::{self, Page, Setting};

/// A page that is recorded for a width.
pub(crate) struct Recorded {
    pub recorder: Recorder,
    pub settings: Vec<Setting>,
    /// Number of the decorator.
    pub decorator: u32,
    pub width: usize,
    pub edits: Edits,
    pub footnotes: Footnotes,
}

impl Recorded {
    /// Renders the page to a text. What is recorded is dropped as soon as it is rendered.
    ///
    /// # Errors
    ///
    /// `TooNarrow`, `Fail` or `OutOfMemory`, as the library says.
    pub fn text(self) -> Result<String, Error> {
        let given = records::text(self.page())?;
        drop(self.recorder);
        let mut text = self.edits.text(given.as_str())?;
        drop(given);
        self.footnotes.append_to(&mut text)?;
        Ok(text)
    }

    /// Renders the page to lines. What is recorded is dropped as soon as it is rendered.
    ///
    /// # Errors
    ///
    /// `TooNarrow`, `Fail` or `OutOfMemory`, as the library says.
    pub fn lines(self) -> Result<Vec<TaggedLine<Vec<RichAnnotation>>>, Error> {
        let given = records::lines(self.page())?;
        drop(self.recorder);
        let lines = lines::read(given.bytes()).ok_or(Error::Fail)?;
        drop(given);
        let mut lines = self.edits.lines(lines);
        if !self.edits.is_padded {
            lines.iter_mut().for_each(|line| line.trim_end(|tag| !tag.iter().any(shows_spaces)));
        }
        self.footnotes.append_to_lines(&mut lines);
        Ok(lines)
    }

    fn page(&self) -> Page<'_> {
        let Recorder { steps, text, .. } = &self.recorder;
        Page { steps, text, settings: &self.settings, decorator: self.decorator, width: self.width }
    }
}

/// Reports whether spaces under an annotation can be seen.
fn shows_spaces(annotation: &RichAnnotation) -> bool {
    matches!(annotation, RichAnnotation::BgColour(_) | RichAnnotation::Link(_) | RichAnnotation::Strikeout)
}
