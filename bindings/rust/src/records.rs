//! The records that the library takes, and the calls that render them. All that is unsafe stands here.

use crate::error::Error;
use std::ffi::c_void;
use std::os::raw::c_int;
use std::ptr;

/// A call on a document: `Step` of the library.
#[repr(C)]
#[derive(Clone, Copy, Debug, Default, PartialEq, Eq)]
pub(crate) struct Step {
    pub kind: u32,
    pub flags: u32,
    pub node: u32,
    pub other: u32,
    pub child: u32,
    pub name: u32,
    pub name_length: u32,
    pub value: u32,
    pub value_length: u32,
}

/// A call of a configuration: `Setting` of the library.
#[repr(C)]
#[derive(Clone, Copy, Debug, Default)]
pub(crate) struct Setting {
    pub kind: u32,
    pub number: u32,
    pub value: u32,
    pub flags: u32,
    pub text: u32,
    pub text_length: u32,
    pub element: u32,
    pub element_length: u32,
    pub id: u32,
    pub id_length: u32,
    pub classes: u32,
    pub classes_length: u32,
}

impl Setting {
    /// The same, of texts so far behind where they were.
    pub fn moved(self, behind: u32) -> Setting {
        Setting {
            text: self.text + behind,
            element: self.element + behind,
            id: self.id + behind,
            classes: self.classes + behind,
            ..self
        }
    }
}

/// What a document is rendered from.
#[derive(Clone, Copy)]
pub(crate) struct Page<'a> {
    pub steps: &'a [Step],
    pub text: &'a [u8],
    pub settings: &'a [Setting],
    pub decorator: u32,
    pub width: usize,
}

type Render = unsafe extern "C" fn(
    *const Step,
    usize,
    *const u8,
    usize,
    *const Setting,
    usize,
    u32,
    usize,
    &mut *mut u8,
    &mut usize,
) -> u32;

extern "C" {
    fn html_render_text(
        steps: *const Step,
        step_count: usize,
        text: *const u8,
        length: usize,
        settings: *const Setting,
        setting_count: usize,
        decorator: u32,
        width: usize,
        out: &mut *mut u8,
        out_length: &mut usize,
    ) -> u32;
    fn html_render_lines(
        steps: *const Step,
        step_count: usize,
        text: *const u8,
        length: usize,
        settings: *const Setting,
        setting_count: usize,
        decorator: u32,
        width: usize,
        out: &mut *mut u8,
        out_length: &mut usize,
    ) -> u32;
    fn html_render_free(given: *mut c_void);
}

/// Bytes that the library gave.
pub(crate) struct Given {
    start: *mut u8,
    length: usize,
}

impl Given {
    /// Returns the bytes.
    pub fn bytes(&self) -> &[u8] {
        // SAFETY: where a call answers 0, these are the start and the length of what it gave, which nothing else refers to
        unsafe { std::slice::from_raw_parts(self.start, self.length) }
    }

    /// Returns the bytes as a text.
    ///
    /// # Safety
    ///
    /// The bytes are UTF-8.
    unsafe fn text(&self) -> &str {
        debug_assert!(std::str::from_utf8(self.bytes()).is_ok(), "the library gave a text that isn't UTF-8");
        std::str::from_utf8_unchecked(self.bytes())
    }
}

/// A text that the library gave.
pub(crate) struct GivenText(Given);

impl GivenText {
    /// Returns the text.
    pub fn as_str(&self) -> &str {
        // SAFETY: they are the bytes of a text, as the library's contract says
        unsafe { self.0.text() }
    }
}

impl Drop for Given {
    fn drop(&mut self) {
        // SAFETY: the library gave this block, and it is freed here alone
        unsafe { html_render_free(self.start.cast()) }
    }
}

fn rendered(by: Render, page: Page<'_>) -> Result<Given, Error> {
    let (mut start, mut length) = (ptr::null_mut(), 0);
    // SAFETY: the pointers and lengths are those of slices; the library tests all numbers that stand in these
    let status = unsafe {
        by(
            page.steps.as_ptr(),
            page.steps.len(),
            page.text.as_ptr(),
            page.text.len(),
            page.settings.as_ptr(),
            page.settings.len(),
            page.decorator,
            page.width,
            &mut start,
            &mut length,
        )
    };
    match status {
        0 => Ok(Given { start, length }),
        1 => Err(Error::TooNarrow),
        3 => Err(Error::OutOfMemory),
        _ => Err(Error::Fail),
    }
}

/// Has glibc's allocator give each block of 128 KiB and more back to the system when it is freed, as it begins to, for the whole
/// process; without this the first such block that is freed makes it keep those that follow. It can save a program that renders and
/// ends a seventh of its memory. Under another C library it does nothing.
pub fn give_back_large_blocks() {
    #[cfg(target_env = "gnu")]
    {
        extern "C" {
            fn mallopt(parameter: c_int, value: c_int) -> c_int;
        }
        const M_MMAP_THRESHOLD: c_int = -3;
        // SAFETY: mallopt takes two numbers, and refuses those that it doesn't know
        unsafe { mallopt(M_MMAP_THRESHOLD, 128 * 1024) };
    }
}

/// Renders a page to a text.
pub(crate) fn text(page: Page<'_>) -> Result<GivenText, Error> {
    rendered(html_render_text, page).map(GivenText)
}

/// Renders a page to records of its lines.
pub(crate) fn lines(page: Page<'_>) -> Result<Given, Error> {
    rendered(html_render_lines, page)
}

#[cfg(test)]
mod tests {
    use super::*;
    use crate::characters::Filter;
    use crate::record::{Recorder, HTML};
    use html5ever::local_name;

    #[test]
    #[should_panic(expected = "the library gave a text that isn't UTF-8")]
    fn texts_of_the_library_are_checked_in_tests() {
        let mut recorder = Recorder::new(Vec::new(), Filter::default());
        let block = recorder.element(0, HTML, &local_name!("p"));
        let piece = recorder.keep("\u{e9}");
        recorder.text(block, piece);
        let page = Page { steps: &recorder.steps, text: &recorder.text, settings: &[], decorator: 0, width: 80 };
        let mut given = rendered(html_render_text, page).unwrap();
        given.length = 1;
        // SAFETY: the assertion panics before the text is made
        unsafe { given.text() };
    }
}
