//! The exported calls, which `html_render.h` describes. All unsafe code of this crate is here.

use crate::choices::Choices;
use crate::status::Status;
use std::ffi::{c_void, CStr};
use std::mem::{size_of, MaybeUninit};
use std::os::raw::{c_char, c_int};
use std::panic::{catch_unwind, AssertUnwindSafe};
use std::{ptr, slice};

extern "C" {
    fn malloc(size: usize) -> *mut c_void;
}

/// Options of a page: `struct html_render_options`.
#[repr(C)]
#[derive(Clone, Copy)]
pub struct Options {
    size: usize,
    max_width: usize,
    charset: *const c_char,
    base: *const c_char,
    css: *const c_char,
    image_title: *const c_char,
    style: u32,
    links: u32,
    tables: u32,
    images: u32,
    flags: u64,
    max_nodes: usize,
}

impl Options {
    /// Size of the options that this version knows, in bytes.
    const SIZE: usize = size_of::<Options>();
    /// Size of the options of the first version, in bytes, which end with `flags`.
    const FIRST_SIZE: usize = Options::SIZE - size_of::<usize>();
    /// Maximum size of the options of later versions, in bytes.
    const MAX_SIZE: usize = 4096;

    /// Returns the options of a caller, in which fields that the caller's version doesn't have are 0; `None` for NULL.
    ///
    /// # Safety
    ///
    /// A pointer that isn't NULL leads to as many bytes as the number says that it leads to.
    unsafe fn read(given: *const Options) -> Result<Option<Options>, Status> {
        if given.is_null() {
            return Ok(None);
        }
        // SAFETY: the size is the first field of the options of every version
        let size = unsafe { given.cast::<usize>().read() };
        if size != Options::FIRST_SIZE && !(Options::SIZE..=Options::MAX_SIZE).contains(&size) {
            return Err(Status::BadArgument);
        }
        // SAFETY: the options have `size` bytes
        let bytes = unsafe { slice::from_raw_parts(given.cast::<u8>(), size) };
        let (known, unknown) = bytes.split_at(size.min(Options::SIZE));
        if unknown.iter().any(|byte| *byte != 0) {
            return Err(Status::BadArgument);
        }
        let mut options = MaybeUninit::<Options>::zeroed();
        // SAFETY: there is room for the bytes, which are fields that any bits are values of, and so are zeros
        let options = unsafe {
            ptr::copy_nonoverlapping(known.as_ptr(), options.as_mut_ptr().cast::<u8>(), known.len());
            options.assume_init()
        };
        Ok(Some(options))
    }

    /// Returns what the options say.
    ///
    /// # Safety
    ///
    /// Texts that aren't NULL end with a zero byte.
    unsafe fn choices<'a>(self) -> Result<Choices<'a>, Status> {
        // SAFETY: so the caller ensures
        let text = |start, fault| unsafe { text_at(start, fault) };
        Ok(Choices {
            max_width: self.max_width,
            charset: text(self.charset, Status::BadCharset)?,
            base: text(self.base, Status::BadBase)?,
            css: text(self.css, Status::BadCss)?.unwrap_or(""),
            image_title: text(self.image_title, Status::BadArgument)?.unwrap_or(""),
            style: self.style,
            links: self.links,
            tables: self.tables,
            images: self.images,
            flags: self.flags,
            max_nodes: self.max_nodes,
        })
    }
}

/// Returns the text at a pointer; `None` for NULL, and `fault` if it isn't UTF-8.
///
/// # Safety
///
/// A text that isn't NULL ends with a zero byte.
unsafe fn text_at<'a>(start: *const c_char, fault: Status) -> Result<Option<&'a str>, Status> {
    if start.is_null() {
        return Ok(None);
    }
    // SAFETY: so the caller ensures
    unsafe { CStr::from_ptr(start) }.to_str().map(Some).map_err(|_| fault)
}

/// Arguments of a call that say what is rendered.
struct Arguments {
    html: *const c_char,
    length: usize,
    width: usize,
    options: *const Options,
}

impl Arguments {
    /// Renders by a function of the options, the page and the width.
    ///
    /// # Safety
    ///
    /// The pointers are as `html_render_html` requires.
    unsafe fn rendered<T>(self, render: impl FnOnce(&Choices, &[u8], usize) -> Result<T, Status>) -> Result<T, Status> {
        if self.html.is_null() && self.length > 0 || self.length > isize::MAX as usize {
            return Err(Status::BadArgument);
        }
        let page = if self.length == 0 {
            &[]
        } else {
            // SAFETY: the pointer leads to bytes of this number, as the caller ensures
            unsafe { slice::from_raw_parts(self.html.cast::<u8>(), self.length) }
        };
        // SAFETY: so the caller ensures
        let choices = match unsafe { Options::read(self.options)? } {
            // SAFETY: so the caller ensures
            Some(options) => unsafe { options.choices()? },
            None => Choices::default(),
        };
        render(&choices, page, self.width)
    }
}

/// Where a call puts what it renders.
struct Output {
    start: *mut *mut c_char,
    length: *mut usize,
}

impl Output {
    /// Renders by a function, and gives the bytes to the caller. A panic is a status.
    ///
    /// # Safety
    ///
    /// The pointers lead to places that can be written, or are NULL.
    unsafe fn give<B: AsRef<[u8]>>(self, render: impl FnOnce() -> Result<B, Status>) -> c_int {
        if self.start.is_null() || self.length.is_null() {
            return Status::BadArgument as c_int;
        }
        let given = guarded(|| render().and_then(|bytes| allocated(bytes.as_ref())));
        let (start, length) = given.unwrap_or((ptr::null_mut(), 0));
        // SAFETY: so the caller ensures
        unsafe {
            self.start.write(start);
            self.length.write(length);
        }
        given.map_or_else(|status| status as c_int, |_| 0)
    }
}

/// Calls a function. A panic of it is a status.
fn guarded<T>(call: impl FnOnce() -> Result<T, Status>) -> Result<T, Status> {
    catch_unwind(AssertUnwindSafe(call)).unwrap_or(Err(Status::InternalFault))
}

/// Copies bytes, and a zero byte after them, into memory of `malloc`. Returns its start, and the length without the zero.
fn allocated(bytes: &[u8]) -> Result<(*mut c_char, usize), Status> {
    // SAFETY: malloc can be called with any size
    let start = unsafe { malloc(bytes.len() + 1) }.cast::<u8>();
    if start.is_null() {
        return Err(Status::OutOfMemory);
    }
    // SAFETY: the memory has room for the bytes and the zero, and nothing else refers to it
    unsafe {
        ptr::copy_nonoverlapping(bytes.as_ptr(), start, bytes.len());
        start.add(bytes.len()).write(0);
    }
    Ok((start.cast(), bytes.len()))
}

/// Renders a page as a text.
///
/// # Safety
///
/// The pointers are as `html_render.h` says.
#[no_mangle]
pub unsafe extern "C" fn html_render_html(
    html: *const c_char,
    length: usize,
    width: usize,
    options: *const Options,
    text: *mut *mut c_char,
    text_length: *mut usize,
) -> c_int {
    let arguments = Arguments { html, length, width, options };
    let output = Output { start: text, length: text_length };
    // SAFETY: so the caller ensures
    unsafe { output.give(|| arguments.rendered(|choices, page, width| choices.text(page, width))) }
}

/// Renders a page as the records of its lines.
///
/// # Safety
///
/// The pointers are as `html_render.h` says.
#[no_mangle]
pub unsafe extern "C" fn html_render_html_lines(
    html: *const c_char,
    length: usize,
    width: usize,
    options: *const Options,
    records: *mut *mut c_char,
    records_length: *mut usize,
) -> c_int {
    let arguments = Arguments { html, length, width, options };
    let output = Output { start: records, length: records_length };
    // SAFETY: so the caller ensures
    unsafe { output.give(|| arguments.rendered(|choices, page, width| choices.records(page, width))) }
}

#[cfg(test)]
mod tests {
    use super::*;

    #[test]
    fn a_panic_is_a_status() {
        assert_eq!(guarded::<()>(|| panic!("as a test")), Err(Status::InternalFault));
        let (mut start, mut length) = (ptr::null_mut(), 1);
        let output = Output { start: &mut start, length: &mut length };
        // SAFETY: both places can be written
        let status = unsafe { output.give(|| -> Result<Vec<u8>, Status> { panic!("as a test") }) };
        assert_eq!((status, start.is_null(), length), (Status::InternalFault as c_int, true, 0));
    }
}
