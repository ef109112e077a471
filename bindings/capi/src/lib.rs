//! The calls of `bindings/c/html_render.h` that render a page of HTML, for the shared library that `bindings/build` links.
//!
//! [`foreign`] exports them. It is the one module that deals with pointers.

#![deny(missing_docs, unsafe_op_in_unsafe_fn)]

mod choices;
pub mod foreign;
mod records;
mod status;
