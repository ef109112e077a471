//! Links the library that `bindings/build` makes.

use std::env;
use std::path::PathBuf;

fn main() {
    let folder = env::var_os("HTML_RENDER_LIB").map(PathBuf::from);
    let folder = folder.unwrap_or_else(|| PathBuf::from(env::var_os("CARGO_MANIFEST_DIR").unwrap()).join("../out"));
    println!("cargo:rustc-link-search=native={}", folder.display());
    println!("cargo:rustc-link-lib=static=html_render");
    println!("cargo:rerun-if-changed={}", folder.join("libhtml_render.a").display());
    println!("cargo:rerun-if-env-changed=HTML_RENDER_LIB");
}
