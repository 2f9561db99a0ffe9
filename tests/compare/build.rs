//! Makes the calls of what `tests/calls` describes.

use std::path::Path;

fn main() {
    let out = std::env::var("OUT_DIR").expect("cargo sets it");
    std::fs::write(Path::new(&out).join("calls.rs"), calls::for_compare()).expect("it is ours");
}
