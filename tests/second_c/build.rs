//! Makes the C names of what `tests/calls` describes.

use std::path::Path;

fn main() {
    let out = std::env::var("OUT_DIR").expect("cargo sets it");
    std::fs::write(Path::new(&out).join("calls.rs"), calls::for_second_c()).expect("it is ours");
}
