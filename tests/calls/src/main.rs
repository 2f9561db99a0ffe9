//! Prints the C header that `calls.txt` describes.

fn main() {
    print!("{}", calls::c_header());
}
