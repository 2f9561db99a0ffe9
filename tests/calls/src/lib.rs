//! What `calls.txt` describes, as C and as Rust.

mod c;
mod compare;
mod second_c;
mod table;

use table::Table;

const TEXT: &str = include_str!("../calls.txt");

/// The header `calls.h`, for `compare`, `fuzz`, `bench` and `mutants`.
pub fn c_header() -> String {
    c::header(&Table::read(TEXT))
}

/// The calls of `compare`.
pub fn for_compare() -> String {
    compare::module(&Table::read(TEXT))
}

/// The second program's C names.
pub fn for_second_c() -> String {
    second_c::functions(&Table::read(TEXT))
}
