//! Calls and what is seen of them, in words.

use crate::call::{Call, Left, Said, Seen};
use crate::value::Given;
use second::Fields;
use std::fmt::{self, Write};

/// What can go wrong beside an answer, by its bit in `watched.h`.
const FAULTS: [&str; 3] = [
    "octets changed outside the buffers",
    "octets changed that are only to be read",
    "the same call, made again with its buffers elsewhere, came to something else",
];

fn octets(given: &dyn Given) -> Vec<u8> {
    let mut octets = Vec::new();
    given.put(&mut octets);
    octets
}

/// A line for each session of a row that is not as it was.
fn changed(row: &[Fields], before: &[Fields]) -> String {
    let mut text = String::new();
    for (at, session) in row.iter().enumerate() {
        if *session != before[at] {
            writeln!(text, "           session {at}: {}", session.show()).unwrap();
        }
    }
    text
}

impl fmt::Display for Call {
    fn fmt(&self, out: &mut fmt::Formatter) -> fmt::Result {
        writeln!(out, "  call     {}", self.which.name())?;
        for (name, given) in self.given() {
            writeln!(out, "  {name:<8} {}", given.show())?;
        }
        Ok(())
    }
}

impl Seen {
    /// The lines that show this, with what the call began with left out where
    /// it was left alone.
    pub fn show(&self, who: &str, call: &Call) -> String {
        let mut text = format!("  {who:<8} {}\n", self.said.show());
        if let Said::Lost(_) = self.said {
            return text;
        }
        let found = Left::as_found(call);
        for ((name, left), (_, before)) in self.left.by_name().iter().zip(found.by_name()) {
            let as_found = octets(*left) == octets(before);
            match *name {
                _ if !before.is_there() || !call.takes(name) => {}
                _ if as_found => writeln!(text, "           {name:<6} as found").unwrap(),
                "row" => text.push_str(&changed(&self.left.row, &call.row)),
                _ => writeln!(text, "           {name:<6} {}", left.show()).unwrap(),
            }
        }
        for (bit, fault) in FAULTS.iter().enumerate() {
            if self.faults >> bit & 1 == 1 {
                writeln!(text, "           {fault}").unwrap();
            }
        }
        text
    }
}
