//! One call with all that it is given, and all that can be seen of it. What
//! calls there are is said in `tests/calls/calls.txt`.

use crate::side::{Lost, Side};
use crate::value::{Given, Value, Way};
use second::{Answer, Fields, Totals};
use std::panic::{self, AssertUnwindSafe};
use std::sync::atomic::{AtomicBool, Ordering};

include!(concat!(env!("OUT_DIR"), "/calls.rs"));

/// Everything that can be seen of a call.
#[derive(Clone, Debug, PartialEq, Eq)]
pub struct Seen {
    pub said: Said,
    pub left: Left,
    /// What went wrong beside the answer: bits of `show::FAULTS`.
    pub faults: u8,
}

impl Seen {
    /// The totals after an event of a row.
    pub fn totals(&self) -> Totals {
        match &self.said {
            Said::RowAnswer(after) => after.totals,
            _ => self.left.kept,
        }
    }
}

impl Said {
    /// What an event answers.
    pub fn answer(&self) -> Option<&Answer> {
        match self {
            Said::Answer(answer) => Some(answer),
            Said::RowAnswer(after) => Some(&after.answer),
            Said::Wished(wished) => Some(&wished.answer),
            _ => None,
        }
    }
}

static ASKING_SECOND: AtomicBool = AtomicBool::new(false);

/// Keeps panics of the second implementation quiet: they are caught and shown
/// as a difference, and the same one comes many times while a call shrinks.
pub fn quieten_second() {
    let usual = panic::take_hook();
    panic::set_hook(Box::new(move |info| {
        if !ASKING_SECOND.load(Ordering::Relaxed) {
            usual(info);
        }
    }));
}

/// Where a number is narrower, it is outside the row all the same.
fn size(number: u64) -> usize {
    usize::try_from(number).unwrap_or(usize::MAX)
}

/// The events of a row that have names, by their numbers.
pub const ROW_EVENTS: [Which; 6] = [
    Which::RowInitialization,
    Which::RowCapability,
    Which::RowLocalChange,
    Which::RowMismatch,
    Which::RowHello,
    Which::RowClosed,
];

impl Call {
    /// A call on a record, or on the room for one.
    pub fn on_record(which: Which, record: Vec<u8>) -> Call {
        Call {
            record,
            ..Call::new(which)
        }
    }

    pub fn on_row(which: Which, row: Vec<Fields>) -> Call {
        Call {
            row,
            ..Call::new(which)
        }
    }

    /// Is it given something of this name?
    pub fn takes(&self, name: &str) -> bool {
        self.given().iter().any(|(given, _)| *given == name)
    }

    /// The number of the event, if this is one of a row.
    pub fn row_event(&self) -> Option<u32> {
        match self.which {
            Which::RowEvent => Some(self.event.which),
            _ => {
                let number = ROW_EVENTS.iter().position(|&which| which == self.which);
                number.map(|number| number as u32)
            }
        }
    }

    /// The totals that an event of a row is given, by value or where they stand.
    pub fn given_totals(&self) -> Totals {
        match self.which {
            Which::RowEvent => self.totals,
            _ => self.kept,
        }
    }

    /// The same event with these totals.
    pub fn with_totals(mut self, totals: Totals) -> Call {
        match self.which {
            Which::RowEvent => self.totals = totals,
            _ => self.kept = totals,
        }
        self
    }

    /// About how many octets are sent.
    pub fn octets(&self) -> usize {
        self.given().iter().map(|(_, given)| given.length()).sum()
    }

    /// Asks the second implementation. If it should break off, that too is
    /// something to see.
    pub fn ask_second(&self) -> Seen {
        let mut left = Left::as_found(self);
        ASKING_SECOND.store(true, Ordering::Relaxed);
        let said = panic::catch_unwind(AssertUnwindSafe(|| self.second_says(&mut left)));
        ASKING_SECOND.store(false, Ordering::Relaxed);
        Seen {
            said: said.unwrap_or(Said::Panicked),
            left,
            faults: 0,
        }
    }

    /// Does this one differ from the second implementation in anything?
    pub fn differs(&self, side: &mut Side) -> bool {
        self.ask_second() != side.ask(self)
    }
}
