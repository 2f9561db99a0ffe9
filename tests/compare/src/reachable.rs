//! What the rules make reachable, for the closing table.

use crate::call::{Which, ROW_EVENTS};
use crate::tally::Place::{self, Gone, Held, Open, Outside, Ready, Unsound};
use crate::tally::What::{self, Note, Outcome, Refusal};
use crate::tally::{Item, STATES};
use crate::{capabilities, moves, notes, totals};
use std::collections::BTreeSet;

/// The names of events that are told by their numbers.
pub const BY_NUMBER: [&str; 6] = [
    "row_event 0",
    "row_event 1",
    "row_event 2",
    "row_event 3",
    "row_event 4",
    "row_event 5",
];
pub const NO_EVENT: &str = "row_event other";

/// Adds an item.
type Add<'a> = dyn FnMut(&'static str, Place, What) + 'a;

/// Everything that the rules make reachable, and nothing else.
pub fn reachable() -> BTreeSet<Item> {
    let mut items = BTreeSet::new();
    let mut add = |name, before, what| {
        items.insert((name, before, what));
    };

    for refusal in [0, 1, 2, 3, 4, 5] {
        add("read", Place::None, Refusal(refusal));
    }
    for note in ["TAC read", "SAC read", "Dynamic read"] {
        add("read", Place::None, Note(note));
    }
    for refusal in [0, 6, 10] {
        add("create", Place::None, Refusal(refusal));
    }
    events(
        &mut add,
        [
            "initialization",
            "capability",
            "local_change",
            "mismatch",
            "hello",
            "closed",
        ],
    );
    add("permitted", Unsound, Refusal(10));
    for state in STATES {
        add("permitted", state, Refusal(6));
        add("permitted", state, Note("not permitted"));
        add("sound", state, Note("sound"));
    }
    add("permitted", Open, Note("permitted"));
    reasons(&mut add);
    add("sound", Unsound, Note("not sound"));
    kinds_and_retry(&mut add, "permitted_kinds", "retry_interval");
    rows_and_limits(&mut add);
    wishes(&mut add);
    for note in notes::OF_LISTS {
        add("long list", Place::None, Note(note));
    }
    for (table, note) in capabilities::all() {
        add(table, Place::None, Note(note));
    }
    moved(&mut add);
    items
}

fn reasons(add: &mut Add) {
    add("why_not", Unsound, Refusal(10));
    for state in STATES {
        add("why_not", state, Refusal(6));
    }
    for state in [Ready, Held, Gone] {
        add("why_not", state, Note("not Open"));
    }
    for note in [
        "permitted",
        "disabled by the peer",
        "not enabled",
        "not listed",
        "capability not ours",
        "capability not theirs",
    ] {
        add("why_not", Open, Note(note));
    }
}

fn kinds_and_retry(add: &mut Add, kinds: &'static str, retry: &'static str) {
    add(kinds, Unsound, Refusal(10));
    add(retry, Unsound, Refusal(10));
    for state in STATES {
        add(kinds, state, Note("no kinds"));
        let interval = match state {
            Held => "interval 65535",
            _ => "interval 0",
        };
        add(retry, state, Note(interval));
    }
    add(kinds, Open, Note("some kinds"));
    add(kinds, Open, Note("all kinds"));
}

/// The six events, under these names.
fn events(add: &mut Add, names: [&'static str; 6]) {
    let [initialization, capability, local_change, mismatch, hello, closed] = names;
    for name in names {
        add(name, Unsound, Refusal(10));
    }

    for (name, home) in [(initialization, Ready), (capability, Open)] {
        for state in STATES.into_iter().filter(|&state| state != home) {
            add(name, state, Refusal(7));
        }
        for refusal in [1, 2, 3, 4, 5] {
            add(name, home, Refusal(refusal));
        }
        add(name, home, Outcome(0, Open));
        for after in [Ready, Held, Gone] {
            add(name, home, Outcome(2, after));
        }
        add(name, home, Note("kinds gained"));
    }
    for note in [
        "kinds lost",
        "negotiation into force",
        "negotiation out of force",
    ] {
        add(capability, Open, Note(note));
    }

    for state in STATES {
        add(local_change, state, Refusal(6));
        add(local_change, state, Outcome(1, state));
        let after = if state == Held { Ready } else { state };
        add(local_change, state, Outcome(0, after));
    }
    for refusal in [8, 9] {
        add(local_change, Open, Refusal(refusal));
    }
    for after in [Ready, Held, Gone] {
        add(local_change, Open, Outcome(2, after));
    }
    for note in [
        "kinds lost",
        "kinds gained",
        "message written",
        "message number wrapped",
    ] {
        add(local_change, Open, Note(note));
    }

    for before in [Ready, Open] {
        for after in [Ready, Held, Gone] {
            add(mismatch, before, Outcome(2, after));
        }
    }
    for before in [Held, Gone] {
        add(mismatch, before, Refusal(7));
    }
    add(mismatch, Open, Note("kinds lost"));

    for state in [Ready, Open, Held] {
        add(hello, state, Outcome(0, state));
        add(hello, state, Outcome(1, state));
    }
    add(hello, Held, Outcome(0, Ready));
    add(hello, Gone, Outcome(0, Ready));

    add(closed, Open, Outcome(0, Ready));
    add(closed, Open, Note("kinds lost"));
    for state in [Ready, Held, Gone] {
        add(closed, state, Refusal(7));
    }
}

/// What the moves come to.
fn moved(add: &mut Add) {
    for name in ["forward", "back"] {
        add(name, Unsound, Refusal(10));
        for state in STATES {
            // Not by the record: by the room.
            add(name, state, Refusal(10));
        }
    }
    for state in STATES {
        add("forward", state, Note("no kinds lost"));
        add("back", state, Refusal(0));
        add("back", state, Refusal(13));
    }
    add("forward", Open, Note("kinds lost"));
    for (name, note) in moves::all() {
        add(name, Place::None, Note(note));
    }
}

/// What wishes come to, at a session and without one.
fn wishes(add: &mut Add) {
    for name in ["wish", "session_wish"] {
        add(name, Unsound, Refusal(10));
        for state in STATES {
            // Not by the session: by the wishes.
            add(name, state, Refusal(10));
            add(name, state, Refusal(15));
            add(name, state, Outcome(1, state));
            if state != Open {
                add(name, state, Refusal(7));
            }
        }
        for refusal in [8, 9] {
            add(name, Open, Refusal(refusal));
        }
        add(name, Open, Outcome(0, Open));
        add(name, Open, Note("message written"));
        add(name, Open, Note("message number wrapped"));
        for note in notes::OF_WISHES.concat() {
            add(name, Open, Note(note));
        }
    }
    for refusal in [8, 10] {
        add("wish_sac", Place::None, Refusal(refusal));
    }
    for note in [
        "nothing written",
        "6 octets written",
        "7 octets written",
        "8 octets written",
        "9 octets written",
    ] {
        add("wish_sac", Place::None, Note(note));
    }
    for refusal in [6, 10] {
        add("wanted", Place::None, Refusal(refusal));
    }
    for note in ["wanted", "not wanted"] {
        add("wanted", Place::None, Note(note));
    }
}

/// What rows, limits and single sessions come to.
fn rows_and_limits(add: &mut Add) {
    for names in [ROW_EVENTS.map(Which::name), BY_NUMBER] {
        events(add, names);
        for name in names {
            add(name, Outside, Refusal(11));
        }
        for after in [Ready, Held, Gone] {
            add(names[0], Ready, Outcome(3, after));
        }
        // An event loses kinds in Open only, and gains them there and by opening.
        let [initialization, capability, local_change, mismatch, _, closed] = names;
        add(initialization, Ready, Refusal(16));
        for name in [capability, local_change, mismatch, closed] {
            add(name, Open, Refusal(16));
        }
    }
    add(NO_EVENT, Outside, Refusal(11));
    add(NO_EVENT, Unsound, Refusal(10));
    for state in STATES {
        add(NO_EVENT, state, Refusal(7));
    }

    add("row_count", Outside, Refusal(11));
    add("row_count", Unsound, Refusal(10));
    add("row_count", Place::None, Refusal(6));
    for note in ["count 0", "count 1 to 62", "count 63", "count 64"] {
        add("row_count", Place::None, Note(note));
    }
    for note in notes::OF_ROW {
        add("row", Place::None, Note(note));
    }
    add("recount", Outside, Refusal(11));
    add("recount", Unsound, Refusal(10));
    for note in ["none permits any", "all totals under 64", "a total of 64"] {
        add("recount", Place::None, Note(note));
    }
    add("kind_total", Place::None, Refusal(6));
    for note in ["total 0", "total 1 to 63", "total 64", "total over 64"] {
        add("kind_total", Place::None, Note(note));
    }
    for note in totals::NOTES {
        add("totals", Place::None, Note(note));
    }

    for name in ["load", "store"] {
        add(name, Unsound, Refusal(10));
        for state in STATES {
            add(name, state, Refusal(0));
            // Stored in a record of another length.
            if name == "store" {
                add(name, state, Refusal(10));
            }
        }
    }
    kinds_and_retry(add, "session_kinds", "session_retry");
    add("no_limits", Place::None, Note("limits"));
    for refusal in [0, 6, 12] {
        add("set_limit", Place::None, Refusal(refusal));
    }
}
