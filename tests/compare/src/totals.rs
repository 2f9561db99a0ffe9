//! What events of a row make of the totals that they are given, for the closing table.

use crate::call::{Call, Seen};
use crate::notes::such;
use crate::tally::Place::{self, Outside, Unsound};
use crate::widths::KINDS;
use second::{recount, Answer, Totals};

/// What is worth noting of an event.
pub fn notes(call: &Call, before: Place, seen: &Seen) -> Vec<&'static str> {
    let Some(answer) = seen.said.answer() else {
        return Vec::new();
    };
    if call.row_event().is_none() || matches!(before, Outside | Unsound) {
        return Vec::new();
    }
    let (given, own) = (call.given_totals(), recount(&call.row).totals);
    match answer.refusal {
        0 => {
            let own_after = seen.totals() == recount(&seen.left.row).totals;
            of_moved(given, answer, given == own, own_after)
        }
        16 if given == own => vec!["16, by the totals of the row"],
        16 => {
            let with_own = call.clone().with_totals(own).ask_second();
            let answer = with_own.said.answer();
            answer.map_or(Vec::new(), |answer| of_refused(given, answer))
        }
        _ => Vec::new(),
    }
}

/// The kinds of a set.
fn kinds(set: u16) -> impl Iterator<Item = usize> {
    (0..KINDS).filter(move |kind| set >> kind & 1 == 1)
}

/// Of an event that was not refused, and whether the totals before it and after it are
/// those of the row.
fn of_moved(given: Totals, answer: &Answer, own: bool, own_after: bool) -> Vec<&'static str> {
    let moved = answer.lost | answer.gained;
    let at = |set: u16, total: u8| kinds(set).any(|kind| given.of[kind] == total);
    let rest_over_64 = kinds(!moved).any(|kind| given.of[kind] > 64);
    such(&[
        ("those of the row, and so after it", own && own_after),
        ("no longer those of the row", own && !own_after),
        ("lost at 1", at(answer.lost, 1)),
        ("lost at 64", at(answer.lost, 64)),
        ("lost at 65", at(answer.lost, 65)),
        ("gained at 0", at(answer.gained, 0)),
        ("gained at 63", at(answer.gained, 63)),
        ("at rest over 64, another moved", rest_over_64 && moved != 0),
        ("at rest over 64, none moved", rest_over_64 && moved == 0),
    ])
}

/// Of an event that was refused with 16, by what it answers with the totals of the row.
fn of_refused(given: Totals, answer: &Answer) -> Vec<&'static str> {
    let lost = kinds(answer.lost).filter(|&kind| !(1..=65).contains(&given.of[kind]));
    let gained = kinds(answer.gained).filter(|&kind| given.of[kind] > 63);
    let outside: Vec<usize> = lost.chain(gained).collect();
    // Where it is one kind alone, it shows by which total.
    let only = match outside[..] {
        [kind] => Some(kind),
        _ => None,
    };
    let by = |set: u16, total: u8| {
        only.is_some_and(|kind| set >> kind & 1 == 1 && given.of[kind] == total)
    };
    such(&[
        ("16, by 0 less one", by(answer.lost, 0)),
        ("16, by 66 less one", by(answer.lost, 66)),
        ("16, by 255 less one", by(answer.lost, 255)),
        ("16, by 64 and one more", by(answer.gained, 64)),
        ("16, by 65 and one more", by(answer.gained, 65)),
        ("16, by 255 and one more", by(answer.gained, 255)),
        ("16, by the first kind alone", only == Some(0)),
        ("16, by the last kind alone", only == Some(KINDS - 1)),
        ("16, a message held back", answer.written > 0),
        ("16, in place of a mismatch", answer.outcome == 2),
    ])
}

/// All that there can be to note.
pub const NOTES: [&str; 18] = [
    "those of the row, and so after it",
    "lost at 1",
    "lost at 64",
    "lost at 65",
    "gained at 0",
    "gained at 63",
    "at rest over 64, another moved",
    "at rest over 64, none moved",
    "16, by 0 less one",
    "16, by 66 less one",
    "16, by 255 less one",
    "16, by 64 and one more",
    "16, by 65 and one more",
    "16, by 255 and one more",
    "16, by the first kind alone",
    "16, by the last kind alone",
    "16, a message held back",
    "16, in place of a mismatch",
];
