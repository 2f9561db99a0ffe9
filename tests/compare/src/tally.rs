//! What was met, how often, and what should have been.

use crate::call::{Call, Left, Said, Seen, Which};
use crate::reachable::{reachable, BY_NUMBER, NO_EVENT};
use crate::{capabilities, moves, notes, records, rows, totals};
use second::{Answer, Fields};
use std::collections::{BTreeMap, BTreeSet};
use std::fmt;

/// Where a session was before the call.
#[derive(Clone, Copy, PartialEq, Eq, PartialOrd, Ord)]
pub enum Place {
    /// The call has no session, or no one session.
    None,
    /// There is no such row, or no such session in it.
    Outside,
    /// In a row: any of its sessions.
    Unsound,
    Ready,
    Open,
    Held,
    Gone,
}

use crate::widths::ALL_KINDS;
use Place::{Gone, Held, Open, Outside, Ready, Unsound};

pub const STATES: [Place; 4] = [Ready, Open, Held, Gone];

impl Place {
    fn before(call: &Call) -> Place {
        if call.takes("at") {
            return Place::in_row(&call.row, call.at);
        }
        if call.takes("row") {
            return match Place::in_row(&call.row, 0) {
                Outside => Outside,
                Unsound => Unsound,
                _ => Place::None,
            };
        }
        if call.takes("session") {
            return Place::of_session(&call.session);
        }
        if call.takes("one") {
            return Place::of_session(&call.one);
        }
        match call.which {
            // What it is given is room for one.
            Which::Create => Place::None,
            Which::Forward => Place::of(&records::to_kind2(&call.kind1)),
            Which::Back => Place::of(&call.kind2),
            _ if call.takes("record") => Place::of(&call.record),
            _ => Place::None,
        }
    }

    fn of(record: &[u8]) -> Place {
        match record {
            [_, _, _, _, state, ..] if second::sound(record) => {
                let state = STATES.get(usize::from(*state));
                state.copied().unwrap_or(Unsound)
            }
            _ => Unsound,
        }
    }

    pub fn of_session(session: &Fields) -> Place {
        Place::of(&records::stored(session))
    }

    fn in_row(row: &[Fields], at: u64) -> Place {
        if row.len() > rows::LONGEST || at >= row.len() as u64 {
            return Outside;
        }
        let mut places = row.iter().map(Place::of_session);
        if places.any(|place| place == Unsound) {
            return Unsound;
        }
        Place::of_session(&row[at as usize])
    }

    fn name(self) -> &'static str {
        match self {
            Place::None => "-",
            Outside => "outside",
            Unsound => "unsound",
            Ready => "Ready",
            Open => "Open",
            Held => "Held",
            Gone => "Gone",
        }
    }
}

#[derive(Clone, Copy, PartialEq, Eq, PartialOrd, Ord)]
pub enum What {
    Refusal(u8),
    /// An outcome and the state after it.
    Outcome(u8, Place),
    /// Something else worth meeting.
    Note(&'static str),
}

impl fmt::Display for What {
    fn fmt(&self, out: &mut fmt::Formatter) -> fmt::Result {
        match self {
            What::Refusal(number) => write!(out, "refusal {number}"),
            What::Outcome(number, after) => write!(out, "outcome {number}, then {}", after.name()),
            What::Note(note) => out.write_str(note),
        }
    }
}

pub type Item = (&'static str, Place, What);

#[derive(Default)]
pub struct Tally {
    met: BTreeMap<Item, u64>,
}

/// The name of a call in the table. Events by number have one each.
fn name(call: &Call) -> &'static str {
    match call.which {
        Which::RowEvent => BY_NUMBER
            .get(call.event.which as usize)
            .unwrap_or(&NO_EVENT),
        which => which.name(),
    }
}

/// The session of an event before and after; none if it should have been refused.
pub fn sessions(call: &Call, left: &Left) -> (Fields, Fields) {
    if call.takes("at") {
        let session = |row: &[Fields]| row.get(call.at as usize).copied().unwrap_or_default();
        return (session(&call.row), session(&left.row));
    }
    if call.takes("one") {
        return (call.one, left.one);
    }
    (records::fields(&call.record), records::fields(&left.record))
}

/// What an event did, if it was not refused.
fn event(said: &Said) -> Option<&Answer> {
    said.answer().filter(|answer| answer.refusal == 0)
}

impl Tally {
    pub fn count(&mut self, call: &Call, seen: &Seen) {
        let name = name(call);
        let before = Place::before(call);
        for note in notes::of_row(call, before, seen) {
            self.met(("row", Place::None, What::Note(note)));
        }
        for note in totals::notes(call, before, seen) {
            self.met(("totals", Place::None, What::Note(note)));
        }
        for note in notes::of_lists(call, seen) {
            self.met(("long list", Place::None, What::Note(note)));
        }
        let held = capabilities::table(call);
        for note in capabilities::notes(call, before, seen) {
            self.met((held, Place::None, What::Note(note)));
        }
        for note in moves::notes(call, before, seen) {
            self.met((name, Place::None, What::Note(note)));
        }
        let mut met = |what| self.met((name, before, what));
        if let Some(answer) = event(&seen.said) {
            let (was, is) = sessions(call, &seen.left);
            met(What::Outcome(answer.outcome, Place::of_session(&is)));
            let notes = notes::of_answer(answer, &was, &is);
            for note in notes.into_iter().chain(notes::of_wish(call, answer)) {
                met(What::Note(note));
            }
            return;
        }
        match &seen.said {
            Said::Reading(reading) => {
                met(What::Refusal(reading.refusal));
                if reading.tac.length > 0 {
                    met(What::Note("TAC read"));
                }
                if reading.sac.length > 0 {
                    met(What::Note("SAC read"));
                }
                if reading.dynamic > 0 {
                    met(What::Note("Dynamic read"));
                }
            }
            Said::Permission(answer) if answer.refusal == 0 => {
                met(What::Note(match answer.permitted {
                    0 => "not permitted",
                    _ => "permitted",
                }))
            }
            Said::Reason(answer) if answer.refusal == 0 => met(What::Note(match answer.reason {
                0 => "permitted",
                1 => "not Open",
                2 => "disabled by the peer",
                3 => "not enabled",
                4 => "not listed",
                5 => "capability not ours",
                6 => "capability not theirs",
                _ => "some other reason",
            })),
            Said::Kinds(answer) if answer.refusal == 0 => met(What::Note(match answer.kinds {
                0 => "no kinds",
                ALL_KINDS => "all kinds",
                _ => "some kinds",
            })),
            Said::Retry(answer) if answer.refusal == 0 => met(What::Note(match answer.interval {
                0 => "interval 0",
                65_535 => "interval 65535",
                _ => "some other interval",
            })),
            Said::Moved(answer) if answer.refusal == 0 => met(What::Note(match answer.lost {
                0 => "no kinds lost",
                _ => "kinds lost",
            })),
            Said::Count(answer) if answer.refusal == 0 => met(What::Note(match answer.count {
                0 => "count 0",
                1..=62 => "count 1 to 62",
                63 => "count 63",
                64 => "count 64",
                _ => "count over 64",
            })),
            Said::Total(answer) if answer.refusal == 0 => met(What::Note(match answer.total {
                0 => "total 0",
                1..=63 => "total 1 to 63",
                64 => "total 64",
                _ => "total over 64",
            })),
            Said::RowTotals(answer) if answer.refusal == 0 => {
                met(What::Note(match answer.totals.of.into_iter().max() {
                    Some(0) => "none permits any",
                    Some(1..=63) => "all totals under 64",
                    Some(64) => "a total of 64",
                    _ => "a total over 64",
                }))
            }
            Said::Written(answer) if answer.refusal == 0 => met(What::Note(match answer.written {
                0 => "nothing written",
                6 => "6 octets written",
                7 => "7 octets written",
                8 => "8 octets written",
                9 => "9 octets written",
                _ => "some other length written",
            })),
            Said::Want(answer) if answer.refusal == 0 => met(What::Note(match answer.wanted {
                0 => "not wanted",
                _ => "wanted",
            })),
            Said::Sound(sound) => met(What::Note(if *sound { "sound" } else { "not sound" })),
            Said::Limits(_) => met(What::Note("limits")),
            Said::Panicked | Said::Lost(_) => met(What::Note("broke off")),
            said => met(What::Refusal(said.refusal())),
        }
    }

    fn met(&mut self, item: Item) {
        *self.met.entry(item).or_insert(0) += 1;
    }

    /// Prints the counts, and answers how many items are missing or should
    /// not be there.
    pub fn report(&self) -> u64 {
        let expected = reachable();
        println!(
            "{:<18} {:<8} {:<34} {:>9}",
            "call", "before", "met", "times"
        );
        let mut wrong = 0;
        let met: BTreeSet<Item> = self.met.keys().copied().collect();
        for item in expected.union(&met) {
            let times = self.met.get(item).copied().unwrap_or(0);
            let remark = match (expected.contains(item), times) {
                (true, 0) => "  NEVER MET",
                (false, _) => "  SHOULD NOT BE",
                _ => "",
            };
            if !remark.is_empty() {
                wrong += 1;
            }
            let (name, before, what) = item;
            let (before, what) = (before.name(), what.to_string());
            println!("{name:<18} {before:<8} {what:<34} {times:>9}{remark}");
        }
        wrong
    }
}
