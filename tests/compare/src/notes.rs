//! What is worth noting of a call beside its refusal and its outcome.

use crate::call::{Call, Seen, Which};
use crate::tally::Place::{self, Outside, Ready, Unsound};
use crate::widths::{APPLICATIONS, APPS};
use crate::{records, rows};
use second::{Answer, Fields};

/// What an event that was not refused did to its session.
pub fn of_answer(answer: &Answer, was: &Fields, is: &Fields) -> Vec<&'static str> {
    let in_force = |session: &Fields| session.flags & records::IN_FORCE != 0;
    let stays_open = was.state == records::OPEN && is.state == records::OPEN;
    let notes = [
        ("kinds lost", answer.lost != 0),
        ("kinds gained", answer.gained != 0),
        (
            "negotiation into force",
            stays_open && !in_force(was) && in_force(is),
        ),
        (
            "negotiation out of force",
            stays_open && in_force(was) && !in_force(is),
        ),
        ("message written", answer.written != 0),
        (
            "message number wrapped",
            answer.written != 0 && is.next == 0,
        ),
    ];
    such(&notes)
}

/// Which wish was changed, and how.
pub fn of_wish(call: &Call, answer: &Answer) -> Option<&'static str> {
    let place = (call.app as usize).checked_sub(1)?;
    let [again, disabled] = OF_WISHES.get(place)?;
    let note = if call.disable { disabled } else { again };
    (answer.outcome == 0 && call.takes("wishes")).then_some(note)
}

/// All that a wish can have to be noted, App by App.
pub const OF_WISHES: [[&str; 2]; APPS] = [
    ["App 1 again", "App 1 disabled"],
    ["App 2 again", "App 2 disabled"],
    ["App 3 again", "App 3 disabled"],
    ["App 4 again", "App 4 disabled"],
];

/// What is so, of what might be.
pub fn such(notes: &[(&'static str, bool)]) -> Vec<&'static str> {
    let so = notes.iter().filter(|(_, so)| *so);
    so.map(|(note, _)| *note).collect()
}

/// Octets from which on a list is long.
const LONG: u16 = 2_000;

/// Long lists that an event has read.
pub fn of_lists(call: &Call, seen: &Seen) -> Vec<&'static str> {
    let [tac, sac] = match (call.which, call.row_event()) {
        (Which::Initialization, _) => [OF_LISTS[0], OF_LISTS[1]],
        (Which::Capability, _) => [OF_LISTS[2], OF_LISTS[3]],
        (_, Some(0)) => [OF_LISTS[4], OF_LISTS[5]],
        (_, Some(1)) => [OF_LISTS[6], OF_LISTS[7]],
        _ => return Vec::new(),
    };
    if call.area.len() < LONG.into() || seen.said.refusal() != 0 {
        return Vec::new();
    }
    let reading = second::read(&call.area);
    such(&[
        (tac, reading.tac.length >= LONG),
        (sac, reading.sac.length >= LONG),
    ])
}

/// All that lists can have to be noted.
pub const OF_LISTS: [&str; 8] = [
    "TAC, at Initialization",
    "SAC, at Initialization",
    "TAC, at Capability",
    "SAC, at Capability",
    "TAC, at Initialization in a row",
    "SAC, at Initialization in a row",
    "TAC, at Capability in a row",
    "SAC, at Capability in a row",
];

/// What stands out of a row and of the limits that it is handed with.
pub fn of_row(call: &Call, before: Place, seen: &Seen) -> Vec<&'static str> {
    if call.row_event().is_none() {
        return Vec::new();
    }
    let row = &call.row;
    let (length, at) = (row.len() as u64, call.at);
    let sound = |session: &Fields| Place::of_session(session) != Unsound;
    let unsound = row.iter().filter(|session| !sound(session)).count();
    let here = row.get(at as usize).filter(|_| at < length);
    let mut notes = such(&[
        ("row of 0", length == 0),
        ("row of 1", length == 1),
        ("row of 2", length == 2),
        ("row of 63", length == 63),
        ("row of 64", length == 64),
        ("row of 65", length == 65),
        ("row of 66", length == 66),
        ("number one beyond", at == length),
        ("number 64 in a row of 65", at == 64 && length > 64),
        ("number over 32 bits", at >> 32 != 0),
        (
            "11, with an unsound session",
            before == Outside && unsound > 0,
        ),
        (
            "10, by another session",
            before == Unsound && here.is_some_and(sound),
        ),
        (
            "10, by the session alone",
            before == Unsound && unsound == 1 && !here.is_some_and(sound),
        ),
        (
            "10, by the last session",
            before == Unsound && unsound == 1 && !row.last().is_some_and(sound),
        ),
        ("on by a number over 1", call.event.on > 1),
    ]);
    if let (Ready, Some(answer)) = (before, seen.said.answer()) {
        notes.extend(of_limits(call, answer, &seen.left.row[at as usize]));
    }
    notes
}

/// How near to their limits an Initialization finds the common applications.
fn of_limits(call: &Call, answer: &Answer, is: &Fields) -> Vec<&'static str> {
    if call.row_event() != Some(0) || answer.refusal != 0 {
        return Vec::new();
    }
    let limits = &call.limits.of;
    let all_0 = *limits == [0; APPLICATIONS];
    let counts = rows::counts(&call.row);
    // What a session that opened has in common; places left are negative where
    // a count has passed its limit.
    let common = is.enabled & is.listed;
    let left: Vec<(u8, i32)> = (0..APPLICATIONS)
        .filter(|bit| common >> bit & 1 == 1)
        .map(|bit| (limits[bit], counts[bit]))
        .map(|(limit, count)| (limit, i32::from(limit.min(64)) - i32::from(count)))
        .collect();
    let most = left.iter().map(|(_, left)| *left).max();
    let least = left.iter().map(|(_, left)| *left).min();
    let outcome = answer.outcome;
    such(&[
        ("at limit, all limits 0", outcome == 3 && all_0),
        ("at limit, none 0", outcome == 3 && !limits.contains(&0)),
        (
            "at limit, 63 others open",
            outcome == 3 && counts.contains(&63),
        ),
        ("mismatch, all limits 0", outcome == 2 && all_0),
        (
            "open out of force, all limits 0",
            outcome == 0 && left.is_empty() && all_0,
        ),
        ("open with one place left", outcome == 0 && most == Some(1)),
        (
            "open past a limit",
            outcome == 0 && least.is_some_and(|left| left <= 0),
        ),
        (
            "open by a limit over 64 alone",
            outcome == 0
                && left.iter().any(|(limit, _)| *limit > 64)
                && left.iter().all(|(limit, left)| *limit > 64 || *left <= 0),
        ),
        (
            "open with 63 others",
            outcome == 0 && most == Some(1) && counts.contains(&63),
        ),
    ])
}

/// All that rows and limits can have to be noted.
pub const OF_ROW: [&str; 24] = [
    "row of 0",
    "row of 1",
    "row of 2",
    "row of 63",
    "row of 64",
    "row of 65",
    "row of 66",
    "number one beyond",
    "number 64 in a row of 65",
    "number over 32 bits",
    "11, with an unsound session",
    "10, by another session",
    "10, by the session alone",
    "10, by the last session",
    "on by a number over 1",
    "at limit, all limits 0",
    "at limit, none 0",
    "at limit, 63 others open",
    "mismatch, all limits 0",
    "open out of force, all limits 0",
    "open with one place left",
    "open past a limit",
    "open by a limit over 64 alone",
    "open with 63 others",
];
