//! What is met of records of kind 1, of what version 4.0.0 wrote, and of the moves from one
//! kind to the other, for the closing table.

use crate::call::{Call, Said, Seen, Which};
use crate::capabilities::{self, MULTIPOINT};
use crate::notes::such;
use crate::records::{self, IN_FORCE, OPEN};
use crate::tally::Place::{self, Unsound};
use std::ops::Range;

/// The kinds that are lost by a move: 2 to 6.
const NEEDING: u16 = 0x07C;

const KIND_1: &str = "a record of kind 1";
const KIND_2: &str = "a record of kind 2";
const BY_4_0_0: &str = "as version 4.0.0 wrote it";

/// The calls that take a record of kind 2 and no other.
const ON_KIND_2: [Which; 14] = [
    Which::Initialization,
    Which::Capability,
    Which::LocalChange,
    Which::Mismatch,
    Which::Hello,
    Which::Closed,
    Which::Permitted,
    Which::PermittedKinds,
    Which::RetryInterval,
    Which::Sound,
    Which::WhyNot,
    Which::Wish,
    Which::Load,
    Which::Back,
];

/// What an Open session can lose by a move.
const LOST: [&str; 7] = [
    "all lost, not in force",
    "all lost, by an mLDP application",
    "all lost, by protection alone",
    "some lost, by protection alone",
    "all lost, all Apps disabled",
    "none lost, in force",
    "none lost, protected all the same",
];

/// What the moves can be refused for, beside what every call is.
const NOT_FORWARD: [&str; 6] = [
    KIND_2,
    BY_4_0_0,
    "by 21 octets",
    "by 23 octets",
    "by the length alone",
    "by the kind alone",
];
const ROOM_FORWARD: [&str; 3] = ["a room of 22", "a room of 23", "a room of 25"];
const ROOM_BACK: [&str; 3] = ["a room of 21", "a room of 23", "a room of 24"];
const THIRTEEN: [&str; 4] = [
    "13, by ours alone",
    "13, by theirs alone",
    "13, by both",
    "10 by the room, before 13",
];

/// All that there can be to note, each with its call.
pub fn all() -> Vec<(&'static str, &'static str)> {
    let older = ON_KIND_2.into_iter();
    let older = older.flat_map(|which| [KIND_1, BY_4_0_0].map(|note| (which.name(), note)));
    let forward = LOST.into_iter().chain(NOT_FORWARD).chain(ROOM_FORWARD);
    let back = ROOM_BACK.into_iter().chain(THIRTEEN);
    let back = back.chain(capabilities::of_unsound_record());
    older
        .chain(forward.map(|note| ("forward", note)))
        .chain(back.map(|note| ("back", note)))
        .collect()
}

/// What is worth noting of a call.
pub fn notes(call: &Call, before: Place, seen: &Seen) -> Vec<&'static str> {
    match (call.which, before) {
        (Which::Forward, Unsound) => not_forward(&call.kind1),
        (Which::Forward, _) => of_forward(call, seen),
        (Which::Back, Unsound) => {
            let older = older(&call.kind2);
            let damaged = capabilities::of_record(&call.kind2).into_iter();
            damaged.chain(older).collect()
        }
        (Which::Back, _) => of_back(call, seen.said.refusal()),
        (which, Unsound) if ON_KIND_2.contains(&which) => older(&call.record),
        _ => Vec::new(),
    }
}

/// Of what else than a record of kind 2 this is a sound one.
fn older(record: &[u8]) -> Vec<&'static str> {
    such(&[
        (KIND_1, second::sound(&records::to_kind2(record))),
        (BY_4_0_0, second::sound(&records::other_head(record))),
    ])
}

/// What alone makes a record of kind 1 unsound.
fn not_forward(record: &[u8]) -> Vec<&'static str> {
    let with_head = |part: Range<usize>| {
        let mut other = records::to_kind2(record);
        if let Some(octets) = other.get_mut(part.clone()) {
            octets.copy_from_slice(&records::HEAD[part]);
        }
        second::sound(&other)
    };
    let of_length = |length: usize| {
        let mut other = record.to_vec();
        other.resize(records::KIND1_LENGTH, 0);
        record.len() == length && second::sound(&records::to_kind2(&other))
    };
    such(&[
        (KIND_2, second::sound(record)),
        (BY_4_0_0, second::sound(&records::other_head(record))),
        ("by 21 octets", of_length(21)),
        ("by 23 octets", of_length(23)),
        ("by the length alone", with_head(0..2)),
        ("by the kind alone", with_head(2..4)),
    ])
}

fn of_forward(call: &Call, seen: &Seen) -> Vec<&'static str> {
    let session = records::fields(&records::to_kind2(&call.kind1));
    let lost = match &seen.said {
        Said::Moved(moved) if moved.refusal == 0 => moved.lost,
        _ => {
            let room = call.kind2.len();
            return such(&[
                ("a room of 22", room == 22),
                ("a room of 23", room == 23),
                ("a room of 25", room == 25),
            ]);
        }
    };
    let forced = session.flags & IN_FORCE != 0;
    let mldp = session.enabled & session.listed & MULTIPOINT != 0;
    let (all, some) = (lost == NEEDING, lost != NEEDING && lost != 0);
    let open = session.state == OPEN;
    such(&[
        ("all lost, not in force", all && !forced),
        ("all lost, by an mLDP application", all && forced && mldp),
        ("all lost, by protection alone", all && forced && !mldp),
        ("some lost, by protection alone", some && forced && !mldp),
        ("all lost, all Apps disabled", all && session.disabled == 15),
        ("none lost, in force", lost == 0 && forced),
        (
            "none lost, protected all the same",
            lost == 0 && open && session.protects & NEEDING != 0,
        ),
    ])
}

fn of_back(call: &Call, refusal: u8) -> Vec<&'static str> {
    let session = records::fields(&call.kind2);
    let (ours, theirs) = (session.ours != 0, session.theirs != 0);
    let room = call.kind1.len();
    such(&[
        ("a room of 21", room == 21),
        ("a room of 23", room == 23),
        ("a room of 24", room == 24),
        ("13, by ours alone", refusal == 13 && ours && !theirs),
        ("13, by theirs alone", refusal == 13 && !ours && theirs),
        ("13, by both", refusal == 13 && ours && theirs),
        (
            "10 by the room, before 13",
            refusal == 10 && (ours || theirs),
        ),
    ])
}
