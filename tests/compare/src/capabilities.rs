//! What is read and held of capabilities, for the closing table: once for calls on one
//! session and once for events of a row.

use crate::areas::{CAPABILITY_TYPES, U};
use crate::call::{Call, Said, Seen, Which};
use crate::notes::such;
use crate::tally::{sessions, Place};
use crate::widths::{ALL_APPLICATIONS, ALL_APPS, ALL_CAPABILITIES, ALL_KINDS, CAPABILITIES};
use crate::{records, rows};
use second::{Answer, Fields, Settings};

const OF_RECORD: &str = "capabilities";
const OF_ROW: &str = "capabilities, row";

/// The kinds that need each capability.
const NEEDING: [u16; CAPABILITIES] = [0x004, 0x018, 0x060];

/// The applications 3 and 11, which open all of these.
pub const MULTIPOINT: u16 = 0x404;

/// What can be noted of each capability.
struct Of {
    opened_with_s: &'static str,
    opened_without: &'static str,
    added: &'static str,
    withdrawn: &'static str,
    kept: &'static str,
    gains: &'static str,
    loses: &'static str,
    u_0: &'static str,
    empty: &'static str,
    too_long: &'static str,
    repeated: &'static str,
    repeated_before_3: &'static str,
}

macro_rules! of {
    ($name:literal) => {
        Of {
            opened_with_s: concat!($name, " at Initialization, S = 1"),
            opened_without: concat!($name, " at Initialization, S = 0"),
            added: concat!($name, " announced"),
            withdrawn: concat!($name, " withdrawn"),
            kept: concat!($name, " kept, absent"),
            gains: concat!($name, " announced, kinds gained"),
            loses: concat!($name, " withdrawn, kinds lost"),
            u_0: concat!($name, " read with U = 0"),
            empty: concat!("3, by ", $name, " without octets"),
            too_long: concat!("3, by ", $name, " of more than one"),
            repeated: concat!("5, by ", $name),
            repeated_before_3: concat!("5, by ", $name, " of another length"),
        }
    };
}

const EACH: [Of; CAPABILITIES] = [of!("P2MP"), of!("MP2MP"), of!("HSMP")];

/// What can be noted of both, beside this.
const BOTH: [&str; 10] = [
    "announced, TAC not used",
    "kinds gained, in force",
    "kinds gained, not in force",
    "kinds gained, by protection alone",
    "kinds lost, in force",
    "kinds lost, not in force",
    "kinds lost, by protection alone",
    "cleared by mismatch at opening",
    "cleared by mismatch",
    "cleared by closing",
];
const AT_LIMIT: &str = "cleared at a limit";
const ONLY_OF_RECORD: [&str; 5] = [
    "5, in force",
    "5, not in force",
    "6, in force",
    "6, not in force",
    "creation, 6 by capabilities alone",
];

/// What can make a session unsound, and what a record beside.
const SPARE_OF_OURS: &str = "10, by a spare bit of ours";
const SPARE_OF_THEIRS: &str = "10, by a spare bit of theirs";
const NOT_OPEN: &str = "10, by theirs unless Open";
const OF_UNSOUND: [&str; 3] = [SPARE_OF_OURS, SPARE_OF_THEIRS, NOT_OPEN];
const OF_UNSOUND_RECORD: [&str; 3] = ["10, by 22 octets", "10, by 23 octets", "10, by 25 octets"];

/// All that [`of_record`] can have to note.
pub fn of_unsound_record() -> impl Iterator<Item = &'static str> {
    OF_UNSOUND.into_iter().chain(OF_UNSOUND_RECORD)
}

/// The table that a call is noted in.
pub fn table(call: &Call) -> &'static str {
    match call.takes("row") {
        true => OF_ROW,
        false => OF_RECORD,
    }
}

/// All that there can be to note, with its table.
pub fn all() -> impl Iterator<Item = (&'static str, &'static str)> {
    let each = EACH.iter().flat_map(|of| {
        [
            of.opened_with_s,
            of.opened_without,
            of.added,
            of.withdrawn,
            of.kept,
            of.gains,
            of.loses,
            of.u_0,
            of.empty,
            of.too_long,
            of.repeated,
            of.repeated_before_3,
        ]
    });
    let both = each.chain(BOTH).chain(OF_UNSOUND);
    let both = both.flat_map(|note| [(OF_RECORD, note), (OF_ROW, note)]);
    let only = ONLY_OF_RECORD.into_iter().chain(OF_UNSOUND_RECORD);
    both.chain(only.map(|note| (OF_RECORD, note)))
        .chain([(OF_ROW, AT_LIMIT)])
}

/// What is worth noting of a call.
pub fn notes(call: &Call, before: Place, seen: &Seen) -> Vec<&'static str> {
    let mut notes = of_area(call, seen);
    match seen.said.answer() {
        Some(answer) if answer.refusal == 0 => notes.extend(of_event(call, seen, answer)),
        _ => {}
    }
    if before == Place::Unsound {
        notes.extend(of_unsound(call));
    }
    if call.which == Which::Create && seen.said.refusal() == 6 {
        let Settings {
            protected_kinds,
            enabled,
            wishes,
            ..
        } = call.settings;
        let others = protected_kinds & !u32::from(ALL_KINDS) == 0
            && enabled & !u32::from(ALL_APPLICATIONS) == 0
            && wishes & !ALL_APPS == 0;
        notes.extend(such(&[("creation, 6 by capabilities alone", others)]));
    }
    if call.which == Which::WhyNot {
        notes.extend(of_reason(call, seen));
    }
    notes
}

/// The capabilities of a set, by their places.
fn places(set: u8) -> impl Iterator<Item = usize> {
    (0..CAPABILITIES).filter(move |place| set >> place & 1 == 1)
}

fn in_force(session: &Fields) -> bool {
    session.flags & records::IN_FORCE != 0
}

/// How a capability stands in an area that was read, or for which it was refused.
fn of_area(call: &Call, seen: &Seen) -> Vec<&'static str> {
    let refusal = seen.said.refusal();
    if !call.takes("area") || ![0, 3, 5].contains(&refusal) {
        return Vec::new();
    }
    let mut notes = Vec::new();
    for (head, length, read) in tlvs(&call.area) {
        let place = CAPABILITY_TYPES
            .iter()
            .position(|kind| head & 0x3FFF == *kind);
        if let Some(place) = place {
            let of = &EACH[place];
            notes.extend(such(&[
                (of.u_0, read == 0 && head & U == 0),
                (of.empty, read == 3 && length == 0),
                (of.too_long, read == 3 && length > 1),
                (of.repeated, read == 5 && length == 1),
                (of.repeated_before_3, read == 5 && length != 1),
            ]));
        }
        if read != 0 {
            break;
        }
    }
    notes
}

/// The TLVs of an area: type with U and F, length, and what reading refuses up to there.
fn tlvs(area: &[u8]) -> impl Iterator<Item = (u16, usize, u8)> + '_ {
    let mut start = 0;
    std::iter::from_fn(move || {
        let &[high, low, long, short, ref after @ ..] = area.get(start..)? else {
            return None;
        };
        let length = usize::from(u16::from_be_bytes([long, short]));
        if length > after.len() {
            return None;
        }
        start += 4 + length;
        let read = second::read(&area[..start]).refusal;
        Some((u16::from_be_bytes([high, low]), length, read))
    })
}

/// What became of the peer's capabilities by an event that was not refused.
fn of_event(call: &Call, seen: &Seen, answer: &Answer) -> Vec<&'static str> {
    let (was, is) = sessions(call, &seen.left);
    let event = call.row_event();
    let reading = second::read(&call.area);
    let (present, holding) = (reading.capabilities, reading.holding);
    let open = is.state == records::OPEN;
    if call.which == Which::Initialization || event == Some(0) {
        let mut notes = such(&[
            (
                "announced, TAC not used",
                present != 0 && is.flags & records::USES_TAC == 0,
            ),
            (
                "cleared by mismatch at opening",
                present != 0 && answer.outcome == 2,
            ),
            (AT_LIMIT, present != 0 && answer.outcome == 3),
        ]);
        for place in places(present).filter(|_| open) {
            let of = &EACH[place];
            notes.push(match holding >> place & 1 {
                1 => of.opened_with_s,
                _ => of.opened_without,
            });
        }
        return notes;
    }
    if open && (call.which == Which::Capability || event == Some(1)) {
        return of_change(&was, &is, present, answer);
    }
    let left = was.theirs != 0 && !open;
    such(&[
        ("cleared by mismatch", left && answer.outcome == 2),
        ("cleared by closing", left && answer.outcome == 0),
    ])
}

/// What a Capability message did, and which kinds were lost and gained by that.
fn of_change(was: &Fields, is: &Fields, present: u8, answer: &Answer) -> Vec<&'static str> {
    let mut notes = Vec::new();
    notes.extend(places(is.theirs & !was.theirs).map(|place| EACH[place].added));
    notes.extend(places(was.theirs & !is.theirs).map(|place| EACH[place].withdrawn));
    notes.extend(places(was.theirs & !present).map(|place| EACH[place].kept));
    let needing = |set: u8| places(set).fold(0, |kinds, place| kinds | NEEDING[place]);
    let gained = answer.gained & needing(is.ours & is.theirs & !was.theirs);
    let lost = answer.lost & needing(was.ours & was.theirs & !is.theirs);
    for (place, of) in EACH.iter().enumerate() {
        notes.extend(such(&[
            (of.gains, gained & NEEDING[place] != 0),
            (of.loses, lost & NEEDING[place] != 0),
        ]));
    }
    let forced = in_force(was) && in_force(is);
    let unforced = !in_force(was) && !in_force(is);
    let protection = |session: &Fields| session.enabled & session.listed & MULTIPOINT == 0;
    let alone = forced && protection(was) && protection(is);
    notes.extend(such(&[
        ("kinds gained, in force", gained != 0 && forced),
        ("kinds gained, not in force", gained != 0 && unforced),
        ("kinds gained, by protection alone", gained != 0 && alone),
        ("kinds lost, in force", lost != 0 && forced),
        ("kinds lost, not in force", lost != 0 && unforced),
        ("kinds lost, by protection alone", lost != 0 && alone),
    ]));
    notes
}

/// Whether a capability alone makes what the call was given unsound.
fn of_unsound(call: &Call) -> Vec<&'static str> {
    if call.takes("row") {
        let sound = |session: &&Fields| Place::of_session(session) != Place::Unsound;
        let mut unsound = call.row.iter().filter(|session| !sound(session));
        let (Some(session), None) = (unsound.next(), unsound.next()) else {
            return Vec::new();
        };
        return match call.row.len() <= rows::LONGEST {
            true => of_fields(session),
            false => Vec::new(),
        };
    }
    if call.takes("session") {
        return of_fields(&call.session);
    }
    if call.takes("one") {
        return of_fields(&call.one);
    }
    of_record(&call.record)
}

/// The same of a record.
pub fn of_record(record: &[u8]) -> Vec<&'static str> {
    let padded = [record, &[0, 0]].concat();
    let sound = |length: usize| padded.get(..length).is_some_and(second::sound);
    match record.len() {
        22 if sound(24) => vec!["10, by 22 octets"],
        23 if sound(24) => vec!["10, by 23 octets"],
        24 if record[13] == 0 && record[..4] == records::HEAD => {
            of_fields(&records::fields(record))
        }
        25 if sound(24) => vec!["10, by 25 octets"],
        _ => Vec::new(),
    }
}

fn of_fields(session: &Fields) -> Vec<&'static str> {
    let sound = |ours: u8, theirs: u8| {
        let session = Fields {
            ours,
            theirs,
            ..*session
        };
        Place::of_session(&session) != Place::Unsound
    };
    let Fields { ours, theirs, .. } = *session;
    let spare = |octet: u8| octet & !ALL_CAPABILITIES != 0;
    such(&[
        (
            SPARE_OF_OURS,
            spare(ours) && sound(ours & ALL_CAPABILITIES, theirs),
        ),
        (
            SPARE_OF_THEIRS,
            spare(theirs) && sound(ours, theirs & ALL_CAPABILITIES),
        ),
        (
            NOT_OPEN,
            session.state != records::OPEN && !spare(theirs) && sound(ours, 0),
        ),
    ])
}

/// The two reasons, told apart by whether negotiation is in force.
fn of_reason(call: &Call, seen: &Seen) -> Vec<&'static str> {
    let Said::Reason(answer) = &seen.said else {
        return Vec::new();
    };
    let forced = in_force(&records::fields(&call.record));
    such(&[
        ("5, in force", answer.reason == 5 && forced),
        ("5, not in force", answer.reason == 5 && !forced),
        ("6, in force", answer.reason == 6 && forced),
        ("6, not in force", answer.reason == 6 && !forced),
    ])
}
