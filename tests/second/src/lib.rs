//! Negotiation of targeted LDP applications (RFC 8223) together with state
//! advertisement control (RFC 7473), for one session held in a stored record and
//! for a row of sessions with limits and totals.
//!
//! Every public function works on plain octets and numbers and can be called
//! with any of them. A session travels as its record of kind 2, or in a row as
//! its [`Fields`]; inside, it is the decoded [`session::Session`]. What is handed
//! in and out is laid out as in C, for `tests/second_c`.
//!
//! | file              | idea                                                  |
//! |-------------------|-------------------------------------------------------|
//! | `area.rs`         | the TLVs of a parameter area                          |
//! | `lists.rs`        | the elements of TAC and SAC, and sets of applications |
//! | `kinds.rs`        | label kinds and who opens or controls them            |
//! | `capabilities.rs` | which capability a kind needs                         |
//! | `session.rs`      | a session and what can be asked of it                 |
//! | `events.rs`       | what happens to a session                             |
//! | `record.rs`       | the stored form and when it is sound                  |
//! | `moves.rs`        | from the older kind of record to this one, and back   |
//! | `message.rs`      | the message written for a local change                |
//! | `fields.rs`       | a session as a row holds it, loaded and stored        |
//! | `limits.rs`       | how many sessions may use each application            |
//! | `row.rs`          | how many sessions do, and the events of one of them   |
//! | `totals.rs`       | how many sessions of a row permit each kind, kept     |
//! | `wishes.rs`       | of which kinds we want no bindings, and telling it    |

#![forbid(unsafe_code)]

mod area;
mod capabilities;
mod events;
mod fields;
mod kinds;
mod limits;
mod lists;
mod message;
mod moves;
mod record;
mod row;
mod session;
mod totals;
mod wishes;

pub use fields::{load, session_kinds, session_retry, store, Fields, Loaded};
pub use limits::{no_limits, set_limit, Limited, Limits};
pub use moves::{back, forward, Moved};
pub use row::{
    recount, row_capability, row_closed, row_count, row_event, row_hello, row_initialization,
    row_local_change, row_mismatch, Count, Event,
};
pub use totals::{kind_total, RowAnswer, RowTotals, Total, Totals};
pub use wishes::{session_wish, wanted, wish, wish_sac, Want, Wished, Written};

use capabilities::CapabilitySet;
use events::{Effect, Outcome};
use kinds::{Kind, KindSet};
use lists::{ApplicationSet, ControlSet};
use session::{Session, Settled};

/// Octets in a stored record.
pub const RECORD_LENGTH: usize = record::LENGTH;

/// Octets in a record of kind 1.
pub const KIND1_LENGTH: usize = record::KIND1_LENGTH;

/// Octets in the message that a local change writes.
pub const MESSAGE_LENGTH: usize = message::LENGTH;

/// Most octets that a parameter area may have.
pub const LARGEST_AREA: usize = area::LARGEST;

/// What a session is created with.
#[derive(Clone, Copy, Debug, Default, PartialEq, Eq)]
#[repr(C)]
pub struct Settings {
    pub initiating: bool,
    pub active: bool,
    pub uses_tac: bool,
    pub drops: bool,
    /// Kind k at bit k.
    pub protected_kinds: u32,
    /// TA-Id n at bit n-1.
    pub enabled: u32,
    pub first_number: u32,
    /// App n at bit n-1.
    pub wishes: u32,
    /// Those that we hold: P2MP bit 0, MP2MP bit 1, HSMP bit 2.
    pub capabilities: u32,
}

/// Where a value lies in the area that was read. Absent means 0, 0.
#[derive(Clone, Copy, Debug, Default, PartialEq, Eq)]
#[repr(C)]
pub struct Part {
    pub start: u16,
    pub length: u16,
}

/// What a parameter area holds. After a refusal everything else is 0.
#[derive(Clone, Copy, Debug, Default, PartialEq, Eq)]
#[repr(C)]
pub struct Reading {
    pub refusal: u8,
    pub dynamic: u8,
    /// The capabilities that are present, whatever their S.
    pub capabilities: u8,
    /// Those present with S = 1.
    pub holding: u8,
    pub tac: Part,
    pub sac: Part,
}

/// What an event did. After a refusal everything else is 0.
#[derive(Clone, Copy, Debug, Default, PartialEq, Eq)]
#[repr(C)]
pub struct Answer {
    pub refusal: u8,
    pub outcome: u8,
    pub lost: u16,
    pub gained: u16,
    pub written: u16,
}

/// Whether one kind may be sent.
#[derive(Clone, Copy, Debug, Default, PartialEq, Eq)]
#[repr(C)]
pub struct Permission {
    pub refusal: u8,
    pub permitted: u8,
}

/// Why one kind may not be sent. After a refusal the reason is 0.
#[derive(Clone, Copy, Debug, Default, PartialEq, Eq)]
#[repr(C)]
pub struct Reason {
    pub refusal: u8,
    pub reason: u8,
}

/// All the kinds that may be sent, kind k at bit k.
#[derive(Clone, Copy, Debug, Default, PartialEq, Eq)]
#[repr(C)]
pub struct Kinds {
    pub refusal: u8,
    pub kinds: u16,
}

/// How long to wait before the next attempt at a session.
#[derive(Clone, Copy, Debug, Default, PartialEq, Eq)]
#[repr(C)]
pub struct Retry {
    pub refusal: u8,
    pub interval: u16,
}

/// Why a call was turned down, with its number.
#[derive(Clone, Copy, Debug, PartialEq, Eq)]
pub(crate) enum Refusal {
    AreaTooLong = 1,
    CutShort = 2,
    BadLength = 3,
    UnknownType = 4,
    Repeated = 5,
    OutOfRange = 6,
    WrongState = 7,
    NoRoom = 8,
    PeerNotDynamic = 9,
    NotSound = 10,
    OutsideRow = 11,
    LimitTooHigh = 12,
    NoPlaceForCapabilities = 13,
    NoControl = 15,
    TotalOutside = 16,
}

impl Refusal {
    fn number(self) -> u8 {
        self as u8
    }

    fn answer(self) -> Answer {
        Answer {
            refusal: self.number(),
            ..Answer::default()
        }
    }
}

/// Reads the optional parameters of an Initialization or Capability message.
pub fn read(area: &[u8]) -> Reading {
    match area::parse(area) {
        Ok(found) => Reading {
            refusal: 0,
            dynamic: u8::from(found.dynamic.is_some()),
            capabilities: found.capabilities().bits(),
            holding: found.holding(area).bits(),
            tac: found.tac.unwrap_or_default(),
            sac: found.sac.unwrap_or_default(),
        },
        Err(refusal) => Reading {
            refusal: refusal.number(),
            ..Reading::default()
        },
    }
}

/// Stores a fresh session in `record`; answers the refusal number, 0 for none. The
/// wishes have no place there.
pub fn create(record: &mut [u8], settings: Settings) -> u8 {
    let Ok(record) = record::room(record) else {
        return Refusal::NotSound.number();
    };
    let (Some(protected), Some(enabled), Some(_), Some(ours)) = (
        KindSet::from_bits(settings.protected_kinds),
        ApplicationSet::from_bits(settings.enabled),
        ControlSet::from_bits(settings.wishes),
        CapabilitySet::from_bits(settings.capabilities),
    ) else {
        return Refusal::OutOfRange.number();
    };
    let settled = Settled {
        initiating: settings.initiating,
        active: settings.active,
        uses_tac: settings.uses_tac,
        drops: settings.drops,
        protected,
        ours,
    };
    *record = record::encode(&Session::new(settled, enabled, settings.first_number));
    0
}

/// An Initialization message arrived with these optional parameters.
pub fn initialization(record: &mut [u8], area: &[u8]) -> Answer {
    happen(record, |session| {
        session.initialization(area, ApplicationSet::ALL)
    })
}

/// A Capability message arrived with these parameters.
pub fn capability(record: &mut [u8], area: &[u8]) -> Answer {
    happen(record, |session| session.capability(area))
}

/// One application is switched on or off here; a message may go into `room`.
pub fn local_change(record: &mut [u8], ta_id: u32, on: bool, room: &mut [u8]) -> Answer {
    happen(record, |session| session.local_change(ta_id, on, room))
}

/// The peer told us of a mismatch.
pub fn mismatch(record: &mut [u8]) -> Answer {
    happen(record, Session::mismatch_notified)
}

/// A Hello arrived with this configuration sequence number.
pub fn hello(record: &mut [u8], number: u32) -> Answer {
    happen(record, |session| session.hello(number))
}

/// The connection closed.
pub fn closed(record: &mut [u8]) -> Answer {
    happen(record, Session::closed)
}

/// May labels of this kind be sent?
pub fn permitted(record: &[u8], kind: u32) -> Permission {
    let answer = record::decode(record).and_then(|session| {
        let kind = Kind::from_number(kind).ok_or(Refusal::OutOfRange)?;
        Ok(session.permitted().contains(kind))
    });
    match answer {
        Ok(permitted) => Permission {
            refusal: 0,
            permitted: u8::from(permitted),
        },
        Err(refusal) => Permission {
            refusal: refusal.number(),
            permitted: 0,
        },
    }
}

/// Why may labels of this kind not be sent?
pub fn why_not(record: &[u8], kind: u32) -> Reason {
    let reason = record::decode(record).and_then(|session| match Kind::from_number(kind) {
        Some(kind) => Ok(session.why_not(kind)),
        None => Err(Refusal::OutOfRange),
    });
    match reason {
        Ok(why) => Reason {
            refusal: 0,
            reason: why as u8,
        },
        Err(refusal) => Reason {
            refusal: refusal.number(),
            reason: 0,
        },
    }
}

/// Which kinds of label may be sent?
pub fn permitted_kinds(record: &[u8]) -> Kinds {
    match record::decode(record) {
        Ok(session) => Kinds {
            refusal: 0,
            kinds: session.permitted().bits(),
        },
        Err(refusal) => Kinds {
            refusal: refusal.number(),
            kinds: 0,
        },
    }
}

/// How long must the next attempt wait?
pub fn retry_interval(record: &[u8]) -> Retry {
    match record::decode(record) {
        Ok(session) => Retry {
            refusal: 0,
            interval: session.retry_interval(),
        },
        Err(refusal) => Retry {
            refusal: refusal.number(),
            interval: 0,
        },
    }
}

/// Is this a record that a session can have?
pub fn sound(record: &[u8]) -> bool {
    record::decode(record).is_ok()
}

/// Takes the session out of its record, lets the event happen, and stores the
/// session again unless the event was refused.
fn happen(
    record: &mut [u8],
    event: impl FnOnce(&mut Session) -> Result<Effect, Refusal>,
) -> Answer {
    let result = record::decode(record).and_then(|mut session| {
        let answer = undergo(&mut session, event)?;
        Ok((session, answer))
    });
    match result {
        Ok((session, answer)) => {
            record.copy_from_slice(&record::encode(&session));
            answer
        }
        Err(refusal) => refusal.answer(),
    }
}

/// Lets the event happen to a session and tells what it did.
fn undergo(
    session: &mut Session,
    event: impl FnOnce(&mut Session) -> Result<Effect, Refusal>,
) -> Result<Answer, Refusal> {
    let before = session.permitted();
    let effect = event(session)?;
    let after = session.permitted();
    Ok(Answer {
        refusal: 0,
        outcome: outcome_number(effect.outcome),
        lost: before.without(after).bits(),
        gained: after.without(before).bits(),
        written: effect.written,
    })
}

fn outcome_number(outcome: Outcome) -> u8 {
    match outcome {
        Outcome::Done => 0,
        Outcome::Unchanged => 1,
        Outcome::Mismatch => 2,
        Outcome::AtLimit => 3,
    }
}
