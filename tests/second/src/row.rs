//! A row of sessions: how many of them use an application or permit a kind, and
//! the events of one of them. An event changes no other session, and a refused one
//! changes none at all.

use crate::events::Effect;
use crate::fields::Fields;
use crate::kinds::{Application, Kind};
use crate::limits::Limits;
use crate::lists::ApplicationSet;
use crate::session::Session;
use crate::totals::{RowAnswer, RowTotals, Totals};
use crate::{undergo, Answer, Refusal};
use std::slice;

const LONGEST: usize = 64;

/// How many sessions of a row use an application. After a refusal it is 0.
#[derive(Clone, Copy, Debug, Default, PartialEq, Eq)]
#[repr(C)]
pub struct Count {
    pub refusal: u8,
    pub count: u8,
}

/// An event as numbers; which ones count depends on the first.
#[derive(Clone, Copy, Debug, Default, PartialEq, Eq)]
#[repr(C)]
pub struct Event {
    pub which: u32,
    pub ta_id: u32,
    pub on: u32,
    pub number: u32,
}

/// The sessions of a row, all of them sound.
struct Row(Vec<Session>);

impl Row {
    fn of(row: &[Fields]) -> Result<Row, Refusal> {
        if row.is_empty() {
            return Err(Refusal::OutsideRow);
        }
        if row.len() > LONGEST {
            return Err(Refusal::OutsideRow);
        }
        let sessions: Result<Vec<Session>, Refusal> = row.iter().map(Fields::session).collect();
        Ok(Row(sessions?))
    }

    /// The same for an event of session `at`.
    fn for_event(row: &[Fields], at: usize) -> Result<Row, Refusal> {
        if at >= row.len() {
            return Err(Refusal::OutsideRow);
        }
        Row::of(row)
    }

    /// How many sessions use the application.
    fn count(&self, application: Application) -> usize {
        let users = self.0.iter().filter(|session| session.uses(application));
        users.count()
    }

    /// How many sessions permit each kind: the walk over all of them.
    fn totals(&self) -> Totals {
        let mut totals = Totals::default();
        for session in &self.0 {
            let permitted = session.permitted();
            for kind in Kind::ALL {
                if permitted.contains(kind) {
                    totals.count(kind);
                }
            }
        }
        totals
    }

    /// The applications that fewer sessions use than their limits.
    fn below(&self, limits: &Limits) -> ApplicationSet {
        let mut below = ApplicationSet::EMPTY;
        for application in Application::ALL {
            let fewer = self.count(application) < limits.acting(application);
            below.set(application, fewer);
        }
        below
    }
}

/// How many sessions of the row use this application?
pub fn row_count(row: &[Fields], ta_id: u32) -> Count {
    let answer = Row::of(row).and_then(|row| {
        let application = Application::from_ta_id(ta_id).ok_or(Refusal::OutOfRange)?;
        Ok(row.count(application))
    });
    match answer {
        Ok(count) => Count {
            refusal: 0,
            count: count as u8,
        },
        Err(refusal) => Count {
            refusal: refusal.number(),
            count: 0,
        },
    }
}

/// How many sessions of the row permit each kind?
pub fn recount(row: &[Fields]) -> RowTotals {
    match Row::of(row) {
        Ok(row) => RowTotals {
            refusal: 0,
            totals: row.totals(),
        },
        Err(refusal) => RowTotals {
            refusal: refusal.number(),
            totals: Totals::default(),
        },
    }
}

/// Any event of session `at`, by its number.
pub fn row_event(
    row: &mut [Fields],
    at: usize,
    event: Event,
    limits: Limits,
    totals: Totals,
    area: &[u8],
    room: &mut [u8],
) -> RowAnswer {
    let mut kept = totals;
    let answer = match event.which {
        0 => row_initialization(row, at, limits, &mut kept, area),
        1 => row_capability(row, at, &mut kept, area),
        2 => row_local_change(row, at, &mut kept, event.ta_id, event.on != 0, room),
        3 => row_mismatch(row, at, &mut kept),
        4 => row_hello(row, at, &mut kept, event.number),
        5 => row_closed(row, at, &mut kept),
        _ => happen_in(row, at, &mut kept, |_, _| Err(Refusal::WrongState)),
    };
    RowAnswer {
        answer,
        totals: kept,
    }
}

/// An Initialization message arrived; it is held to the limits.
pub fn row_initialization(
    row: &mut [Fields],
    at: usize,
    limits: Limits,
    kept: &mut Totals,
    area: &[u8],
) -> Answer {
    happen_in(row, at, kept, |session, row| {
        session.initialization(area, row.below(&limits))
    })
}

/// A Capability message arrived.
pub fn row_capability(row: &mut [Fields], at: usize, kept: &mut Totals, area: &[u8]) -> Answer {
    happen_in(row, at, kept, |session, _| session.capability(area))
}

/// One application is switched on or off here.
pub fn row_local_change(
    row: &mut [Fields],
    at: usize,
    kept: &mut Totals,
    ta_id: u32,
    on: bool,
    room: &mut [u8],
) -> Answer {
    // The totals may refuse it after its message is written, so not yet into the room.
    let mut written = room.to_vec();
    let answer = happen_in(row, at, kept, |session, _| {
        session.local_change(ta_id, on, &mut written)
    });
    if answer.refusal == 0 {
        room.copy_from_slice(&written);
    }
    answer
}

/// The peer told us of a mismatch.
pub fn row_mismatch(row: &mut [Fields], at: usize, kept: &mut Totals) -> Answer {
    happen_in(row, at, kept, |session, _| session.mismatch_notified())
}

/// A Hello arrived.
pub fn row_hello(row: &mut [Fields], at: usize, kept: &mut Totals, number: u32) -> Answer {
    happen_in(row, at, kept, |session, _| session.hello(number))
}

/// The connection closed.
pub fn row_closed(row: &mut [Fields], at: usize, kept: &mut Totals) -> Answer {
    happen_in(row, at, kept, |session, _| session.closed())
}

/// Takes session `at` out of its row, lets the event happen, and puts the session
/// back and the totals right unless the event was refused. The totals refuse it last.
fn happen_in(
    row: &mut [Fields],
    at: usize,
    kept: &mut Totals,
    event: impl FnOnce(&mut Session, &Row) -> Result<Effect, Refusal>,
) -> Answer {
    let result = Row::for_event(row, at).and_then(|before| {
        let mut session = before.0[at];
        let answer = undergo(&mut session, |session| event(session, &before))?;
        let totals = kept.after(answer)?;
        Ok((session, answer, totals))
    });
    match result {
        Ok((session, answer, totals)) => {
            row[at] = Fields::of(&session);
            *kept = totals;
            answer
        }
        Err(refusal) => refusal.answer(),
    }
}

/// The same for a session that is the whole row, and an event that neither loses nor
/// gains a kind, so that no total is asked for.
pub(crate) fn happen_to(
    session: &mut Fields,
    event: impl FnOnce(&mut Session) -> Result<Effect, Refusal>,
) -> Answer {
    let (row, mut none) = (slice::from_mut(session), Totals::default());
    happen_in(row, 0, &mut none, |session, _| event(session))
}
