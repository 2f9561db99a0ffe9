//! Calls on rows: long walks of one row through the events of its sessions, and
//! single calls on rows of any sort.

use crate::call::{Call, Said, Seen, Which, ROW_EVENTS};
use crate::numbers::Numbers;
use crate::widths::{ALL_APPLICATIONS, LAST};
use crate::{areas, records, rows, scenes};
use second::{no_limits, recount, Event, Fields, Limits, Totals};

const INITIALIZATION: usize = 0;
const CAPABILITY: usize = 1;
const LOCAL_CHANGE: usize = 2;
const CLOSED: usize = 5;

/// A row on its way, from fresh sessions.
pub struct RowWalk {
    row: Vec<Fields>,
    /// The wishes of each session.
    wishes: Vec<u32>,
    limits: Limits,
    totals: Totals,
    /// The applications that its sessions have to do with.
    few: u16,
    left: usize,
}

impl RowWalk {
    pub fn new(numbers: &mut Numbers) -> RowWalk {
        let few = rows::few(numbers);
        let length = rows::length(numbers);
        let row: Vec<Fields> = (0..length).map(|_| rows::fresh(numbers, few)).collect();
        let wishes = (0..length).map(|_| records::wishes(numbers)).collect();
        let mut limits = no_limits();
        // Low enough to be reached, for some or for all.
        let highest = numbers.one_of(&[2, 3, length / 2, length]);
        for limit in &mut limits.of {
            if numbers.chance(80) {
                *limit = numbers.between(0, highest) as u8;
            }
        }
        RowWalk {
            row,
            wishes,
            limits,
            totals: Totals::default(),
            few,
            left: numbers.one_of(&[10, 30, 60]) + 3 * length,
        }
    }

    pub fn next(&self, numbers: &mut Numbers) -> Call {
        let session = numbers.one_of(&self.row);
        match numbers.weighted(&[80, 7, 7, 2, 2, 1, 1, 8, 5, 5]) {
            0 => self.event(numbers),
            1 => set_limit(numbers, &self.row, self.few, self.limits),
            2 => row_count(numbers, self.row.clone(), self.few),
            3 => Call::on_record(Which::Load, records::stored(&session)),
            4 => store(session, numbers.octets(records::LENGTH)),
            5 => of_session(Which::SessionKinds, session),
            6 => of_session(Which::SessionRetry, session),
            7 => session_wish(numbers, session, self.wishes[self.place(&session)]),
            8 => kind_total(numbers, self.totals),
            _ => Call::on_row(Which::Recount, self.row.clone()),
        }
    }

    /// The number of a session of the row; of equal ones the first.
    fn place(&self, session: &Fields) -> usize {
        let place = self.row.iter().position(|other| other == session);
        place.expect("a session of this row")
    }

    /// An event of one session, mostly one that its state is for.
    fn event(&self, numbers: &mut Numbers) -> Call {
        let at = self.at(numbers);
        let session = self.row.get(at as usize).copied().unwrap_or_default();
        // By number; the last is none of the six. Held and Gone wait for a
        // change or a Hello.
        let weights = match session.state {
            records::READY => [60, 2, 10, 3, 8, 2, 1],
            records::OPEN => [2, 30, 22, 3, 8, 12, 1],
            _ => [3, 3, 25, 3, 45, 2, 1],
        };
        let which = numbers.weighted(&weights);
        let totals = match numbers.chance(90) {
            true => self.totals,
            false => rows::spoiled(numbers, self.totals),
        };
        let call = Call {
            at,
            limits: self.limits,
            totals,
            ..Call::on_row(Which::RowEvent, self.row.clone())
        };
        event(numbers, call, which, &session, self.few)
    }

    /// The number of a session, more often of one that waits to be opened.
    fn at(&self, numbers: &mut Numbers) -> u64 {
        if numbers.chance(2) {
            return rows::outside(numbers, self.row.len());
        }
        let start = numbers.below(self.row.len());
        if numbers.chance(50) {
            for at in (start..self.row.len()).chain(0..start) {
                if self.row[at].state == records::READY {
                    return at as u64;
                }
            }
        }
        start as u64
    }

    /// Goes on from what was seen.
    pub fn saw(&mut self, call: &Call, seen: &Seen) {
        if call.row_event().is_some() {
            self.row.clone_from(&seen.left.row);
            // Spoiled ones are not kept.
            self.totals = match call.given_totals() == self.totals {
                true => seen.totals(),
                false => recount(&self.row).totals,
            };
        }
        if call.which == Which::SessionWish {
            let at = self.place(&call.one);
            self.row[at] = seen.left.one;
            self.wishes[at] = scenes::kept(self.wishes[at], seen);
        }
        if let Said::Limited(answer) = &seen.said {
            self.limits = answer.limits;
        }
        self.left -= 1;
    }

    pub fn is_over(&self) -> bool {
        self.left == 0
    }
}

/// A call on a row of any sort.
pub fn single(numbers: &mut Numbers) -> Call {
    let few = rows::few(numbers);
    let mut row = rows::any(numbers, few);
    match numbers.weighted(&[78, 12, 10]) {
        1 => return row_count(numbers, row, few),
        2 => return Call::on_row(Which::Recount, row),
        _ => {}
    }
    let which = numbers.weighted(&[40, 18, 16, 6, 9, 6, 5]);
    let at = if row.is_empty() || numbers.chance(12) {
        rows::outside(numbers, row.len())
    } else {
        numbers.below(row.len()) as u64
    };
    let mut session = Fields::default();
    if let Some(place) = row.get_mut(at as usize) {
        if numbers.chance(85) {
            let state = state_for(numbers, which);
            *place = rows::in_state(numbers, few, state);
        }
        session = *place;
    }
    let call = Call {
        at,
        limits: rows::limits(numbers, &row, few),
        totals: rows::totals(numbers, &row),
        ..Call::on_row(Which::RowEvent, row)
    };
    event(numbers, call, which, &session, few)
}

/// Mostly a state that the event is for.
fn state_for(numbers: &mut Numbers, which: usize) -> u8 {
    match which {
        INITIALIZATION if numbers.chance(80) => records::READY,
        CAPABILITY | LOCAL_CHANGE | CLOSED if numbers.chance(70) => records::OPEN,
        _ => numbers.one_of(&[records::READY, records::OPEN, records::HELD, records::GONE]),
    }
}

/// The call with an event of its session, by the event's number or by its name.
/// By number it is given what it does not need, too, which should make no
/// difference.
fn event(numbers: &mut Numbers, call: Call, which: usize, session: &Fields, few: u16) -> Call {
    let hint = match numbers.below(4) {
        // What the session might use: kinds come and go with it.
        _ if which == LOCAL_CHANGE && numbers.chance(40) => session.listed & ALL_APPLICATIONS,
        0 => records::hint(session),
        // What it uses: without it there may be a mismatch.
        1 => session.enabled & session.listed & ALL_APPLICATIONS,
        _ => few,
    };
    let ta_id = scenes::ta_id_to_change(numbers, hint);
    let on = scenes::on_or_off(numbers, session, ta_id);
    let number = scenes::hello_number(numbers, session.hello);
    let area = match which {
        INITIALIZATION | CAPABILITY => scenes::mostly_good(numbers, hint),
        _ if numbers.chance(30) => areas::any(numbers, hint),
        _ => Vec::new(),
    };
    let room = match which {
        LOCAL_CHANGE => scenes::room(numbers, scenes::MESSAGE),
        _ if numbers.chance(30) => scenes::room(numbers, scenes::MESSAGE),
        _ => Vec::new(),
    };
    let by_number = Call {
        event: Event {
            which: event_number(numbers, which),
            ta_id,
            on: on_number(numbers, on),
            number,
        },
        area,
        room,
        ..call
    };
    match ROW_EVENTS.get(which) {
        Some(&named) if numbers.flag() => by_name(by_number, named, on),
        _ => by_number,
    }
}

/// The same through the call that has the event's name, which takes only what the
/// event needs.
fn by_name(call: Call, named: Which, on: bool) -> Call {
    let mut other = Call {
        at: call.at,
        kept: call.totals,
        ..Call::on_row(named, call.row)
    };
    if other.takes("limits") {
        other.limits = call.limits;
    }
    if other.takes("area") {
        other.area = call.area;
    }
    if other.takes("ta_id") {
        other.ta_id = call.event.ta_id;
    }
    if other.takes("on") {
        other.on = on;
    }
    if other.takes("number") {
        other.number = call.event.number;
    }
    if other.takes("room") {
        other.room = call.room;
    }
    other
}

/// The number of an event, or one that is no event's.
fn event_number(numbers: &mut Numbers, which: usize) -> u32 {
    if which < ROW_EVENTS.len() {
        return which as u32;
    }
    let known = numbers.below(ROW_EVENTS.len()) as u32;
    let choices = [
        6,
        6,
        7,
        255,
        known | 0x8,
        known | 0x100,
        known | 0x1_0000,
        known | 0x8000_0000,
        u32::MAX,
    ];
    numbers.one_of(&choices)
}

/// Any number but 0 is on.
fn on_number(numbers: &mut Numbers, on: bool) -> u32 {
    match on {
        true if numbers.flag() => 1,
        true => numbers.one_of(&[2, 3, 0x80, 0x100, 0x1_0000, 0x8000_0000, u32::MAX]),
        false => 0,
    }
}

fn row_count(numbers: &mut Numbers, row: Vec<Fields>, few: u16) -> Call {
    Call {
        ta_id: scenes::ta_id_to_change(numbers, few),
        ..Call::on_row(Which::RowCount, row)
    }
}

fn set_limit(numbers: &mut Numbers, row: &[Fields], few: u16, limits: Limits) -> Call {
    let ta_id = scenes::ta_id_to_change(numbers, few);
    let count = match ta_id {
        1..=LAST => rows::counts(row)[ta_id as usize - 1],
        _ => 0,
    };
    Call {
        limits,
        ta_id,
        limit: rows::limit_to_set(numbers, count),
        ..Call::new(Which::SetLimit)
    }
}

fn kind_total(numbers: &mut Numbers, totals: Totals) -> Call {
    Call {
        totals,
        kind: scenes::kind(numbers),
        ..Call::new(Which::KindTotal)
    }
}

/// A session stored in this room.
fn store(session: Fields, room: Vec<u8>) -> Call {
    Call {
        session,
        ..Call::on_record(Which::Store, room)
    }
}

/// A question about a session by itself.
fn of_session(which: Which, session: Fields) -> Call {
    Call {
        session,
        ..Call::new(which)
    }
}

/// A wish of a session that stands where a row would have it.
fn session_wish(numbers: &mut Numbers, session: Fields, kept: u32) -> Call {
    let call = Call {
        one: session,
        ..Call::new(Which::SessionWish)
    };
    scenes::with_wishes(numbers, call, kept)
}

/// A call that serves rows and is on none: sessions to and from records, limits, totals.
pub fn beside_a_row(numbers: &mut Numbers) -> Call {
    match numbers.weighted(&[30, 30, 5, 20, 8, 7, 40, 15]) {
        0 => Call::on_record(Which::Load, records::any(numbers)),
        1 => {
            let room = records::room(numbers, records::LENGTH);
            store(any_session(numbers), room)
        }
        2 => Call::new(Which::NoLimits),
        3 => {
            let few = rows::few(numbers);
            let limits = rows::limits(numbers, &[], few);
            set_limit(numbers, &[], few, limits)
        }
        4 => of_session(Which::SessionKinds, any_session(numbers)),
        5 => of_session(Which::SessionRetry, any_session(numbers)),
        6 => {
            let (session, wishes) = (any_session(numbers), records::wishes(numbers));
            session_wish(numbers, session, wishes)
        }
        _ => {
            let totals = rows::any_totals(numbers);
            kind_total(numbers, totals)
        }
    }
}

fn any_session(numbers: &mut Numbers) -> Fields {
    if numbers.chance(60) {
        records::sound_session(numbers)
    } else {
        records::damaged_session(numbers)
    }
}
