//! Which call comes next: long walks of one session or one row through their
//! events, and single calls on records and rows of any sort.

use crate::call::{Call, Said, Seen, Which};
use crate::numbers::Numbers;
use crate::row_scenes::{self, RowWalk};
use crate::widths::{ALL_APPS, APPLICATIONS, APPS, LAST, LAST_APP};
use crate::{areas, records};
use second::{Fields, Moved};

/// A session on its way, with the wishes that are kept beside it.
struct Walk {
    record: Vec<u8>,
    wishes: u32,
    left: usize,
}

pub struct Scenes {
    numbers: Numbers,
    walk: Option<Walk>,
    row_walk: Option<RowWalk>,
}

impl Scenes {
    pub fn from_seed(seed: u64) -> Scenes {
        Scenes {
            numbers: Numbers::from_seed(seed),
            walk: None,
            row_walk: None,
        }
    }

    pub fn next(&mut self) -> Call {
        let numbers = &mut self.numbers;
        if let Some(walk) = &self.walk {
            return step(numbers, walk.record.clone(), walk.wishes);
        }
        if self.row_walk.is_none() && numbers.chance(1) {
            self.row_walk = Some(RowWalk::new(numbers));
        }
        if let Some(walk) = &self.row_walk {
            return walk.next(numbers);
        }
        match numbers.weighted(&[4, 10, 36, 40, 10]) {
            0 => creation(numbers),
            1 => {
                let hint = records::applications(numbers);
                Call {
                    area: areas::any(numbers, hint),
                    ..Call::new(Which::Read)
                }
            }
            2 => single(numbers),
            3 => row_scenes::single(numbers),
            _ => row_scenes::beside_a_row(numbers),
        }
    }

    /// Goes on from what was seen.
    pub fn saw(&mut self, call: &Call, seen: &Seen) {
        let begun = begun(call, seen);
        if let Some(walk) = &mut self.walk {
            if call.takes("record") {
                walk.record.clone_from(&seen.left.record);
            }
            if let Some((record, _)) = begun {
                walk.record = record;
            }
            walk.wishes = kept(walk.wishes, seen);
            walk.left -= 1;
            if walk.left == 0 {
                self.walk = None;
            }
        } else if let Some(walk) = &mut self.row_walk {
            walk.saw(call, seen);
            if walk.is_over() {
                self.row_walk = None;
            }
        } else if let Some((record, wishes)) = begun {
            let long = match call.which {
                Which::Create => &[1, 5, 20, 60, 200][..],
                // There are more of these, and fewer kinds to come and go.
                _ => &[1, 5, 20],
            };
            self.walk = Some(Walk {
                record,
                wishes,
                left: self.numbers.one_of(long),
            });
        }
    }
}

/// The record of a session that was created or moved forward, and its wishes.
fn begun(call: &Call, seen: &Seen) -> Option<(Vec<u8>, u32)> {
    match (call.which, &seen.said) {
        (Which::Create, Said::Refusal(0)) => Some((seen.left.record.clone(), call.settings.wishes)),
        (Which::Forward, Said::Moved(Moved { refusal: 0, .. })) => {
            Some((seen.left.kind2.clone(), 0))
        }
        _ => None,
    }
}

fn creation(numbers: &mut Numbers) -> Call {
    let record = records::room(numbers, records::LENGTH);
    Call {
        settings: records::settings(numbers),
        ..Call::on_record(Which::Create, record)
    }
}

/// The calls on a record, with how often each comes: alone, and as a step of a
/// session in Ready, Open, Held and Gone.
const ON_RECORD: &[(Which, [usize; 5])] = &[
    (Which::Initialization, [18, 50, 3, 4, 4]),
    (Which::Capability, [20, 3, 40, 4, 4]),
    (Which::LocalChange, [20, 15, 30, 25, 30]),
    (Which::Mismatch, [7, 4, 2, 4, 4]),
    (Which::Hello, [12, 10, 8, 40, 35]),
    (Which::Closed, [5, 2, 3, 3, 3]),
    (Which::Permitted, [6, 4, 4, 4, 4]),
    (Which::PermittedKinds, [4, 4, 4, 4, 4]),
    (Which::RetryInterval, [3, 4, 3, 8, 8]),
    (Which::Sound, [5, 4, 3, 4, 4]),
    (Which::WhyNot, [6, 4, 6, 4, 4]),
    (Which::Wish, [24, 6, 24, 10, 12]),
    (Which::WishSac, [6, 4, 2, 2, 2]),
    (Which::Wanted, [6, 2, 4, 2, 2]),
    (Which::Forward, [20, 1, 1, 1, 1]),
    (Which::Back, [20, 4, 4, 4, 4]),
];

/// A call on a record of any sort.
fn single(numbers: &mut Numbers) -> Call {
    let record = records::any(numbers);
    let wishes = records::wishes(numbers);
    on_record(numbers, 0, record, wishes, areas::any)
}

/// The next step of a walk, mostly one that its state is for.
fn step(numbers: &mut Numbers, record: Vec<u8>, wishes: u32) -> Call {
    let state = records::fields(&record).state;
    let column = 1 + usize::from(state.min(records::GONE));
    on_record(numbers, column, record, wishes, mostly_good)
}

/// A call on a record by this column of the weights, with what else it takes.
fn on_record(
    numbers: &mut Numbers,
    column: usize,
    record: Vec<u8>,
    wishes: u32,
    area: fn(&mut Numbers, hint: u16) -> Vec<u8>,
) -> Call {
    let weights = ON_RECORD.iter().map(|(_, weights)| weights[column]);
    let weights: Vec<usize> = weights.collect();
    let (which, _) = ON_RECORD[numbers.weighted(&weights)];
    let session = records::fields(&record);
    let hint = records::hint(&session);
    let mut call = Call::new(which);
    match which {
        Which::Forward => {
            call.kind1 = records::to_be_moved(numbers, &record);
            call.kind2 = records::room(numbers, records::LENGTH);
        }
        Which::Back => {
            call.kind2 = records::to_be_moved_back(numbers, record);
            call.kind1 = records::room(numbers, records::KIND1_LENGTH);
        }
        _ if call.takes("record") => call.record = record,
        _ => {}
    }
    if call.takes("area") {
        call.area = area(numbers, hint);
    }
    if call.takes("ta_id") {
        call.ta_id = ta_id_to_change(numbers, hint);
    }
    if call.takes("wishes") {
        call = with_wishes(numbers, call, wishes);
    } else if call.takes("room") {
        call.room = room(numbers, MESSAGE);
    }
    if call.takes("on") {
        call.on = on_or_off(numbers, &session, call.ta_id);
    }
    if call.takes("number") {
        call.number = hello_number(numbers, session.hello);
    }
    if call.takes("kind") {
        call.kind = kind(numbers);
    }
    call
}

pub fn mostly_good(numbers: &mut Numbers, hint: u16) -> Vec<u8> {
    if numbers.chance(85) {
        areas::well_formed(numbers, hint)
    } else {
        areas::damaged(numbers, hint)
    }
}

/// A TA-Id, often one that matters to the session, now and then none at all.
pub fn ta_id_to_change(numbers: &mut Numbers, hint: u16) -> u32 {
    let known = numbers.between(1, APPLICATIONS) as u32;
    match numbers.weighted(&[45, 40, 15]) {
        0 if hint != 0 => loop {
            let bit = numbers.below(APPLICATIONS);
            if hint >> bit & 1 == 1 {
                break bit as u32 + 1;
            }
        },
        2 => out_of_range(numbers, known, LAST + 1),
        _ => known,
    }
}

/// More often a change than not.
pub fn on_or_off(numbers: &mut Numbers, session: &Fields, ta_id: u32) -> bool {
    match ta_id {
        1..=LAST if numbers.chance(60) => session.enabled >> (ta_id - 1) & 1 == 0,
        _ => numbers.flag(),
    }
}

/// The call with wishes, mostly those that are kept, and with what goes with them.
pub fn with_wishes(numbers: &mut Numbers, mut call: Call, kept: u32) -> Call {
    call.wishes = match numbers.weighted(&[85, 5, 10]) {
        0 => kept,
        1 => records::wishes(numbers),
        _ => records::beyond(numbers, kept, APPS),
    };
    if call.takes("app") {
        call.app = app(numbers);
    }
    if call.takes("disable") {
        let changes = numbers.chance(60) && (1..=LAST_APP).contains(&call.app);
        call.disable = match changes {
            true => call.wishes >> (call.app - 1) & 1 == 0,
            false => numbers.flag(),
        };
    }
    if call.takes("room") {
        let needed = match call.which {
            Which::WishSac => 5 + (call.wishes & ALL_APPS).count_ones() as usize,
            _ => WISH,
        };
        call.room = room(numbers, needed);
    }
    call
}

/// The wishes to keep after a call.
pub fn kept(wishes: u32, seen: &Seen) -> u32 {
    match &seen.said {
        Said::Wished(wished) if wished.answer.refusal == 0 => wished.wishes,
        _ => wishes,
    }
}

/// A SAC App, now and then a number about them, or one that is none.
fn app(numbers: &mut Numbers) -> u32 {
    let known = numbers.between(1, APPS) as u32;
    match numbers.weighted(&[80, 10, 10]) {
        0 => known,
        1 => numbers.between(0, 8) as u32,
        _ => out_of_range(numbers, known, LAST_APP + 1),
    }
}

/// Octets of the messages of a local change and of a wish.
pub const MESSAGE: usize = 17;
const WISH: usize = 14;

/// Room for what is written, about as much as it needs.
pub fn room(numbers: &mut Numbers, needed: usize) -> Vec<u8> {
    let length = match numbers.below(3) {
        0 => numbers.between(needed - 1, needed + 1),
        1 => numbers.between(needed, 40),
        _ => numbers.between(0, 40),
    };
    numbers.octets(length)
}

pub fn kind(numbers: &mut Numbers) -> u32 {
    let kind = numbers.below(13) as u32;
    if numbers.chance(90) {
        kind
    } else {
        out_of_range(numbers, kind, 10)
    }
}

/// A number that must not be taken for `inside`, or 0.
pub fn out_of_range(numbers: &mut Numbers, inside: u32, first: u32) -> u32 {
    let random = numbers.word();
    let choices = [
        0,
        first,
        first + 1,
        16,
        32,
        inside + 16,
        inside + 32,
        inside | 0x100,
        inside | 0x1_0000,
        inside | 0x8000_0000,
        u32::MAX,
        random,
    ];
    numbers.one_of(&choices)
}

/// A Hello number about the recorded one, or any.
pub fn hello_number(numbers: &mut Numbers, recorded: u32) -> u32 {
    let random = records::word(numbers);
    let choices = [
        recorded,
        recorded,
        recorded.wrapping_add(1),
        recorded.wrapping_add(1),
        recorded.wrapping_sub(1),
        recorded ^ 0x8000_0000,
        recorded ^ 0x0001_0000,
        recorded / 2,
        0,
        random,
    ];
    // Nothing is higher than the last one, so it comes seldom.
    if numbers.chance(4) {
        u32::MAX
    } else {
        numbers.one_of(&choices)
    }
}
