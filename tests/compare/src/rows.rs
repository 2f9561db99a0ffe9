//! Rows of sessions, their limits and numbers in them. Sessions of one row have
//! to do with the same few applications, so that limits come to be reached.

use crate::numbers::Numbers;
use crate::records::{self, IN_FORCE, OPEN, READY, USES_TAC};
use crate::widths::{APPLICATIONS, KINDS};
use second::{recount, Fields, Limits, Totals};

/// The most sessions that a row may have.
pub const LONGEST: usize = 64;

/// Session Protection, and the kinds which need a capability.
const PROTECTION: u16 = 1 << 7;
const MULTIPOINT: u16 = 0x07C;

/// A set of one to three applications, or of one that may open kinds which need a
/// capability, and more.
pub fn few(numbers: &mut Numbers) -> u16 {
    let multipoint = match numbers.chance(20) {
        true => 1 << (numbers.one_of(&[3, 8, 8, 11]) - 1),
        false => 0,
    };
    (0..numbers.between(1, 3)).fold(multipoint, |set, _| set | 1 << numbers.below(APPLICATIONS))
}

/// Some of a set, one at least.
fn some_of(numbers: &mut Numbers, set: u16) -> u16 {
    loop {
        let some = set & numbers.word() as u16;
        if some != 0 {
            return some;
        }
    }
}

/// A session that has just been created.
pub fn fresh(numbers: &mut Numbers, few: u16) -> Fields {
    let mut flags = numbers.octet() & (records::INITIATING | records::ACTIVE | records::DROPS);
    if numbers.chance(85) {
        flags |= USES_TAC;
    }
    if numbers.chance(15) {
        flags |= records::INITIATING | records::ACTIVE | records::DROPS;
    }
    let enabled = if numbers.chance(80) {
        some_of(numbers, few)
    } else {
        records::applications(numbers)
    };
    Fields {
        state: READY,
        flags,
        enabled,
        protects: records::kinds(numbers),
        ours: records::capabilities(numbers),
        next: records::word(numbers),
        ..Fields::default()
    }
}

/// A sound session in any state.
fn session(numbers: &mut Numbers, few: u16) -> Fields {
    let mut session = records::sound_session(numbers);
    if numbers.chance(20) {
        return session;
    }
    session.enabled = some_of(numbers, few);
    if few & PROTECTION != 0 && numbers.flag() {
        session.protects |= MULTIPOINT;
    }
    if session.flags & IN_FORCE != 0 {
        session.listed = session.enabled;
        // Enabled alone and listed alone must not count.
        let beyond = records::applications(numbers);
        match numbers.below(4) {
            0 => session.enabled |= beyond,
            1 => session.listed |= beyond,
            _ => {}
        }
    }
    session
}

/// A sound session that uses applications.
fn user(numbers: &mut Numbers, few: u16) -> Fields {
    such(numbers, few, |session| session.flags & IN_FORCE != 0)
}

/// A sound session in this state.
pub fn in_state(numbers: &mut Numbers, few: u16, state: u8) -> Fields {
    such(numbers, few, |session| session.state == state)
}

/// A sound session of this sort.
fn such(numbers: &mut Numbers, few: u16, fits: impl Fn(&Fields) -> bool) -> Fields {
    loop {
        let session = session(numbers, few);
        if fits(&session) {
            return session;
        }
    }
}

/// A length for a row, often one at the edge.
fn any_length(numbers: &mut Numbers) -> usize {
    match numbers.weighted(&[6, 10, 10, 36, 12, 6, 10, 6, 4]) {
        0 => 0,
        1 => 1,
        2 => 2,
        3 => numbers.between(3, 8),
        4 => numbers.between(9, 62),
        5 => LONGEST - 1,
        6 => LONGEST,
        7 => LONGEST + 1,
        _ => LONGEST + 2,
    }
}

/// A length that a row may have.
pub fn length(numbers: &mut Numbers) -> usize {
    match numbers.weighted(&[8, 15, 45, 20, 4, 8]) {
        0 => 1,
        1 => 2,
        2 => numbers.between(3, 8),
        3 => numbers.between(9, 40),
        4 => LONGEST - 1,
        _ => LONGEST,
    }
}

/// A row of any sort, sound most of the time.
pub fn any(numbers: &mut Numbers, few: u16) -> Vec<Fields> {
    let sort = numbers.weighted(&[68, 12, 20]);
    let length = if sort == 2 && numbers.flag() {
        numbers.one_of(&[LONGEST - 1, LONGEST])
    } else {
        any_length(numbers)
    };
    let mut row: Vec<Fields> = (0..length)
        .map(|_| match sort {
            0 => session(numbers, few),
            // A crowd in which each uses something, or all of the few.
            1 => user(numbers, few),
            _ => {
                let mut user = user(numbers, few);
                user.enabled |= few;
                user.listed |= few;
                user
            }
        })
        .collect();
    if length > 0 && numbers.chance(18) {
        for _ in 0..numbers.one_of(&[1, 1, 1, 2, 3]) {
            row[numbers.below(length)] = records::damaged_session(numbers);
        }
    }
    row
}

/// How many sessions use each application.
pub fn counts(row: &[Fields]) -> [u8; APPLICATIONS] {
    let mut counts = [0; APPLICATIONS];
    for session in row {
        if session.state == OPEN && session.flags & IN_FORCE != 0 {
            let common = session.enabled & session.listed;
            for (bit, count) in counts.iter_mut().enumerate() {
                *count += (common >> bit & 1) as u8;
            }
        }
    }
    counts
}

/// Limits for a row, most of them about the counts that it has.
pub fn limits(numbers: &mut Numbers, row: &[Fields], few: u16) -> Limits {
    let counts = counts(row);
    let sort = numbers.weighted(&[22, 22, 14, 22, 12, 8]);
    let some = some_of(numbers, few);
    Limits {
        of: std::array::from_fn(|place| {
            let count = counts[place];
            match sort {
                // None has a place left, most of them just not.
                0 if numbers.chance(70) => count,
                0 => numbers.between(0, count.into()) as u8,
                // Only some have one.
                1 => count + u8::from(some >> place & 1 == 1),
                // All have just one.
                2 => count + 1,
                3 => about(numbers, count),
                4 => any_limit(numbers),
                _ => LONGEST as u8,
            }
        }),
    }
}

/// The count, or one more or less.
fn about(numbers: &mut Numbers, count: u8) -> u8 {
    (count + numbers.one_of(&[0, 1, 2])).saturating_sub(1)
}

fn any_limit(numbers: &mut Numbers) -> u8 {
    let random = numbers.octet();
    numbers.one_of(&[0, 1, 2, 3, 63, 64, 65, 66, 127, 128, 192, 255, random])
}

/// A limit to set for an application with this count, now and then one that is
/// too high.
pub fn limit_to_set(numbers: &mut Numbers, count: u8) -> u32 {
    let limit = about(numbers, count).into();
    let small = numbers.between(0, 3) as u32;
    let edge = numbers.one_of(&[63, 64, 64]);
    let beyond = numbers.one_of(&[65, 66, 128, 255]);
    let choices = [
        limit,
        limit,
        limit,
        small,
        small,
        edge,
        beyond,
        limit | 0x100,
        small | 0x1_0000,
        edge | 0x8000_0000,
        u32::MAX,
    ];
    numbers.one_of(&choices)
}

/// Totals to hand in with a row: its own, its own but for some, or any.
pub fn totals(numbers: &mut Numbers, row: &[Fields]) -> Totals {
    let own = recount(row).totals;
    match numbers.weighted(&[30, 32, 10, 20, 8]) {
        0 => own,
        1 => spoiled(numbers, own),
        2 => {
            // All may move but one.
            let total = numbers.between(1, 63) as u8;
            spoiled(numbers, Totals { of: [total; KINDS] })
        }
        3 => Totals {
            of: [any_total(numbers); KINDS],
        },
        _ => any_totals(numbers),
    }
}

pub fn any_totals(numbers: &mut Numbers) -> Totals {
    Totals {
        of: std::array::from_fn(|_| any_total(numbers)),
    }
}

/// The totals with one of them another, or with some.
pub fn spoiled(numbers: &mut Numbers, mut totals: Totals) -> Totals {
    for _ in 0..numbers.one_of(&[1, 1, 1, 2, 3]) {
        totals.of[numbers.below(KINDS)] = any_total(numbers);
    }
    totals
}

/// A total, most often about the edges of what it may come to.
fn any_total(numbers: &mut Numbers) -> u8 {
    let random = numbers.octet();
    let inside = numbers.between(0, LONGEST) as u8;
    let choices = [
        0, 0, 1, 2, 62, 63, 63, 64, 64, 65, 65, 66, 66, 67, 127, 128, 192, 200, 254, 255, 255,
        inside, inside, random,
    ];
    numbers.one_of(&choices)
}

/// A number that no session of a row of this length has; one that must not be
/// taken for a session's.
pub fn outside(numbers: &mut Numbers, length: usize) -> u64 {
    let length = length as u64;
    let inside = numbers.below(length.max(1) as usize) as u64;
    let far = [
        1 << 32,
        inside | 1 << 32,
        inside | 1 << 63,
        1 << 63,
        u64::MAX - 1,
        u64::MAX,
    ];
    let choices = [
        length,
        length,
        length,
        length + 1,
        length.max(64),
        length.max(65),
        inside + 0x100,
        numbers.one_of(&far),
        numbers.one_of(&far),
    ];
    numbers.one_of(&choices)
}
