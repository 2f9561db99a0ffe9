//! Stored records, sound and not.

use crate::numbers::Numbers;
use crate::widths::{
    ALL_APPLICATIONS, ALL_APPS, ALL_CAPABILITIES, ALL_KINDS, APPLICATIONS, APPS, CAPABILITIES,
    KINDS,
};
use second::{Fields, Settings};

pub const LENGTH: usize = 24;
pub const KIND1_LENGTH: usize = 22;

/// What a record begins with, and one of kind 1: how many octets follow the first two, and
/// the kind.
pub const HEAD: [u8; 4] = [22, 0, 2, 0];
const KIND1_HEAD: [u8; 4] = [20, 0, 1, 0];

pub const READY: u8 = 0;
pub const OPEN: u8 = 1;
pub const HELD: u8 = 2;
pub const GONE: u8 = 3;

pub const INITIATING: u8 = 1 << 0;
pub const ACTIVE: u8 = 1 << 1;
pub const USES_TAC: u8 = 1 << 2;
pub const DROPS: u8 = 1 << 3;
pub const IN_FORCE: u8 = 1 << 4;
pub const DYNAMIC: u8 = 1 << 5;
pub const HELLO: u8 = 1 << 6;

/// The record with these fields, whether or not they go together.
pub fn stored(session: &Fields) -> Vec<u8> {
    let mut octets = HEAD.to_vec();
    octets.extend([session.state, session.flags]);
    octets.extend(session.enabled.to_le_bytes());
    octets.extend(session.listed.to_le_bytes());
    octets.extend(session.protects.to_le_bytes());
    octets.extend([session.disabled, 0]);
    octets.extend(session.hello.to_le_bytes());
    octets.extend(session.next.to_le_bytes());
    octets.extend([session.ours, session.theirs]);
    octets
}

/// The record with the head of the other kind; what is wrong with its head stays so.
pub fn other_head(record: &[u8]) -> Vec<u8> {
    let mut octets = record.to_vec();
    for (octet, (one, other)) in octets.iter_mut().zip(HEAD.into_iter().zip(KIND1_HEAD)) {
        *octet ^= one ^ other;
    }
    octets
}

/// A record as one of kind 1, as sound or damaged as it is; its capabilities are left out.
pub fn to_kind1(record: &[u8]) -> Vec<u8> {
    let mut octets = other_head(record);
    octets.truncate(record.len().saturating_sub(LENGTH - KIND1_LENGTH));
    octets
}

/// The other way, with no capability at either end.
pub fn to_kind2(record: &[u8]) -> Vec<u8> {
    let mut octets = other_head(record);
    octets.extend([0; LENGTH - KIND1_LENGTH]);
    octets
}

/// The fields of a record, whatever they are; none if it is too short.
pub fn fields(record: &[u8]) -> Fields {
    if record.len() < LENGTH {
        return Fields::default();
    }
    let pair = |at: usize| u16::from_le_bytes([record[at], record[at + 1]]);
    let number = |at: usize| u32::from(pair(at)) | u32::from(pair(at + 2)) << 16;
    Fields {
        state: record[4],
        flags: record[5],
        disabled: record[12],
        enabled: pair(6),
        listed: pair(8),
        protects: pair(10),
        ours: record[22],
        theirs: record[23],
        hello: number(14),
        next: number(18),
    }
}

/// A set of applications: few, half of them or all.
pub fn applications(numbers: &mut Numbers) -> u16 {
    let bits = match numbers.below(5) {
        0 => 1 << numbers.below(APPLICATIONS),
        1 => 1 << numbers.below(APPLICATIONS) | 1 << numbers.below(APPLICATIONS),
        2 => numbers.word() & numbers.word(),
        3 => numbers.word(),
        _ => {
            let all = u32::from(ALL_APPLICATIONS);
            numbers.one_of(&[0, all, all >> 1, all - 1])
        }
    };
    bits as u16 & ALL_APPLICATIONS
}

pub fn kinds(numbers: &mut Numbers) -> u16 {
    let bits = match numbers.below(4) {
        0 => 0,
        1 => 1 << numbers.below(KINDS),
        2 => u32::from(ALL_KINDS),
        _ => numbers.word(),
    };
    bits as u16 & ALL_KINDS
}

/// Wishes that can be kept: none, one, all or any.
pub fn wishes(numbers: &mut Numbers) -> u32 {
    match numbers.below(5) {
        0 => 0,
        1 => 1 << numbers.below(APPS),
        2 => ALL_APPS,
        _ => numbers.word() & ALL_APPS,
    }
}

/// A set of capabilities: all, none or some.
pub fn capabilities(numbers: &mut Numbers) -> u8 {
    match numbers.below(6) {
        0 | 1 => ALL_CAPABILITIES,
        2 => 0,
        _ => numbers.octet() & ALL_CAPABILITIES,
    }
}

/// A set with something beyond its width.
pub fn beyond(numbers: &mut Numbers, set: u32, width: usize) -> u32 {
    match numbers.below(4) {
        0 => set | 1 << width,
        1 => set | 1 << numbers.between(width, 31),
        2 => set | numbers.word(),
        _ => u32::MAX,
    }
}

/// What a session is created with, now and then with a set that is none.
pub fn settings(numbers: &mut Numbers) -> Settings {
    let mut settings = Settings {
        initiating: numbers.flag(),
        active: numbers.flag(),
        uses_tac: numbers.chance(75),
        drops: numbers.flag(),
        protected_kinds: kinds(numbers).into(),
        enabled: applications(numbers).into(),
        first_number: word(numbers),
        wishes: wishes(numbers),
        capabilities: capabilities(numbers).into(),
    };
    for (set, width) in [
        (&mut settings.protected_kinds, KINDS),
        (&mut settings.enabled, APPLICATIONS),
        (&mut settings.wishes, APPS),
        (&mut settings.capabilities, CAPABILITIES),
    ] {
        if numbers.chance(10) {
            *set = beyond(numbers, *set, width);
        }
    }
    settings
}

/// A 32-bit number, often one at the edge.
pub fn word(numbers: &mut Numbers) -> u32 {
    let random = numbers.word();
    let edges = [
        0,
        1,
        2,
        0xFF,
        0x100,
        0xFFFF,
        0x1_0000,
        0x7FFF_FFFF,
        0x8000_0000,
        u32::MAX - 1,
        u32::MAX,
        u32::MAX,
    ];
    if numbers.flag() {
        random
    } else {
        numbers.one_of(&edges)
    }
}

/// A record that is sound, of any session.
pub fn sound(numbers: &mut Numbers) -> Vec<u8> {
    stored(&sound_session(numbers))
}

pub fn sound_session(numbers: &mut Numbers) -> Fields {
    let mut flags = numbers.octet() & (INITIATING | ACTIVE | USES_TAC | DROPS);
    if numbers.flag() {
        flags |= USES_TAC;
    }
    // Gone takes three of them together.
    if numbers.chance(15) {
        flags |= INITIATING | ACTIVE | DROPS;
    }
    let drops = flags & (INITIATING | ACTIVE | DROPS) == INITIATING | ACTIVE | DROPS;
    let state = if flags & ACTIVE == 0 {
        numbers.one_of(&[READY, OPEN, OPEN])
    } else if drops {
        numbers.one_of(&[READY, OPEN, OPEN, GONE])
    } else {
        numbers.one_of(&[READY, OPEN, OPEN, HELD])
    };
    let mut fields = Fields {
        state,
        flags,
        enabled: applications(numbers),
        protects: kinds(numbers),
        ours: capabilities(numbers),
        next: word(numbers),
        ..Fields::default()
    };
    if state == OPEN {
        fields.theirs = capabilities(numbers);
        // What both hold is what shows.
        if numbers.chance(30) {
            fields.theirs |= fields.ours;
        }
        if numbers.chance(70) {
            fields.flags |= DYNAMIC;
        }
        if numbers.flag() {
            fields.disabled = numbers.octet() & 0x0F;
        }
        if flags & USES_TAC != 0 && numbers.chance(75) {
            fields.flags |= IN_FORCE;
            let common = 1 << numbers.below(APPLICATIONS);
            fields.enabled |= common;
            fields.listed = if numbers.flag() {
                // One in common and no more.
                applications(numbers) & !fields.enabled | common
            } else {
                applications(numbers) | common
            };
        }
    }
    if state != GONE && numbers.chance(60) {
        fields.flags |= HELLO;
        fields.hello = word(numbers);
    }
    fields
}

/// A record whose fields are each possible but need not go together.
fn unruly(numbers: &mut Numbers) -> Vec<u8> {
    let sparse = |numbers: &mut Numbers, value: u32| if numbers.flag() { value } else { 0 };
    stored(&Fields {
        state: numbers.below(4) as u8,
        flags: numbers.octet() & 0x7F,
        enabled: applications(numbers),
        listed: {
            let listed = applications(numbers).into();
            sparse(numbers, listed) as u16
        },
        protects: kinds(numbers),
        disabled: {
            let disabled = u32::from(numbers.octet() & 0x0F);
            sparse(numbers, disabled) as u8
        },
        ours: capabilities(numbers),
        theirs: {
            let theirs = capabilities(numbers).into();
            sparse(numbers, theirs) as u8
        },
        hello: {
            let hello = word(numbers);
            sparse(numbers, hello)
        },
        next: word(numbers),
    })
}

/// Held or Gone, in any role, whether or not the role goes there.
fn by_role(numbers: &mut Numbers) -> Vec<u8> {
    let mut fields = Fields {
        state: numbers.one_of(&[HELD, GONE]),
        flags: numbers.octet() & (INITIATING | ACTIVE | USES_TAC | DROPS),
        enabled: applications(numbers),
        protects: kinds(numbers),
        ours: capabilities(numbers),
        next: word(numbers),
        ..Fields::default()
    };
    if numbers.chance(30) {
        fields.flags |= HELLO;
        fields.hello = word(numbers);
    }
    stored(&fields)
}

/// A sound record with one rule between its fields broken.
fn one_rule_broken(numbers: &mut Numbers) -> Vec<u8> {
    let mut octets = sound(numbers);
    match numbers.below(9) {
        0 => octets[4] = numbers.below(6) as u8,
        1 => octets[5] ^= numbers.one_of(&[IN_FORCE, DYNAMIC, HELLO, USES_TAC, ACTIVE, DROPS]),
        2 => octets[12] |= 1 << numbers.below(4),
        3 => octets[8] |= 1 << numbers.below(8),
        4 => (octets[8], octets[9]) = (0, 0),
        5 => octets[14 + numbers.below(4)] |= 1 << numbers.below(8),
        6 => (octets[6], octets[7]) = (0, 0),
        7 => octets[23] |= 1 << numbers.below(CAPABILITIES),
        _ => octets[numbers.one_of(&[0, 1, 2, 3, 13])] ^= 1 << numbers.below(8),
    }
    octets
}

/// A session with a bit set that stands for nothing.
fn one_spare_bit(numbers: &mut Numbers) -> Fields {
    let mut session = sound_session(numbers);
    match numbers.below(9) {
        0 => session.state |= 4 << numbers.below(6),
        1 => session.flags |= 0x80,
        2 => session.disabled |= 0x10 << numbers.below(4),
        3 => session.enabled |= 0x2000 << numbers.below(3),
        4 => session.listed |= 0x2000 << numbers.below(3),
        5 | 6 => session.ours |= 0x08 << numbers.below(5),
        7 => session.theirs |= 0x08 << numbers.below(5),
        _ => session.protects |= 0x400 << numbers.below(6),
    }
    session
}

/// The fields of a record with something wrong in them, most of the time.
pub fn damaged_session(numbers: &mut Numbers) -> Fields {
    let record = match numbers.weighted(&[40, 12, 18, 10, 5, 15]) {
        0 => one_rule_broken(numbers),
        1 => unruly(numbers),
        2 => {
            let mut octets = sound(numbers);
            let (capabilities, other) = (numbers.between(22, 23), numbers.between(4, 12));
            octets[numbers.one_of(&[other, other, other, capabilities])] ^= 1 << numbers.below(8);
            octets
        }
        3 => by_role(numbers),
        4 => numbers.octets(LENGTH),
        _ => stored(&one_spare_bit(numbers)),
    };
    fields(&record)
}

/// A record of any sort.
pub fn any(numbers: &mut Numbers) -> Vec<u8> {
    match numbers.weighted(&[38, 18, 10, 12, 8, 3, 6, 4, 4, 4, 4, 2]) {
        0 => sound(numbers),
        1 => {
            let mut octets = sound(numbers);
            octets[numbers.below(LENGTH)] ^= 1 << numbers.below(8);
            octets
        }
        2 => unruly(numbers),
        3 => one_rule_broken(numbers),
        4 => by_role(numbers),
        5 => numbers.octets(LENGTH),
        6 => {
            let mut octets = sound(numbers);
            let (length, filler) = (any_length(numbers, LENGTH), numbers.octet());
            octets.resize(length, filler);
            octets
        }
        7 => {
            let length = any_length(numbers, LENGTH);
            numbers.octets(length)
        }
        8 => stored(&one_spare_bit(numbers)),
        9 => to_kind1(&sound(numbers)),
        // As version 4.0.0 wrote it.
        10 => other_head(&sound(numbers)),
        _ => mixed_head(numbers),
    }
}

/// A record with the length of one kind and the number of the other.
fn mixed_head(numbers: &mut Numbers) -> Vec<u8> {
    let record = sound(numbers);
    let at = numbers.one_of(&[0, 2]);
    let mut mixed = other_head(&record);
    mixed[at] = record[at];
    mixed
}

/// The record as one to be moved forward: of kind 1, now and then of kind 2, or as version
/// 4.0.0 wrote it.
pub fn to_be_moved(numbers: &mut Numbers, record: &[u8]) -> Vec<u8> {
    match numbers.weighted(&[88, 6, 6]) {
        0 => to_kind1(record),
        1 => record.to_vec(),
        _ => other_head(record),
    }
}

/// The record as one to be moved back, often without capabilities.
pub fn to_be_moved_back(numbers: &mut Numbers, mut record: Vec<u8>) -> Vec<u8> {
    if numbers.chance(40) {
        for octet in record.iter_mut().skip(KIND1_LENGTH) {
            *octet = 0;
        }
    }
    record
}

/// 0 to 64, often close to the right length.
fn any_length(numbers: &mut Numbers, right: usize) -> usize {
    if numbers.flag() {
        numbers.one_of(&[right - 2, right - 1, right + 1, right + 2])
    } else {
        numbers.below(65)
    }
}

/// Room for a record of this length, now and then of another.
pub fn room(numbers: &mut Numbers, right: usize) -> Vec<u8> {
    let length = if numbers.chance(80) {
        right
    } else {
        any_length(numbers, right)
    };
    numbers.octets(length)
}

/// The applications that matter to a session.
pub fn hint(session: &Fields) -> u16 {
    (session.enabled | session.listed) & ALL_APPLICATIONS
}
