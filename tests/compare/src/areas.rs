//! Parameter areas, well formed and damaged.

use crate::numbers::Numbers;
use crate::widths::{APPLICATIONS, CAPABILITIES};

const TAC: u16 = 0x050F;
const SAC: u16 = 0x050D;
const DYNAMIC: u16 = 0x0506;

/// P2MP, MP2MP and HSMP, in the order of their bits.
pub const CAPABILITY_TYPES: [u16; CAPABILITIES] = [0x0508, 0x0509, 0x0902];

pub const U: u16 = 0x8000;
const F: u16 = 0x4000;

const LARGEST: usize = 4096;

/// A TLV; its length field need not fit its value.
#[derive(Clone)]
struct Tlv {
    head: u16,
    length: u16,
    value: Vec<u8>,
}

impl Tlv {
    fn new(head: u16, value: Vec<u8>) -> Tlv {
        Tlv {
            head,
            length: value.len() as u16,
            value,
        }
    }

    fn kind(&self) -> u16 {
        self.head & 0x3FFF
    }
}

/// Is this one of the types that we read?
fn is_ours(kind: u16) -> bool {
    [TAC, SAC, DYNAMIC].contains(&kind) || CAPABILITY_TYPES.contains(&kind)
}

/// One of them, each of the first three as often as all capabilities.
fn one_of_ours(numbers: &mut Numbers) -> u16 {
    let capability = numbers.one_of(&CAPABILITY_TYPES);
    numbers.one_of(&[TAC, SAC, DYNAMIC, capability])
}

fn flatten(tlvs: &[Tlv]) -> Vec<u8> {
    let mut area = Vec::new();
    for tlv in tlvs {
        area.extend(tlv.head.to_be_bytes());
        area.extend(tlv.length.to_be_bytes());
        area.extend(&tlv.value);
    }
    area
}

/// An area of any sort. `hint` is a set of applications (TA-Id n at bit n-1)
/// that matter to the session and should be met often.
pub fn any(numbers: &mut Numbers, hint: u16) -> Vec<u8> {
    if numbers.chance(50) {
        well_formed(numbers, hint)
    } else {
        damaged(numbers, hint)
    }
}

/// An area that a reader must take.
pub fn well_formed(numbers: &mut Numbers, hint: u16) -> Vec<u8> {
    let tlvs = good_tlvs(numbers, hint);
    let mut area = flatten(&tlvs);
    if numbers.chance(1) {
        let length = numbers.one_of(&[LARGEST, LARGEST, LARGEST - 1, LARGEST - 4]);
        fill_to(numbers, &mut area, length);
    }
    area
}

fn good_tlvs(numbers: &mut Numbers, hint: u16) -> Vec<Tlv> {
    let mut tlvs = Vec::new();
    if numbers.chance(70) {
        let value = vec![numbers.octet()];
        tlvs.push(Tlv::new(our_head(numbers, DYNAMIC), value));
    }
    for _ in 0..numbers.weighted(&[60, 25, 10, 5]) {
        tlvs.push(passed_over(numbers));
    }
    push_capabilities(numbers, &mut tlvs);
    // One list may be as long as the area lets it.
    let long = numbers.weighted(&[950, 25, 25]);
    if long != 1 && numbers.chance(75) {
        let count = tac_count(numbers);
        push_tac(numbers, hint, count, &mut tlvs);
    }
    if long != 2 && numbers.chance(50) {
        let count = numbers.weighted(&[0, 40, 20, 10, 10, 8, 6, 4, 2]);
        push_sac(numbers, count, &mut tlvs);
    }
    let left = LARGEST - flatten(&tlvs).len() - 5;
    match long {
        1 => {
            let count = long_count(numbers, left / 4);
            push_tac(numbers, hint, count, &mut tlvs);
        }
        2 => {
            let count = long_count(numbers, left);
            push_sac(numbers, count, &mut tlvs);
        }
        _ => {}
    }
    numbers.shuffle(&mut tlvs);
    tlvs
}

/// How many elements a long list has: about a power of two or a multiple of 16,
/// where the loops of a compiler begin and end, or as many as there is room for.
fn long_count(numbers: &mut Numbers, most: usize) -> usize {
    let about = match numbers.weighted(&[40, 40, 10, 10]) {
        0 => 1 << numbers.between(3, 12),
        1 => 16 * numbers.between(1, 16),
        2 => most,
        _ => numbers.between(9, most),
    };
    (about + numbers.below(3) - 1).min(most)
}

fn our_head(numbers: &mut Numbers, kind: u16) -> u16 {
    if numbers.chance(70) {
        kind | U
    } else {
        kind | numbers.one_of(&[0, F, U, U | F])
    }
}

/// Which elements of a list may do something. Of a long one it is mostly a few, and
/// often at its end: where many do, what one of them does hardly shows.
fn counting(numbers: &mut Numbers, count: usize) -> Vec<bool> {
    if count <= 16 || numbers.chance(30) {
        return vec![true; count];
    }
    let mut counting = vec![false; count];
    for _ in 0..numbers.between(1, 4) {
        let before_the_last = match numbers.below(3) {
            0 => 0,
            1 => numbers.below(count.min(32)),
            _ => numbers.below(count),
        };
        counting[count - 1 - before_the_last] = true;
    }
    counting
}

fn tac_count(numbers: &mut Numbers) -> usize {
    match numbers.weighted(&[8, 60, 27, 5]) {
        0 => 0,
        1 => numbers.between(1, 4),
        2 => numbers.between(5, 16),
        _ => numbers.between(17, 60),
    }
}

fn push_tac(numbers: &mut Numbers, hint: u16, count: usize, tlvs: &mut Vec<Tlv>) {
    let value = tac(numbers, hint, count);
    tlvs.push(Tlv::new(our_head(numbers, TAC), value));
}

fn push_sac(numbers: &mut Numbers, count: usize, tlvs: &mut Vec<Tlv>) {
    let value = sac(numbers, count);
    tlvs.push(Tlv::new(our_head(numbers, SAC), value));
}

/// None of the capabilities, all or some; with S = 1, with S = 0 or with both.
fn push_capabilities(numbers: &mut Numbers, tlvs: &mut Vec<Tlv>) {
    let present = numbers.one_of(&[0, 0, 30, 60, 100]);
    let holding = numbers.one_of(&[100, 70, 40, 0]);
    for kind in CAPABILITY_TYPES {
        if numbers.chance(present) {
            push_capability(numbers, kind, holding, tlvs);
        }
    }
}

/// One capability, with S = 1 so many times out of a hundred.
fn push_capability(numbers: &mut Numbers, kind: u16, holding: usize, tlvs: &mut Vec<Tlv>) {
    let mut octet = 0;
    if numbers.chance(holding) {
        octet |= 0x80;
    }
    if numbers.flag() {
        octet |= numbers.octet() & 0x7F;
    }
    tlvs.push(Tlv::new(our_head(numbers, kind), vec![octet]));
}

fn tac(numbers: &mut Numbers, hint: u16, count: usize) -> Vec<u8> {
    let mut value = vec![0];
    if numbers.chance(85) {
        value[0] |= 0x80;
    }
    if numbers.flag() {
        value[0] |= numbers.octet() & 0x7F;
    }
    let mut ids: Vec<u16> = Vec::with_capacity(count);
    for counts in counting(numbers, count) {
        let id = match counts {
            true => ta_id(numbers, hint, &ids),
            false => numbers.between(APPLICATIONS + 1, 0xFFFF) as u16,
        };
        ids.push(id);
    }
    if count < 64 && numbers.chance(5) {
        ids = (1..=APPLICATIONS as u16).collect();
        numbers.shuffle(&mut ids);
    }
    // Lists that mostly add, mostly remove, or do both.
    let adding = numbers.one_of(&[90, 50, 10]);
    for id in ids {
        let mut rest = 0;
        if numbers.chance(adding) {
            rest |= 0x8000;
        }
        if numbers.chance(40) {
            rest |= numbers.word() as u16 & 0x7FFF;
        }
        value.extend(id.to_be_bytes());
        value.extend(rest.to_be_bytes());
    }
    value
}

fn ta_id(numbers: &mut Numbers, hint: u16, earlier: &[u16]) -> u16 {
    match numbers.weighted(&[45, 30, 15, 10]) {
        0 if hint != 0 => loop {
            let id = numbers.between(1, 16) as u16;
            if hint >> (id - 1) & 1 == 1 {
                return id;
            }
        },
        2 if !earlier.is_empty() => numbers.one_of(earlier),
        3 => {
            let known = numbers.between(1, APPLICATIONS) as u16;
            let random = numbers.word() as u16;
            let odd = [
                0,
                APPLICATIONS as u16 + 1,
                15,
                16,
                17,
                0x00FF,
                0xFFFF,
                known | 0x0010,
                known | random << 4,
                known | 0x0100,
                known << 8,
                known | 0x8000,
                random,
            ];
            numbers.one_of(&odd)
        }
        _ => numbers.between(1, APPLICATIONS) as u16,
    }
}

fn sac(numbers: &mut Numbers, count: usize) -> Vec<u8> {
    let mut value = vec![numbers.octet()];
    for counts in counting(numbers, count) {
        let app = match counts {
            true if numbers.chance(75) => numbers.between(1, 4),
            true => numbers.below(8),
            false => numbers.one_of(&[0, 5, 6, 7]),
        };
        let mut element = (app << 4) as u8;
        if numbers.chance(55) {
            element |= 0x80;
        }
        if numbers.chance(40) {
            element |= numbers.octet() & 0x0F;
        }
        value.push(element);
    }
    value
}

/// A TLV of a type that is not ours and does no harm.
fn passed_over(numbers: &mut Numbers) -> Tlv {
    let (kind, u) = if numbers.flag() {
        let kind = match numbers.below(3) {
            0 => numbers.one_of(&[
                0x0500, 0x0501, 0x0507, 0x050A, 0x050C, 0x050E, 0x0510, 0x0502, 0x05FF,
            ]),
            _ => other_type(numbers, 0x0500, 0x05FF),
        };
        (kind, numbers.flag())
    } else {
        (anywhere_else(numbers), true)
    };
    unread(numbers, kind, u)
}

/// A TLV of a type that a reader must refuse.
fn turned_down(numbers: &mut Numbers) -> Tlv {
    let kind = anywhere_else(numbers);
    unread(numbers, kind, false)
}

fn unread(numbers: &mut Numbers, kind: u16, u: bool) -> Tlv {
    let mut head = kind;
    if u {
        head |= U;
    }
    if numbers.chance(30) {
        head |= F;
    }
    let length = numbers.weighted(&[30, 20, 10, 10, 10, 5, 5, 5, 5]);
    // Now and then the value looks like a TLV itself.
    let value = if numbers.chance(20) {
        vec![0x85, 0x0F, 0x00, 0x01, 0x80]
    } else {
        numbers.octets(length)
    };
    Tlv::new(head, value)
}

/// A type outside the capability parameters, near them or far off.
fn anywhere_else(numbers: &mut Numbers) -> u16 {
    match numbers.below(5) {
        0 => numbers.one_of(&[0x04FF, 0x0600, 0x0400, 0x060F, 0x060D, 0x0606]),
        1 => numbers.one_of(&[0x0000, 0x0100, 0x0200, 0x3FFF, 0x150F, 0x250F, 0x0F05]),
        4 => numbers.one_of(&[
            0x0900, 0x0901, 0x0903, 0x0906, 0x0908, 0x0802, 0x0A02, 0x1902,
        ]),
        2 => other_type(numbers, 0x0000, 0x04FF),
        _ => other_type(numbers, 0x0600, 0x3FFF),
    }
}

fn other_type(numbers: &mut Numbers, low: usize, high: usize) -> u16 {
    loop {
        let kind = numbers.between(low, high) as u16;
        if !is_ours(kind) {
            return kind;
        }
    }
}

/// Lengthens an area to exactly `length` with one more TLV to pass over.
fn fill_to(numbers: &mut Numbers, area: &mut Vec<u8>, length: usize) {
    if area.len() + 4 > length {
        return;
    }
    let head = passed_over(numbers).head;
    let missing = length - area.len() - 4;
    let filler = numbers.octet();
    area.extend(head.to_be_bytes());
    area.extend((missing as u16).to_be_bytes());
    area.resize(length, filler);
}

/// An area with something wrong in it, most of the time.
pub fn damaged(numbers: &mut Numbers, hint: u16) -> Vec<u8> {
    let mut tlvs = good_tlvs(numbers, hint);
    let sort = numbers.weighted(&[10, 6, 8, 14, 18, 12, 12, 6, 4, 6, 8, 4]);
    match sort {
        // A length field that does not fit its value.
        2 if !tlvs.is_empty() => {
            let index = numbers.below(tlvs.len());
            let tlv = &mut tlvs[index];
            tlv.length = match numbers.below(4) {
                0 => tlv.length.wrapping_add(1),
                1 => tlv.length.wrapping_sub(1),
                2 => numbers.between(0, 20) as u16,
                _ => numbers.word() as u16,
            };
        }
        // One of ours with a length of its own.
        3 => {
            let kind = one_of_ours(numbers);
            let length = match CAPABILITY_TYPES.contains(&kind) {
                true => numbers.one_of(&[0, 0, 2, 2, 3, 5]),
                false => numbers.between(0, 10),
            };
            let value = numbers.octets(length);
            tlvs.retain(|tlv| tlv.kind() != kind);
            let tlv = Tlv::new(our_head(numbers, kind), value);
            tlvs.insert(numbers.below(tlvs.len() + 1), tlv);
        }
        // One of ours once more, the same or of any length.
        4 => {
            let kind = one_of_ours(numbers);
            if CAPABILITY_TYPES.contains(&kind) && !tlvs.iter().any(|tlv| tlv.kind() == kind) {
                push_capability(numbers, kind, 50, &mut tlvs);
            }
            let length = numbers.between(0, 6);
            let value = match tlvs.iter().find(|tlv| tlv.kind() == kind) {
                Some(tlv) if numbers.flag() => tlv.value.clone(),
                _ => numbers.octets(length),
            };
            let tlv = Tlv::new(our_head(numbers, kind), value);
            tlvs.insert(numbers.below(tlvs.len() + 1), tlv);
        }
        // A type to refuse.
        5 => {
            let tlv = turned_down(numbers);
            tlvs.insert(numbers.below(tlvs.len() + 1), tlv);
        }
        // Two faults that compete: a last TLV with more than one, or several.
        10 => {
            for _ in 0..numbers.between(1, 2) {
                let mut last = if numbers.flag() {
                    turned_down(numbers)
                } else {
                    let kind = one_of_ours(numbers);
                    let length = numbers.below(4);
                    let value = numbers.octets(length);
                    Tlv::new(our_head(numbers, kind), value)
                };
                if numbers.flag() {
                    last.length += 1;
                }
                tlvs.push(last);
            }
        }
        _ => {}
    }
    let mut area = flatten(&tlvs);
    match sort {
        // Cut off somewhere.
        0 => {
            let length = numbers.below(area.len() + 1);
            area.truncate(length);
        }
        // Too few octets left over for a TLV.
        1 => {
            let length = numbers.between(1, 3);
            area.extend(numbers.octets(length));
        }
        // One bit turned.
        6 if !area.is_empty() => {
            let index = numbers.below(area.len());
            area[index] ^= 1 << numbers.below(8);
        }
        // Octets taken out of the middle.
        7 if !area.is_empty() => {
            let start = numbers.below(area.len());
            let end = (start + numbers.between(1, 5)).min(area.len());
            area.drain(start..end);
        }
        // Nothing but random octets.
        8 => {
            let length = numbers.below(65);
            area = numbers.octets(length);
        }
        // About the largest length, or far beyond it.
        9 => {
            let length = match numbers.weighted(&[30, 30, 10, 25, 5]) {
                0 => LARGEST,
                1 => LARGEST + 1,
                2 => LARGEST - numbers.below(4),
                3 => LARGEST + numbers.between(1, 900),
                _ => 0x1_0000 + numbers.below(40),
            };
            match numbers.below(3) {
                // With a TLV that fills it, or as it comes, or nothing else.
                0 => fill_to(numbers, &mut area, length.min(0xFFFF)),
                1 => area.clear(),
                _ => {}
            }
            let filler = numbers.octet();
            area.resize(length, filler);
        }
        // Octets overwritten.
        11 if !area.is_empty() => {
            for _ in 0..numbers.between(1, 3) {
                let index = numbers.below(area.len());
                area[index] = numbers.octet();
            }
        }
        _ => {}
    }
    area
}
