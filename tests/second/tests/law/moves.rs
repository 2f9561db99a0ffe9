//! The moves from a record of kind 1 to one of kind 2, and back.

use crate::capabilities::{by_01, happens, with_held};
use crate::numbers::Numbers;
use crate::states::{in_every_state, roles};
use crate::*;

/// The kinds that need a capability: 2 to 6.
const NEEDING_ONE: u16 = ALL_KINDS & !NEEDING_NONE;

/// The stored record that the scope of work gives.
const STORED: &str = "1400 0100 00 07 4800 0000 0000 00 00 00000000 01000000";

/// The record of kind 1 that is as this one up to its capabilities.
fn kind1(session: &Box24) -> Vec<u8> {
    [&[20, 0, 1, 0], &session.0[4..22]].concat()
}

/// The same session with these capabilities, sound or not.
fn with(session: &Box24, ours: u8, theirs: u8) -> Box24 {
    let mut other = *session;
    (other.0[22], other.0[23]) = (ours, theirs);
    other
}

/// A record of kind 1 moved forward, and what is lost by that.
fn moved(record: &[u8]) -> (Box24, u16) {
    let mut room = [0xA5; RECORD_LENGTH];
    let moved = forward(record, &mut room);
    assert_eq!(moved.refusal, 0, "{record:02X?}");
    (Box24(room), moved.lost)
}

/// A record of kind 2 moved back.
fn returned(session: &Box24) -> Vec<u8> {
    let mut room = [0x5C; KIND1_LENGTH];
    assert_eq!(back(&session.0, &mut room), 0, "{session:02X?}");
    room.to_vec()
}

/// Forward is refused with 10, into a room of this length, which stays as it was.
fn no_way_forward(record: &[u8], length: usize) {
    let mut room = vec![0xA5; length];
    let refused = Moved {
        refusal: 10,
        lost: 0,
    };
    assert_eq!(forward(record, &mut room), refused, "{record:02X?}");
    assert_eq!(room, vec![0xA5; length]);
}

/// The same for the way back, with this refusal.
fn no_way_back(record: &[u8], length: usize, refusal: u8) {
    let mut room = vec![0x5C; length];
    assert_eq!(back(record, &mut room), refusal, "{record:02X?}");
    assert_eq!(room, vec![0x5C; length]);
}

/// Sessions of every role in every state that it can have; the Open ones have capabilities
/// of the peer.
fn sessions() -> impl Iterator<Item = Box24> {
    roles().flat_map(in_every_state)
}

#[test]
fn the_stored_record_there_and_back() {
    let fresh = Made {
        number: 1,
        ..Made::enabling(&[4, 7])
    }
    .make();
    assert_eq!(moved(&hex(STORED)), (fresh, 0));
    assert_eq!(returned(&fresh), hex(STORED));
}

#[test]
fn there_and_back_is_the_old_record() {
    for session in sessions() {
        let (there, _) = moved(&kind1(&session));
        assert_eq!(there, with(&session, 0, 0));
        assert_eq!(there.state(), session.state());
        assert_eq!(returned(&there), kind1(&session));
    }
}

#[test]
fn back_and_there_is_the_new_one() {
    for session in sessions() {
        let session = with(&session, 0, 0);
        assert_eq!(moved(&returned(&session)).0, session);
    }
}

#[test]
fn only_an_open_session_loses() {
    for session in sessions() {
        let (_, lost) = moved(&kind1(&session));
        // With TAC used 4 is negotiated, and opens none of them.
        let opens = session.state() == OPEN && !session.in_force();
        assert_eq!(lost, if opens { NEEDING_ONE } else { 0 });
    }
}

#[test]
fn what_is_lost_by_what_is_negotiated() {
    for (enabled, listed, protected, lost) in [
        (&[3][..], &[3][..], 0, 0x07C),
        (&[11], &[11], 0, 0x07C),
        (&[3, 4], &[11, 4], 0x3FF, 0),
        (&[8], &[8], 0, 0),
        (&[8], &[8], 0x3FF, 0x07C),
        (&[8], &[8], 0x383, 0),
        (&[8], &[8], 0x2A9, 0x028),
        (&[8], &[8], 0x114, 0x014),
        (&[8, 4], &[4], 0x3FF, 0),
        (&[4], &[8, 4], 0x3FF, 0),
        (&[9], &[9], 0x3FF, 0),
        (&[1, 2, 6, 7, 10, 12, 13], &[1, 2, 6, 7, 10, 12, 13], 0, 0),
    ] {
        let made = Made {
            protected,
            ..Made::enabling(enabled)
        };
        // No SAC App controls a kind that is lost.
        for sac in ["", "850D0005 80 90 A0 B0 C0"] {
            let mut session = made.make();
            initialization(&mut session.0, &[tac(listed), hex(sac)].concat());
            assert_eq!(session.state(), OPEN);
            assert_eq!(moved(&kind1(&session)).1, lost);
        }
    }
}

#[test]
fn none_of_these_kinds_is_permitted_from_then_on() {
    let mut session = Made::enabling(&[3, 4]).holding(7).make();
    session.init(&format!(
        "850F0009 80 00038000 00048000 85060001 80 {ALL_HELD}"
    ));
    assert_eq!(session.permitted(), 0x07D);
    let (mut there, lost) = moved(&kind1(&session));
    assert_eq!((there.permitted(), lost), (0x001, 0x07C));
    assert_eq!(there.why(), "0355555333");
    // The peer's are known by its next message, and ours are none.
    assert_eq!(there.cap(ALL_HELD), done(0, 0));
    assert_eq!((there.ours(), there.theirs()), (0, 7));
    no_way_back(&there.0, KIND1_LENGTH, 13);
    assert_eq!(there.cap("85080001 00 85090001 00 89020001 00"), done(0, 0));
    assert_eq!(returned(&there), kind1(&session));
    // A local change is written as ever.
    let (answer, message) = there.change(3, false);
    assert_eq!(
        (answer, message.len()),
        (
            Answer {
                written: 17,
                ..done(0, 0)
            },
            17
        )
    );
    assert_eq!(closed(&mut there.0), done(0x001, 0));
}

/// Sessions go through any events. Wherever one stands, what it has beside capabilities can
/// be moved there and back, and loses what document 01 permits and its kinds need.
#[test]
fn over_any_events() {
    let mut numbers = Numbers(7);
    let mut met = [0; 3];
    for _ in 0..400 {
        let made = Made {
            capabilities: (numbers.next() & numbers.next() & 7) as u32,
            ..numbers.made()
        };
        let mut session = made.make();
        for _ in 0..30 {
            let (area, number) = (numbers.area(), numbers.below(20) as u32);
            happens(&mut session, number, &area);
            let old = kind1(&session);
            let (there, lost) = moved(&old);
            assert_eq!(there, with(&session, 0, 0));
            assert_eq!(lost, by_01(&session) & NEEDING_ONE);
            assert_eq!(there.permitted(), by_01(&session) & with_held(0));
            assert_eq!(returned(&there), old);
            if session == there {
                assert_eq!(returned(&session), old);
            } else {
                no_way_back(&session.0, KIND1_LENGTH, 13);
            }
            met[0] += u32::from(lost != 0);
            met[1] += u32::from(lost == 0 && session.state() == OPEN);
            met[2] += u32::from(session == there);
            // Now and then it goes on without what it held.
            if number == 19 {
                session = there;
            }
        }
    }
    assert!(met.iter().all(|&times| times > 200), "{met:?}");
}

/// Each bit of a record, by the number of its octet and turned.
fn turned(record: &[u8]) -> impl Iterator<Item = (usize, Vec<u8>)> + '_ {
    (0..8 * record.len()).map(|bit| {
        let mut other = record.to_vec();
        other[bit / 8] ^= 1 << (bit % 8);
        (bit / 8, other)
    })
}

#[test]
fn forward_asks_what_a_record_is_asked() {
    for session in sessions() {
        for (octet, record) in turned(&kind1(&session)) {
            let new = [&session.0[..4], &record[4..], &[0, 0]].concat();
            if octet >= 4 && sound(&new) {
                assert_eq!(moved(&record).0 .0.to_vec(), new);
            } else {
                no_way_forward(&record, RECORD_LENGTH);
            }
        }
    }
}

#[test]
fn back_asks_the_same() {
    for session in sessions() {
        let session = with(&session, 0, 0);
        for (octet, record) in turned(&session.0) {
            match octet {
                22 | 23 if sound(&record) => no_way_back(&record, KIND1_LENGTH, 13),
                _ if sound(&record) => {
                    let same = Box24(record.try_into().unwrap());
                    assert_eq!(returned(&same), kind1(&same));
                }
                _ => no_way_back(&record, KIND1_LENGTH, 10),
            }
        }
    }
}

#[test]
fn no_other_length_of_either() {
    for session in sessions() {
        let session = with(&session, 0, 0);
        let (old, new) = (kind1(&session), session.0);
        for length in 0..=40 {
            let resized = |record: &[u8]| {
                let mut other = record.to_vec();
                other.resize(length, 0);
                other
            };
            if length != KIND1_LENGTH {
                no_way_forward(&resized(&old), RECORD_LENGTH);
                no_way_back(&new, length, 10);
            }
            if length != RECORD_LENGTH {
                no_way_back(&resized(&new), KIND1_LENGTH, 10);
                no_way_forward(&old, length);
            }
        }
    }
}

#[test]
fn no_other_head() {
    let heads = [[20, 0, 1, 0], [20, 0, 2, 0], [22, 0, 1, 0], [22, 0, 2, 0]];
    for session in sessions() {
        for head in heads {
            let short = [&head, &session.0[4..22]].concat();
            let long = [&head, &session.0[4..24]].concat();
            if head != heads[0] {
                no_way_forward(&short, RECORD_LENGTH);
            }
            if head != heads[3] {
                no_way_back(&long, KIND1_LENGTH, 10);
            }
            no_way_forward(&long, RECORD_LENGTH);
            no_way_back(&short, KIND1_LENGTH, 10);
        }
    }
}

#[test]
fn thirteen_by_either_octet_after_ten() {
    for session in sessions() {
        let open = session.state() == OPEN;
        for (ours, theirs) in (0..=255).flat_map(|octet| [(octet, 0), (0, octet), (octet, 7)]) {
            let record = with(&session, ours, theirs).0;
            let expected = match (ours, theirs) {
                (8.., _) | (_, 8..) => 10,
                (_, 1..) if !open => 10,
                (0, 0) => continue,
                _ => 13,
            };
            no_way_back(&record, KIND1_LENGTH, expected);
            // By the room too.
            for length in [0, 21, 23, 24] {
                no_way_back(&record, length, 10);
            }
        }
    }
}
