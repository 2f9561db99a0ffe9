//! Our own disinterest: wishes and what they are refused for, the octets that tell them,
//! and what these do at the other end.

use crate::numbers::Numbers;
use crate::states::{in_every_state, roles};
use crate::*;

const DYNAMIC: &str = "85060001 80";

/// App 1, 2, 3, 4 controls these kinds.
const CONTROLLED: [u32; 4] = [0, 1, 7, 8];

/// Wishes with bits that are no App's.
fn spare() -> impl Iterator<Item = u32> {
    let one = (4..32).map(|bit| 1 << bit);
    let with_sound_ones = (4..32).map(|bit| 1 << bit | 0x0F);
    one.chain(with_sound_ones).chain([u32::MAX, !0x0F])
}

/// Numbers that are no App's, some of which look like one.
const NO_APPS: [u32; 11] = [
    0,
    5,
    6,
    7,
    8,
    15,
    0x101,
    0x1_0001,
    0x8000_0001,
    0xFFFF_FFF1,
    u32::MAX,
];

fn bit(app: u32) -> u32 {
    1 << (app - 1)
}

/// An Open session whose peer takes Capability messages, or does not.
fn open(uses_tac: bool, dynamic: bool) -> Box24 {
    let mut session = Made {
        uses_tac,
        ..Made::enabling(&[4])
    }
    .make();
    session.init(if dynamic { DYNAMIC } else { "" });
    session
}

/// The answer to a wish with this room; in a row it is the same. What is refused, and
/// what is Unchanged, leaves record, room and wishes as they were.
fn asked(session: &mut Box24, wishes: u32, app: u32, disable: bool, room: &mut [u8]) -> Wished {
    let (before, room_before) = (*session, room.to_vec());
    let mut in_row = sound(&before.0).then(|| before.loaded());
    let mut its_room = room_before.clone();
    let wished = wish(&mut session.0, wishes, app, disable, room);
    if let Some(fields) = &mut in_row {
        let same = session_wish(fields, wishes, app, disable, &mut its_room);
        assert_eq!((same, &its_room[..]), (wished, &room[..]));
        assert_eq!(*fields, session.loaded());
    }
    if wished.answer.refusal != 0 {
        assert_eq!(wished.answer, refused(wished.answer.refusal));
    }
    if wished.answer != done_14() {
        assert_eq!((*session, room.to_vec()), (before, room_before));
        assert_eq!(wished.wishes, wishes);
    }
    wished
}

/// The refusal of a wish.
fn refusal(mut session: Box24, wishes: u32, app: u32, disable: bool, room: usize) -> u8 {
    let mut room = vec![0x99; room];
    let wished = asked(&mut session, wishes, app, disable, &mut room);
    wished.answer.refusal
}

fn done_14() -> Answer {
    Answer {
        written: 14,
        ..Answer::default()
    }
}

/// The SAC for an Initialization, which fits just so.
fn sac_of(wishes: u32) -> Vec<u8> {
    let mut room = [0xEE; 12];
    let answer = wish_sac(wishes, &mut room);
    assert_eq!(answer.refusal, 0);
    let written = usize::from(answer.written);
    assert!(room[written..].iter().all(|&octet| octet == 0xEE));
    room[..written].to_vec()
}

#[test]
fn creation_tests_the_wishes_and_stores_none() {
    for wishes in 0..16 {
        let made = Made::enabling(&[4, 7]);
        assert_eq!(made.wishing(wishes), made.make());
    }
    for wishes in spare() {
        let mut record = [7; RECORD_LENGTH];
        let settings = Settings {
            wishes,
            ..Settings::default()
        };
        assert_eq!(create(&mut record, settings), 6);
        assert_eq!(record, [7; RECORD_LENGTH]);
        // 10 comes before.
        assert_eq!(create(&mut record[1..], settings), 10);
    }
}

#[test]
fn ten_by_the_record_comes_first() {
    let mut session = open(true, true);
    session.0[13] = 1;
    for (wishes, app) in [(0, 1), (1, 1), (0, 5), (0x10, 1)] {
        assert_eq!(refusal(session, wishes, app, true, 20), 10);
        let short = wish(&mut session.0[..22], wishes, app, true, &mut []);
        assert_eq!((short.answer, short.wishes), (refused(10), wishes));
    }
    let mut fields = open(true, true).loaded();
    fields.flags |= 0x80;
    let before = fields;
    let wished = session_wish(&mut fields, 0x0F, 5, true, &mut []);
    assert_eq!((wished.answer, wished.wishes), (refused(10), 0x0F));
    assert_eq!(fields, before);
}

#[test]
fn ten_by_the_wishes_comes_before_15() {
    for session in in_every_state(Made::enabling(&[4])) {
        for wishes in spare() {
            for app in [1, 4, 0, 5] {
                assert_eq!(refusal(session, wishes, app, true, 20), 10);
                assert_eq!(refusal(session, wishes, app, false, 0), 10);
            }
        }
    }
}

#[test]
fn fifteen_comes_before_unchanged_and_7() {
    for made in roles() {
        for session in in_every_state(made) {
            for app in NO_APPS {
                for wishes in [0, 0x0F] {
                    assert_eq!(refusal(session, wishes, app, true, 0), 15);
                    assert_eq!(refusal(session, wishes, app, false, 20), 15);
                }
            }
        }
    }
}

#[test]
fn every_app_on_and_off_in_every_state() {
    for made in roles() {
        for session in in_every_state(made) {
            let open = session.state() == OPEN;
            for (wishes, app) in (0..16).flat_map(|set| (1..=4).map(move |app| (set, app))) {
                for disable in [false, true] {
                    let mut used = session;
                    let mut room = [0x99; 14];
                    let wished = asked(&mut used, wishes, app, disable, &mut room);
                    if (wishes & bit(app) != 0) == disable {
                        assert_eq!(wished.answer, unchanged());
                    } else if !open {
                        assert_eq!(wished.answer, refused(7));
                    } else {
                        assert_eq!(wished.answer, done_14());
                        assert_eq!(wished.wishes, wishes ^ bit(app));
                        // Of the record only the number is another.
                        assert_eq!(used.0[..18], session.0[..18]);
                        assert_eq!(used.number(), session.number() + 1);
                    }
                }
            }
        }
    }
}

#[test]
fn unchanged_asks_for_no_peer_and_no_room() {
    for uses_tac in [false, true] {
        for dynamic in [false, true] {
            let mut session = open(uses_tac, dynamic);
            let wished = asked(&mut session, 0b0100, 3, true, &mut []);
            assert_eq!(wished.answer, unchanged());
            let wished = asked(&mut session, 0b1011, 3, false, &mut []);
            assert_eq!(wished.answer, unchanged());
        }
    }
}

#[test]
fn nine_whether_tac_is_used_or_not_and_before_8() {
    for uses_tac in [false, true] {
        for app in 1..=4 {
            for room in [0, 13, 14, 20] {
                assert_eq!(refusal(open(uses_tac, false), 0, app, true, room), 9);
                assert_eq!(refusal(open(uses_tac, false), 15, app, false, room), 9);
            }
        }
    }
}

#[test]
fn eight_under_14_octets() {
    for uses_tac in [false, true] {
        for length in 0..=20 {
            let expected = if length < 14 { 8 } else { 0 };
            let session = open(uses_tac, true);
            assert_eq!(refusal(session, 0, 4, true, length), expected);
            assert_eq!(refusal(session, 15, 1, false, length), expected);
        }
    }
}

#[test]
fn the_fourteen_octets() {
    for (app, element) in (1..).zip(["90", "A0", "B0", "C0"]) {
        for (disable, element) in [(true, element), (false, &format!("{app}0"))] {
            for number in [0, 7, 0x0102_0304, u32::MAX] {
                let made = Made {
                    number,
                    ..Made::default()
                };
                let mut session = made.make();
                session.init(DYNAMIC);
                let mut room = [0x99; 20];
                let wishes = if disable { 0 } else { 15 };
                let wished = asked(&mut session, wishes, app, disable, &mut room);
                assert_eq!(wished.answer, done_14());
                let message = format!("0202000A {number:08X} 850D0002 80 {element}");
                assert_eq!(room[..14], hex(&message));
                assert_eq!(room[14..], [0x99; 6]);
                assert_eq!(session.number(), number.wrapping_add(1));
            }
        }
    }
}

#[test]
fn wishes_and_local_changes_share_the_numbers() {
    let mut session = open(true, true);
    let mut room = [0; 14];
    asked(&mut session, 0, 1, true, &mut room);
    assert_eq!(room[4..8], [0, 0, 0, 0]);
    let (_, message) = session.change(7, true);
    assert_eq!(message[4..8], [0, 0, 0, 1]);
    asked(&mut session, 1, 1, false, &mut room);
    assert_eq!(room[4..8], [0, 0, 0, 2]);
}

#[test]
fn the_sac_of_every_set() {
    let expected = [
        "",
        "850D0002 80 90",
        "850D0002 80 A0",
        "850D0003 80 90A0",
        "850D0002 80 B0",
        "850D0003 80 90B0",
        "850D0003 80 A0B0",
        "850D0004 80 90A0B0",
        "850D0002 80 C0",
        "850D0003 80 90C0",
        "850D0003 80 A0C0",
        "850D0004 80 90A0C0",
        "850D0003 80 B0C0",
        "850D0004 80 90B0C0",
        "850D0004 80 A0B0C0",
        "850D0005 80 90A0B0C0",
    ];
    for (wishes, expected) in (0..).zip(expected) {
        let expected = hex(expected);
        assert_eq!(sac_of(wishes), expected);
        for length in 0..=12 {
            let mut room = vec![0x99; length];
            let answer = wish_sac(wishes, &mut room);
            if length < expected.len() {
                let refused = Written {
                    refusal: 8,
                    written: 0,
                };
                assert_eq!((answer, room), (refused, vec![0x99; length]));
            } else {
                let written = expected.len() as u16;
                assert_eq!((answer.refusal, answer.written), (0, written));
                assert_eq!(room[..expected.len()], expected);
                assert_eq!(room[expected.len()..], vec![0x99; length - expected.len()]);
            }
        }
    }
}

#[test]
fn the_sac_of_spare_wishes() {
    for wishes in spare() {
        for length in [0, 5, 6, 9, 12] {
            let mut room = vec![0x99; length];
            let refused = Written {
                refusal: 10,
                written: 0,
            };
            assert_eq!(wish_sac(wishes, &mut room), refused);
            assert_eq!(room, vec![0x99; length]);
        }
    }
}

#[test]
fn wanted_for_every_set_and_kind() {
    for wishes in 0..16 {
        for kind in 0..10 {
            let place = CONTROLLED.iter().position(|&controlled| controlled == kind);
            let wished = place.is_some_and(|place| wishes >> place & 1 == 1);
            let expected = Want {
                refusal: 0,
                wanted: u8::from(!wished),
            };
            assert_eq!(wanted(wishes, kind), expected, "{wishes} {kind}");
        }
        for kind in [10, 11, 16, 0x100, 0x1_0000, 0x8000_0000, u32::MAX] {
            let refused = Want {
                refusal: 6,
                wanted: 0,
            };
            assert_eq!(wanted(wishes, kind), refused);
        }
    }
    // 10 comes before.
    for wishes in spare() {
        for kind in [0, 9, 10, u32::MAX] {
            let refused = Want {
                refusal: 10,
                wanted: 0,
            };
            assert_eq!(wanted(wishes, kind), refused);
        }
    }
}

/// A kind is wanted here exactly if the other end, which may send all else, may send it.
fn wanted_as_permitted(wishes: u32, other: &Box24) {
    assert_eq!(u32::from(other.disabled()), wishes);
    for kind in 0..10 {
        let permitted = permitted(&other.0, kind).permitted;
        assert_eq!(wanted(wishes, kind).wanted, permitted);
    }
}

/// Another end that was told these wishes when it opened, and may send all else.
fn may_send_all(wishes: u32) -> Box24 {
    let mut other = Made::default().holding(ALL_CAPABILITIES).make();
    let mut area = sac_of(wishes);
    area.extend(hex(ALL_HELD));
    assert_eq!(initialization(&mut other.0, &area).refusal, 0);
    other
}

#[test]
fn the_sac_disables_at_the_other_end_what_was_wished() {
    for wishes in 0..16 {
        for made in roles() {
            let mut other = made.holding(ALL_CAPABILITIES).make();
            // What was told before is forgotten.
            other.init("850D0005 80 90 A0 B0 C0");
            closed(&mut other.0);
            let mut area = sac_of(wishes);
            area.extend(hex(ALL_HELD));
            assert_eq!(initialization(&mut other.0, &area).refusal, 0);
            wanted_as_permitted(wishes, &other);
        }
    }
}

#[test]
fn a_message_changes_one_app_at_the_other_end() {
    for (wishes, app) in (0..16).flat_map(|set| (1..=4).map(move |app| (set, app))) {
        let disable = wishes & bit(app) == 0;
        let mut here = open(true, true);
        let mut room = [0; 14];
        let wished = asked(&mut here, wishes, app, disable, &mut room);
        // Whatever else was disabled there stays.
        for disabled in 0..16 {
            let mut other = Made::enabling(&[4]).make();
            let mut area = sac_of(disabled);
            area.extend(tac(&[4, 6]));
            initialization(&mut other.0, &area);
            let before = other;
            assert_eq!(capability(&mut other.0, &room[8..]).refusal, 0);
            let after = if disable {
                disabled | bit(app)
            } else {
                disabled & !bit(app)
            };
            assert_eq!(u32::from(other.disabled()), after);
            let mut as_before = other;
            as_before.0[12] = before.0[12];
            assert_eq!(as_before, before);
        }
        // From the same wishes the other end comes to the same.
        let mut other = may_send_all(wishes);
        capability(&mut other.0, &room[8..]);
        wanted_as_permitted(wished.wishes, &other);
    }
}

/// Wishes change over long runs; the other end is told of them at each opening and of
/// each change. Nothing but a wish touches them, and no event asks for them.
#[test]
fn wishes_outlive_open() {
    let mut numbers = Numbers(2);
    let mut openings = 0;
    for _ in 0..400 {
        let made = Made::enabling(&[4, 7]);
        let mut wishes = numbers.below(16) as u32;
        let mut here = made.wishing(wishes);
        let mut without = here;
        let mut other = may_send_all(wishes);
        for _ in 0..40 {
            let area = numbers.area();
            if here.state() != OPEN {
                other = may_send_all(wishes);
                openings += 1;
            }
            let number = numbers.next() as u32;
            for session in [&mut here, &mut without] {
                match number % 5 {
                    0 => capability(&mut session.0, &area),
                    1 => closed(&mut session.0),
                    2 => mismatch(&mut session.0),
                    3 => hello(&mut session.0, number),
                    _ => initialization(&mut session.0, &area),
                };
            }
            let app = 1 + numbers.below(4) as u32;
            let disable = numbers.chance(5);
            let mut room = [0; 14];
            let wished = asked(&mut here, wishes, app, disable, &mut room);
            wishes = wished.wishes;
            if wished.answer.written > 0 {
                assert_eq!(capability(&mut other.0, &room[8..]).refusal, 0);
            }
            wanted_as_permitted(wishes, &other);
            // But for the number the session is as one that wishes nothing.
            without.0[18..22].copy_from_slice(&here.0[18..22]);
            assert_eq!(here, without);
        }
    }
    assert!(openings > 1000, "{openings}");
}
