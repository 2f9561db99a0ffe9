//! Capabilities: how they are read, by whom they are held and for how long, which kinds need
//! them, and what is answered where one is missing.

use crate::numbers::Numbers;
use crate::states::roles;
use crate::widening::{disabled_by, opened_by};
use crate::*;

/// Each capability: its bit, its type with U = 1, and the kinds that need it.
const EACH: [(u8, u16, &[u16]); 3] = [
    (1, 0x8508, &[2]),
    (2, 0x8509, &[3, 4]),
    (4, 0x8902, &[5, 6]),
];

/// The kinds that may be sent with these held by both ends, all else permitting.
pub fn with_held(held: u8) -> u16 {
    EACH.iter()
        .filter(|(bit, _, _)| held & bit != 0)
        .fold(NEEDING_NONE, |set, (_, _, needing)| set | kinds(needing))
}

/// The TLVs of the capabilities in `present`, with S = 1 for those in `holding` too. The
/// seven bits that are not read are set where S is not.
fn tlvs(present: u8, holding: u8) -> String {
    EACH.iter()
        .filter(|(bit, _, _)| present & bit != 0)
        .map(|(bit, head, _)| match holding & bit {
            0 => format!("{head:04X}0001 7F"),
            _ => format!("{head:04X}0001 80"),
        })
        .collect()
}

fn made(ours: u8) -> Made {
    Made::enabling(&[4, 7]).holding(ours.into())
}

/// An open session, negotiation not in force, that holds `ours`; its peer holds `theirs`.
fn open(ours: u8, theirs: u8) -> Box24 {
    let mut session = made(ours).make();
    assert_eq!(session.init(&tlvs(theirs, 0)).refusal, 0);
    session
}

fn sets() -> impl Iterator<Item = (u8, u8)> {
    (0..8).flat_map(|first| (0..8).map(move |second| (first, second)))
}

#[test]
fn creation_keeps_ours_and_refuses_spare_bits() {
    for ours in 0..8 {
        let session = made(ours).make();
        assert_eq!((session.ours(), session.theirs()), (ours, 0));
    }
    for bit in 3..32 {
        for ours in [1 << bit, 1 << bit | 7] {
            let mut record = [7; RECORD_LENGTH];
            let settings = Settings {
                capabilities: ours,
                ..Settings::default()
            };
            assert_eq!(create(&mut record, settings), 6);
            assert_eq!(record, [7; RECORD_LENGTH]);
            // 10 comes before.
            assert_eq!(create(&mut record[1..], settings), 10);
        }
    }
}

#[test]
fn reading_tells_which_are_present_and_which_of_them_hold() {
    for (present, holding) in sets() {
        let reading = read(&hex(&tlvs(present, holding)));
        let expected = Reading {
            capabilities: present,
            holding: present & holding,
            ..Reading::default()
        };
        assert_eq!(reading, expected);
    }
}

#[test]
fn u_and_f_are_not_read() {
    for high in [0x00, 0x40, 0x80, 0xC0] {
        for (bit, head, _) in EACH {
            let kind = head & 0x3FFF | high << 8;
            let reading = read(&hex(&format!("{kind:04X}0001 FF")));
            assert_eq!(
                (reading.refusal, reading.capabilities, reading.holding),
                (0, bit, bit)
            );
        }
    }
}

#[test]
fn their_neighbours_are_other_types() {
    for area in [
        "05070000",
        "050A0000",
        "85070001 80",
        "89010001 80",
        "89030000",
    ] {
        assert_eq!(read(&hex(area)), Reading::default(), "{area}");
    }
    for area in [
        "09010001 80",
        "09030001 80",
        "49000000",
        "05080001 80 09030000",
    ] {
        assert_eq!(read(&hex(area)).refusal, 4, "{area}");
    }
}

/// Nothing but the refusal is read, and neither event does anything.
fn is_refused(area: &str, refusal: u8) {
    let expected = Reading {
        refusal,
        ..Reading::default()
    };
    assert_eq!(read(&hex(area)), expected, "{area}");
    let mut session = made(7).make();
    assert_eq!(session.init(area), refused(refusal));
    assert_eq!(session, made(7).make());
    let mut session = open(7, 5);
    assert_eq!(session.cap(area), refused(refusal));
    assert_eq!(session, open(7, 5));
}

#[test]
fn three_for_any_length_but_1() {
    for (_, head, _) in EACH {
        for head in [head, head & 0x3FFF] {
            for length in (0..=9usize).filter(|&length| length != 1) {
                let value = "80".repeat(length);
                is_refused(&format!("{head:04X}{length:04X}{value}"), 3);
            }
        }
    }
}

#[test]
fn five_for_a_second_one_before_three() {
    for (_, head, _) in EACH {
        let one = format!("{head:04X}0001 80");
        for second in ["0001 80", "0001 00", "0000", "0002 8080"] {
            is_refused(&format!("{one} {head:04X}{second}"), 5);
            is_refused(&format!("{one} {ALL_HELD} {head:04X}{second}"), 5);
            is_refused(
                &format!("{one} 85060001 80 {:04X}{second}", head & 0x3FFF),
                5,
            );
        }
        // The first one's own fault comes first.
        is_refused(&format!("{head:04X}0000 {one}"), 3);
    }
}

#[test]
fn two_comes_before_four_five_and_three() {
    for (_, head, _) in EACH {
        is_refused(&format!("{head:04X}0001"), 2);
        is_refused(&format!("{head:04X}0001 80 {head:04X}0001"), 2);
        is_refused(&format!("{head:04X}0002 80"), 2);
        is_refused(&format!("{head:04X}0001 80 85"), 2);
    }
}

#[test]
fn an_initialization_sets_exactly_those_present() {
    for made in roles() {
        for (present, holding) in sets() {
            let mut session = made.holding(7).make();
            // What was held before is forgotten.
            session.init(ALL_HELD);
            closed(&mut session.0);
            let answer = session.init(&tlvs(present, holding));
            assert_eq!(answer, done(0, with_held(present)));
            assert_eq!((session.ours(), session.theirs()), (7, present));
        }
    }
}

#[test]
fn a_capability_message_adds_and_withdraws() {
    for made in roles() {
        for before in 0..8 {
            for (present, holding) in sets() {
                let mut session = made.holding(7).make();
                session.init(&tlvs(before, 0));
                let after = before & !present | present & holding;
                let (had, has) = (with_held(before), with_held(after));
                let answer = session.cap(&tlvs(present, holding));
                assert_eq!(answer, done(had & !has, has & !had));
                assert_eq!((session.ours(), session.theirs()), (7, after));
            }
        }
    }
}

#[test]
fn both_ends_must_hold_what_a_kind_needs() {
    for (ours, theirs) in sets() {
        let session = open(ours, theirs);
        assert_eq!(session.permitted(), with_held(ours & theirs));
        for kind in 0..10 {
            let needed = EACH.iter().find(|(_, _, needing)| needing.contains(&kind));
            let reason = match needed {
                Some((bit, _, _)) if ours & bit == 0 => 5,
                Some((bit, _, _)) if theirs & bit == 0 => 6,
                _ => 0,
            };
            let expected = Reason { refusal: 0, reason };
            assert_eq!(why_not(&session.0, kind.into()), expected);
        }
    }
}

#[test]
fn so_they_must_in_force() {
    // 3 and 11 open kinds 2 to 6, 8 what is protected.
    for (ta_id, opens) in [(3, 0x07C), (11, 0x07C), (8, 0x255)] {
        for (ours, theirs) in sets() {
            let mut session = Made {
                protected: 0x255,
                ..Made::enabling(&[ta_id])
            }
            .holding(ours.into())
            .make();
            let area = format!("850F0005 80 {ta_id:04X}8000 {}", tlvs(theirs, theirs));
            let expected = opens & with_held(ours & theirs);
            assert_eq!(session.init(&area), done(0, expected));
            assert_eq!(session.permitted(), expected);
        }
    }
}

#[test]
fn the_reasons_of_negotiation_come_before() {
    // Kind 2 is not enabled, not listed, or negotiated; P2MP is held by neither end.
    for (enabled, listed, reason) in [(6, 6, 3), (3, 6, 4), (3, 3, 5)] {
        let mut session = Made::enabling(&[4, enabled]).make();
        initialization(&mut session.0, &tac(&[4, listed]));
        let expected = Reason { refusal: 0, reason };
        assert_eq!(why_not(&session.0, 2), expected);
    }
    let mut session = Made::enabling(&[3]).holding(5).make();
    session.init(&format!("850F0005 80 00038000 {}", tlvs(6, 6)));
    assert_eq!(session.why(), "3365500333");
}

#[test]
fn negotiation_does_not_ask_for_them() {
    for (ours, theirs) in sets() {
        let area = format!("850F0005 80 00038000 {}", tlvs(theirs, theirs));
        let fresh = Made::enabling(&[3]).holding(ours.into()).make();
        // With nothing permitted there is no mismatch, the application is used, and the
        // limits are asked.
        let mut row = [fresh.loaded(); 2];
        let limits = set_limit(no_limits(), 3, 1).limits;
        let answer = initialized(&mut row, 0, limits, &hex(&area));
        assert_eq!(answer, done(0, 0x07C & with_held(ours & theirs)));
        assert_eq!(row_count(&row, 3).count, 1);
        assert_eq!(initialized(&mut row, 1, limits, &hex(&area)), at_limit());
        assert_eq!((row[1].ours, row[1].theirs), (ours, 0));
    }
}

#[test]
fn theirs_are_cleared_on_leaving_open() {
    for made in roles() {
        let mut session = made.holding(7).make();
        let area = format!("850F0005 80 00048000 85060001 80 {ALL_HELD}");
        session.init(&area);
        assert_eq!(session.theirs(), 7);
        let opened = session;
        type Leaves = fn(&mut Box24) -> Answer;
        let mut ways: Vec<Leaves> = vec![|session| closed(&mut session.0), |session| {
            mismatch(&mut session.0)
        }];
        if made.uses_tac {
            ways.push(|session| session.cap("850F0005 80 00040000 85080001 80"));
            ways.push(|session| session.change(4, false).0);
        }
        for leaves in ways {
            let mut session = opened;
            assert_eq!(leaves(&mut session).refusal, 0);
            assert_ne!(session.state(), OPEN);
            assert_eq!((session.ours(), session.theirs()), (7, 0));
        }
    }
}

#[test]
fn a_mismatch_at_initialization_leaves_none() {
    for made in roles().filter(|made| made.uses_tac) {
        let mut session = made.holding(7).make();
        let area = format!("{ALL_HELD} 850F0001 80");
        assert_eq!(session.init(&area), mismatched(0));
        assert_eq!((session.ours(), session.theirs()), (7, 0));
    }
}

#[test]
fn other_events_leave_theirs_alone() {
    let area = format!("850F0005 80 00048000 85060001 80 {ALL_HELD}");
    let mut session = made(5).make();
    session.init(&area);
    hello(&mut session.0, 4);
    session.change(3, true);
    session.change(3, false);
    session.cap("850D0002 80 90");
    session.cap("850F0001 00");
    session.cap("850F0005 80 00048000");
    assert_eq!((session.ours(), session.theirs()), (5, 7));
}

#[test]
fn they_stand_in_octets_22_and_23() {
    for (ours, theirs) in sets() {
        let session = open(ours, theirs);
        assert_eq!(session.0[..22], open(0, 0).0[..22]);
        assert_eq!(session.0[22..], [ours, theirs]);
        let fields = session.loaded();
        assert_eq!((fields.ours, fields.theirs), (ours, theirs));
        assert_eq!(stored(fields), session);
    }
}

#[test]
fn sound_by_their_bits_and_the_state() {
    for octet in 0..=255 {
        for (state, flags) in [(READY, 7), (OPEN, 7), (HELD, 7), (GONE, 15)] {
            let mut record = Made::default().make().0;
            (record[4], record[5]) = (state, flags);
            let mut ours = record;
            ours[22] = octet;
            assert_eq!(sound(&ours), octet < 8);
            let mut theirs = record;
            theirs[23] = octet;
            let expected = octet == 0 || state == OPEN && octet < 8;
            assert_eq!(sound(&theirs), expected, "{state} {octet}");
        }
    }
    // A record of the 22 octets alone, and one of 25.
    let record = open(7, 7).0;
    assert!(!sound(&record[..22]));
    assert!(!sound(&record[..23]));
    assert!(!sound(&[&record[..], &[0]].concat()));
}

/// What document 01 permits.
pub fn by_01(session: &Box24) -> u16 {
    let protected = u16::from_le_bytes([session.0[10], session.0[11]]);
    let open = match (session.state(), session.in_force()) {
        (OPEN, true) => opened_by(session.enabled() & session.listed(), protected),
        (OPEN, false) => ALL_KINDS,
        _ => 0,
    };
    open & !disabled_by(session.disabled())
}

/// An event, by a number below 20: mostly a message.
pub fn happens(session: &mut Box24, number: u32, area: &[u8]) {
    match number {
        0 => closed(&mut session.0),
        1 => mismatch(&mut session.0),
        2 | 3 => hello(&mut session.0, number),
        4 | 5 => session.change(1 + number % 13, number == 4).0,
        _ if session.state() == OPEN => capability(&mut session.0, area),
        _ => initialization(&mut session.0, area),
    };
}

/// Sessions that are alike but for what is held go through the same events: each permits
/// what document 01 does and both hold, so holding more never permits less, and with all
/// three it is document 01's.
#[test]
fn over_any_events_holding_more_never_permits_less() {
    let mut numbers = Numbers(6);
    let mut met = [0; 8];
    for _ in 0..400 {
        let made = numbers.made();
        let mut sessions: Vec<Box24> = (0..8).map(|ours| made.holding(ours).make()).collect();
        for _ in 0..30 {
            let (area, number) = (numbers.area(), numbers.below(20) as u32);
            for session in &mut sessions {
                happens(session, number, &area);
            }
            let permitted: Vec<u16> = sessions.iter().map(Box24::permitted).collect();
            let first = sessions[0];
            for (ours, session) in sessions.iter().enumerate() {
                assert_eq!(session.0[..22], first.0[..22]);
                assert_eq!(session.0[22..], [ours as u8, first.theirs()]);
                let held = ours as u8 & session.theirs();
                assert_eq!(permitted[ours], by_01(session) & with_held(held));
                if held == 7 {
                    assert_eq!(permitted[ours], by_01(session));
                }
                met[usize::from(held)] += u32::from(session.state() == OPEN);
            }
            for (more, fewer) in sets().filter(|(more, fewer)| more & fewer == *fewer) {
                assert_eq!(permitted[fewer as usize] & !permitted[more as usize], 0);
            }
        }
    }
    assert!(met.iter().all(|&times| times > 200), "{met:?}");
}
