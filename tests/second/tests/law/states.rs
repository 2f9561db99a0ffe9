//! Every event in every state.

use crate::*;

const DYNAMIC: &str = "85060001 80";
const LISTS_4: &str = "850F0005 80 00048000";
const LISTS_NONE: &str = "850F0001 80";

pub fn roles() -> impl Iterator<Item = Made> {
    (0..16).map(|bits| Made {
        initiating: bits & 1 != 0,
        active: bits & 2 != 0,
        uses_tac: bits & 4 != 0,
        drops: bits & 8 != 0,
        ..Made::enabling(&[4, 7])
    })
}

fn negotiating() -> impl Iterator<Item = Made> {
    roles().filter(|made| made.uses_tac)
}

/// Where a mismatch leads.
fn after_mismatch(made: Made) -> u8 {
    match (made.active, made.initiating && made.drops) {
        (false, _) => READY,
        (true, false) => HELD,
        (true, true) => GONE,
    }
}

fn opened(made: Made) -> Box24 {
    let mut session = made.make();
    let answer = session.init(&format!("{DYNAMIC} {LISTS_4} 850D0002 80 90 {ALL_HELD}"));
    assert_eq!(answer.outcome, 0);
    session
}

/// A session of this role in each state that the role can have.
pub fn in_every_state(made: Made) -> Vec<Box24> {
    let mut sessions = vec![made.make(), opened(made)];
    let mut told = opened(made);
    mismatch(&mut told.0);
    if told.state() != READY {
        sessions.push(told);
    }
    sessions
}

/// Nothing of what the peer said is left.
fn forgotten(session: &Box24) -> bool {
    session.listed() == 0
        && session.disabled() == 0
        && !session.in_force()
        && !session.dynamic()
        && session.theirs() == 0
        && session.permitted() == 0
}

#[test]
fn events_in_states_they_are_not_for() {
    for made in roles() {
        for session in in_every_state(made) {
            let state = session.state();
            let mut used = session;
            if state != READY {
                assert_eq!(used.init(DYNAMIC), refused(7));
            }
            if state != OPEN {
                assert_eq!(used.cap(DYNAMIC), refused(7));
                assert_eq!(closed(&mut used.0), refused(7));
            }
            if state == HELD || state == GONE {
                assert_eq!(mismatch(&mut used.0), refused(7));
            }
            assert_eq!(used, session);
        }
    }
}

#[test]
fn initialization_opens() {
    for made in roles() {
        let mut session = made.make();
        let answer = session.init(&format!("{LISTS_4} {DYNAMIC} 850D0004 00 A0 20 90"));
        assert_eq!(session.state(), OPEN);
        assert_eq!(session.in_force(), made.uses_tac);
        assert_eq!(
            u32::from(session.listed()),
            if made.uses_tac { 8 } else { 0 }
        );
        assert!(session.dynamic());
        assert_eq!(session.disabled(), 0b0011);
        // 4 opens kind 0 alone, and that is disabled.
        let left = if made.uses_tac {
            0
        } else {
            NEEDING_NONE & !kinds(&[0, 1])
        };
        assert_eq!(answer, done(0, left));

        let mut session = made.make();
        assert_eq!(session.init(""), done(0, NEEDING_NONE));
        assert!(!session.in_force() && !session.dynamic());
    }
}

#[test]
fn initialization_that_finds_nothing_in_common() {
    for made in negotiating() {
        for area in [LISTS_NONE, "850F0005 00 00058000", "850F0005 80 01048000"] {
            let mut session = made.make();
            hello(&mut session.0, 3);
            let answer = session.init(&format!("{area} {DYNAMIC} 850D0002 80 90"));
            assert_eq!(answer, mismatched(0));
            assert_eq!(session.state(), after_mismatch(made));
            assert!(forgotten(&session));
            let gone = session.state() == GONE;
            assert_eq!(session.heard(), (!gone).then_some(3));
        }
    }
    // Not used, TAC is read for its form only.
    for made in roles().filter(|made| !made.uses_tac) {
        let mut session = made.make();
        assert_eq!(session.init(LISTS_NONE), done(0, NEEDING_NONE));
        let mut session = made.make();
        assert_eq!(session.init("850F0002 8000"), refused(3));
    }
}

#[test]
fn a_d_bit_of_0_in_an_initialization_does_nothing() {
    let mut session = Made::enabling(&[4]).make();
    session.init(&format!("{LISTS_4} 850D0004 80 20 90 10"));
    assert_eq!(session.disabled(), 0b0001);
    assert_eq!(session.permitted(), 0);
}

#[test]
fn session_protection_opens_the_protected_kinds() {
    let mut session = Made {
        protected: 0x204,
        ..Made::enabling(&[8])
    }
    .holding(ALL_CAPABILITIES)
    .make();
    let area = format!("850F0005 80 00080000 {ALL_HELD}");
    assert_eq!(session.init(&area), done(0, 0x204));
}

#[test]
fn iccp_alone_opens_nothing_but_the_session() {
    let mut session = Made::enabling(&[9]).make();
    assert_eq!(session.init("850F0005 80 00098000"), done(0, 0));
    assert_eq!(session.state(), OPEN);
}

#[test]
fn capability_adds_and_removes() {
    let mut session = opened(Made::enabling(&[4, 7]));
    assert_eq!(
        session.cap("850F0009 80 00078000 00020000"),
        done(0, kinds(&[8]))
    );
    assert_eq!(u32::from(session.listed()), applications(&[4, 7]));
    assert_eq!(session.cap("850F0005 80 00040000"), done(0, 0));
    assert_eq!(u32::from(session.listed()), applications(&[7]));
    assert_eq!(session.cap("850F0001 80"), done(0, 0));
    assert_eq!(session.cap(""), done(0, 0));
    assert_eq!(u32::from(session.listed()), applications(&[7]));
}

#[test]
fn capability_withdraws_and_returns() {
    let mut session = opened(Made::enabling(&[4, 7]));
    // The elements of a withdrawal count for nothing.
    assert_eq!(
        session.cap("850F0005 00 00078000"),
        done(0, NEEDING_NONE & !kinds(&[0]))
    );
    assert!(!session.in_force());
    assert_eq!(session.listed(), 0);
    assert_eq!(session.cap("850F0001 7F"), done(0, 0));
    // From an empty list, not from the one before.
    assert_eq!(
        session.cap("850F0005 80 00078000"),
        done(NEEDING_NONE & !kinds(&[0, 8]), 0)
    );
    assert!(session.in_force());
    assert_eq!(u32::from(session.listed()), applications(&[7]));
}

#[test]
fn capability_that_leaves_nothing_in_common() {
    for made in negotiating() {
        for area in ["850F0005 80 00040000", "850F0009 80 00040000 00058000"] {
            let mut session = opened(made);
            hello(&mut session.0, 9);
            session.cap("850D0002 80 10");
            let answer = session.cap(&format!("{area} 850D0002 80 B0"));
            assert_eq!(answer, mismatched(kinds(&[0])));
            assert_eq!(session.state(), after_mismatch(made));
            assert!(forgotten(&session));
        }
        // Negotiation comes into force with nothing to show for it.
        let mut session = made.make();
        session.init("");
        assert_eq!(
            session.cap("850F0005 80 00040000"),
            mismatched(NEEDING_NONE)
        );
        assert_eq!(session.state(), after_mismatch(made));
    }
}

#[test]
fn capability_without_tac_in_use() {
    for made in roles().filter(|made| !made.uses_tac) {
        let mut session = opened(made);
        assert_eq!(session.cap("850F0001 80"), done(0, 0));
        assert!(!session.in_force());
        assert_eq!(session.cap("850D0002 00 10"), done(0, kinds(&[0])));
    }
}

#[test]
fn a_dynamic_announcement_counts_in_an_initialization_only() {
    let mut session = Made::default().make();
    session.init("");
    assert_eq!(session.cap(DYNAMIC), done(0, 0));
    assert!(!session.dynamic());
    let mut session = Made::default().make();
    session.init(DYNAMIC);
    session.cap("");
    assert!(session.dynamic());
}

#[test]
fn local_change_where_nothing_is_written() {
    for made in roles() {
        for session in in_every_state(made) {
            let state = session.state();
            for ta_id in 1..=13 {
                for on in [false, true] {
                    let mut used = session;
                    let bit = applications(&[ta_id]) as u16;
                    let already = (session.enabled() & bit != 0) == on;
                    let answer = local_change(&mut used.0, ta_id, on, &mut []);
                    if already {
                        assert_eq!(answer, unchanged());
                        assert_eq!(used, session);
                    } else if state == OPEN && made.uses_tac {
                        assert_eq!(answer, refused(8));
                        assert_eq!(used, session);
                    } else {
                        assert_eq!(answer, done(0, 0));
                        assert_eq!(used.enabled(), session.enabled() ^ bit);
                        let after = if state == HELD { READY } else { state };
                        assert_eq!(used.state(), after);
                        assert_eq!(used.number(), session.number());
                    }
                }
            }
        }
    }
}

#[test]
fn local_change_where_it_is_written() {
    for made in negotiating() {
        let mut session = Made {
            number: u32::MAX,
            ..made
        }
        .make();
        session.init(&format!("{DYNAMIC} 850F0009 80 00078000 00048000"));
        let (answer, message) = session.change(7, false);
        assert_eq!(
            answer,
            Answer {
                lost: kinds(&[8]),
                written: 17,
                ..Answer::default()
            }
        );
        assert_eq!(message, hex("0202000D FFFFFFFF 850F0005 80 00070000"));
        assert_eq!(session.number(), 0);
        let (answer, message) = session.change(13, true);
        assert_eq!((answer.gained, answer.written), (0, 17));
        assert_eq!(message, hex("0202000D 00000000 850F0005 80 000D8000"));
        assert_eq!(session.number(), 1);
        // What was written reads back as one TAC.
        assert_eq!(
            read(&message[8..]).tac,
            Part {
                start: 4,
                length: 5
            }
        );
    }
}

#[test]
fn local_change_out_of_force_is_written_too() {
    let mut session = Made::enabling(&[4]).make();
    session.init(DYNAMIC);
    let (answer, message) = session.change(4, false);
    assert_eq!((answer.outcome, answer.lost, answer.written), (0, 0, 17));
    assert_eq!(message, hex("0202000D 00000000 850F0005 80 00040000"));
    assert_eq!(session.enabled(), 0);
    assert_eq!(session.state(), OPEN);
}

#[test]
fn local_change_that_leaves_nothing_in_common() {
    for made in negotiating() {
        let mut session = opened(made);
        session.cap("850D0002 80 10");
        hello(&mut session.0, 1);
        let (answer, message) = session.change(4, false);
        assert_eq!(answer, mismatched(kinds(&[0])));
        assert!(message.is_empty());
        assert_eq!(session.state(), after_mismatch(made));
        assert!(forgotten(&session));
        assert_eq!(u32::from(session.enabled()), applications(&[7]));
        assert_eq!(session.number(), 0);
    }
}

#[test]
fn mismatch_notification() {
    for made in roles() {
        for mut session in [made.make(), opened(made)] {
            hello(&mut session.0, 77);
            let before = session.permitted();
            assert_eq!(mismatch(&mut session.0), mismatched(before));
            assert_eq!(session.state(), after_mismatch(made));
            assert!(forgotten(&session));
            let gone = session.state() == GONE;
            assert_eq!(session.heard(), (!gone).then_some(77));
        }
    }
}

#[test]
fn hello_numbers() {
    for made in roles() {
        for session in in_every_state(made) {
            let state = session.state();
            for first in [0, 5, u32::MAX] {
                // The first is recorded; only in Gone does it do more.
                let mut used = session;
                assert_eq!(hello(&mut used.0, first), done(0, 0));
                assert_eq!(used.heard(), Some(first));
                let after = if state == GONE { READY } else { state };
                assert_eq!(used.state(), after);
                for second in [0, 4, 5, 6, u32::MAX] {
                    let mut again = used;
                    let answer = hello(&mut again.0, second);
                    if second > first {
                        assert_eq!(answer, done(0, 0));
                        assert_eq!(again.heard(), Some(second));
                        let freed = if after == HELD { READY } else { after };
                        assert_eq!(again.state(), freed);
                    } else {
                        assert_eq!(answer, unchanged());
                        assert_eq!(again, used);
                    }
                }
            }
        }
    }
}

#[test]
fn closing() {
    for made in roles() {
        let mut session = opened(made);
        hello(&mut session.0, 2);
        let before = session.permitted();
        assert_eq!(closed(&mut session.0), done(before, 0));
        assert_eq!(session.state(), READY);
        assert!(forgotten(&session));
        assert_eq!(session.heard(), Some(2));
        // The next opening starts from nothing.
        assert_eq!(session.init(""), done(0, NEEDING_NONE));
    }
}

#[test]
fn retry_interval_by_state() {
    for made in roles() {
        for session in in_every_state(made) {
            let interval = if session.state() == HELD { 65_535 } else { 0 };
            assert_eq!(
                retry_interval(&session.0),
                Retry {
                    refusal: 0,
                    interval
                }
            );
        }
    }
}
