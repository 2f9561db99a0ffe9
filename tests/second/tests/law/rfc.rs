//! The worked examples of the two RFCs.

use crate::*;

/// Both ends open with each other's lists; each one's permitted kinds.
fn meet(initiator: &[u32], responder: &[u32]) -> [(Answer, u16); 2] {
    [(initiator, responder, true), (responder, initiator, false)].map(
        |(ours, theirs, initiating)| {
            let mut session = Made {
                initiating,
                active: initiating,
                ..Made::enabling(ours)
            }
            .make();
            let answer = initialization(&mut session.0, &tac(theirs));
            (answer, session.permitted())
        },
    )
}

// RFC 8223, section 2.2. A to E are played by 4, 6, 7, 2 and 10, which open
// the kinds 0, 7, 8, 1 and 9.
const A: u32 = 4;
const B: u32 = 6;
const C: u32 = 7;
const D: u32 = 2;
const E: u32 = 10;

#[test]
fn one_application_in_common() {
    let both = (done(0, kinds(&[8])), kinds(&[8]));
    assert_eq!(meet(&[A, B, C], &[C, D, E]), [both; 2]);
}

#[test]
fn a_responder_that_supports_everything() {
    let both = (done(0, kinds(&[0, 7, 8])), kinds(&[0, 7, 8]));
    assert_eq!(meet(&[A, B, C], &[A, B, C, D, E]), [both; 2]);
}

#[test]
fn nothing_in_common() {
    assert_eq!(meet(&[A, B, C], &[D, E]), [(mismatched(0), 0); 2]);
}

#[test]
fn order_makes_no_difference() {
    for theirs in [[C, A, E], [E, C, A], [A, E, C]] {
        let both = (done(0, kinds(&[0, 8])), kinds(&[0, 8]));
        assert_eq!(meet(&[A, B, C], &theirs), [both; 2]);
    }
}

#[test]
fn the_first_of_two_elements_decides() {
    let mut session = Made::enabling(&[4, 7]).make();
    session.init("850F0009 80 00048000 00078000");
    // 4 goes and comes again, 9 comes and goes again: the first word holds.
    session.cap("850F0011 80 00040000 00048000 00098000 00090000");
    assert_eq!(u32::from(session.listed()), applications(&[7, 9]));
}

// RFC 7473, section 4.1.
#[test]
fn three_updates_of_the_outbound_policy() {
    let controlled = kinds(&[0, 1, 7, 8]);
    for uses_tac in [false, true] {
        let mut session = Made {
            uses_tac,
            ..Made::default()
        }
        .holding(ALL_CAPABILITIES)
        .make();
        session.init(&format!("850D0003 80 A0 C0 {ALL_HELD}"));
        assert_eq!(session.permitted() & controlled, kinds(&[0, 7]));
        assert_eq!(
            session.cap("850D0003 80 20 B0"),
            done(kinds(&[7]), kinds(&[1]))
        );
        assert_eq!(session.permitted() & controlled, kinds(&[0, 1]));
        assert_eq!(
            session.cap("850D0005 80 90 A0 B0 C0"),
            done(kinds(&[0, 1]), 0)
        );
        assert_eq!(session.permitted(), kinds(&[2, 3, 4, 5, 6, 9]));
    }
}
