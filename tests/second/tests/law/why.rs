//! Why a kind may not be sent: every reason, and which comes first. Where nothing is said of
//! capabilities, none is held: kinds 2 to 6 then have reason 5 at the least.

use crate::*;

/// After an Initialization with this area, which opens it.
fn opened(made: Made, area: &str) -> Box24 {
    let mut session = made.make();
    assert_eq!(session.init(area).outcome, 0);
    session
}

#[test]
fn one_in_every_state_but_open() {
    let mut session = Made::enabling(&[4, 7]).make();
    assert_eq!((session.state(), session.why()), (READY, "1".repeat(10)));
    session.init("850F0005 80 00048000");
    assert_ne!(session.why(), "1".repeat(10));
    mismatch(&mut session.0);
    assert_eq!((session.state(), session.why()), (HELD, "1".repeat(10)));
    let mut session = Made {
        drops: true,
        ..Made::enabling(&[4, 7])
    }
    .make();
    mismatch(&mut session.0);
    assert_eq!((session.state(), session.why()), (GONE, "1".repeat(10)));
}

#[test]
fn two_for_what_the_peer_has_disabled() {
    // Not in force: nothing but a capability keeps another kind back.
    let mut session = opened(Made::enabling(&[]), "850D0003 80 90 C0");
    assert_eq!(session.why(), "2055555020");
    session.cap("850D0005 80 10 40 A0 B0");
    assert_eq!(session.why(), "0255555200");
    // In force it comes before 3 and 4: kind 7 is not enabled, kind 8 not listed.
    let mut session = opened(Made::enabling(&[4, 7]), "850F0005 80 00048000");
    assert_eq!(session.why(), "0333333343");
    session.cap("850D0004 80 90 B0 C0");
    assert_eq!(session.why(), "2333333223");
}

#[test]
fn three_and_four_only_in_force() {
    let session = opened(Made::enabling(&[4, 7]), "850F0005 80 00048000");
    assert_eq!(session.why(), "0333333343");
    // The peer ends the negotiation; or the session does not use TAC.
    let mut session = session;
    session.cap("850F0001 00");
    assert_eq!(session.why(), "0055555000");
    let session = opened(
        Made {
            uses_tac: false,
            ..Made::enabling(&[4, 7])
        },
        "850F0005 80 00048000",
    );
    assert_eq!(session.why(), "0055555000");
}

#[test]
fn one_enabled_and_listed_is_enough() {
    // 1, 4 and 12 open kind 0.
    let enabled = Made::enabling(&[1, 4, 7]);
    assert_eq!(opened(enabled, "850F0005 80 00048000").why(), "0333333343");
    assert_eq!(
        opened(enabled, "850F0009 80 000C8000 00018000").why(),
        "0333333343"
    );
    // The peer lists 12, which is not enabled here, and neither 1 nor 4.
    assert_eq!(
        opened(enabled, "850F0009 80 000C8000 00078000").why(),
        "4333333303"
    );
    // Listed, and not enabled here.
    assert_eq!(
        opened(Made::enabling(&[7]), "850F0009 80 00048000 00078000").why(),
        "3333333303"
    );
}

#[test]
fn session_protection_by_the_protected_kinds() {
    let protecting = Made {
        protected: 0x281,
        ..Made::enabling(&[8, 9])
    };
    assert_eq!(
        opened(protecting, "850F0005 80 00088000").why(),
        "0333333030"
    );
    // Only ICCP is common, which opens no kind.
    assert_eq!(
        opened(protecting, "850F0005 80 00098000").why(),
        "4333333434"
    );
}

#[test]
fn ten_then_six_and_no_reason() {
    let fresh = Made::enabling(&[4]).make();
    let refused = |refusal| Reason { refusal, reason: 0 };
    for kind in [10, 16, 0x100, 0x1_0000, u32::MAX] {
        assert_eq!(why_not(&fresh.0, kind), refused(6));
    }
    for kind in [0, 9, 10, u32::MAX] {
        assert_eq!(why_not(&fresh.0[..22], kind), refused(10));
        assert_eq!(why_not(&[], kind), refused(10));
    }
}
