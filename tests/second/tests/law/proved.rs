//! The twelve examples that the scope of work gives with their results. The first and the
//! eighth are told again for where capabilities are held: nothing of them is held by
//! either end, or all three by both.

use crate::*;

/// The session after the fourth example.
fn after_4() -> Box24 {
    let mut session = Made::enabling(&[7]).make();
    session.init("850F0009 80 00048000 00078000");
    session
}

/// The session after the fifth example, all three capabilities held by both ends or none.
fn after_5(all_held: bool) -> Box24 {
    let (ours, theirs) = if all_held {
        (ALL_CAPABILITIES, ALL_HELD)
    } else {
        (0, "")
    };
    let mut session = Made::enabling(&[7]).holding(ours).make();
    session.init(&format!("850F0009 80 00048000 00078000 {theirs}"));
    session.cap("850D0002 80 C0");
    session
}

#[test]
fn example_1() {
    let mut session = Made::default().make();
    assert_eq!(session.init(""), done(0, kinds(&[0, 1, 7, 8, 9])));
    assert_eq!(session.state(), OPEN);
    assert_eq!(session.permitted(), 0x383);
}

#[test]
fn example_1_with_all_three_held() {
    let mut session = Made::default().holding(ALL_CAPABILITIES).make();
    assert_eq!(session.init(ALL_HELD), done(0, ALL_KINDS));
    assert_eq!(session.state(), OPEN);
    assert_eq!(session.permitted(), 0x3FF);
}

#[test]
fn example_2() {
    let mut session = Made::enabling(&[4, 7]).make();
    assert_eq!(session.init("850F0005 80 00048000"), done(0, kinds(&[0])));
    assert_eq!(session.permitted(), kinds(&[0]));
}

#[test]
fn example_3() {
    let mut session = Made::enabling(&[4, 7]).make();
    assert_eq!(session.init("850F0001 80"), mismatched(0));
    assert_eq!(session.state(), HELD);
}

#[test]
fn example_4() {
    let mut session = Made::enabling(&[7]).make();
    assert_eq!(
        session.init("850F0009 80 00048000 00078000"),
        done(0, kinds(&[8]))
    );
    assert_eq!(session.permitted(), kinds(&[8]));
}

#[test]
fn example_5() {
    let mut session = after_4();
    assert_eq!(session.cap("850D0002 80 C0"), done(kinds(&[8]), 0));
    assert_eq!(session.state(), OPEN);
    assert_eq!(session.permitted(), 0);
}

#[test]
fn example_6() {
    let mut session = after_5(false);
    assert_eq!(session.cap("850D0002 80 40"), done(0, kinds(&[8])));
}

#[test]
fn example_7() {
    let mut session = after_4();
    assert_eq!(
        session.cap("850F0009 80 00070000 00078000"),
        mismatched(kinds(&[8]))
    );
}

#[test]
fn example_8() {
    let mut session = after_5(false);
    assert_eq!(session.cap("850F0001 00"), done(0, kinds(&[0, 1, 7, 9])));
}

#[test]
fn example_8_with_all_three_held() {
    let mut session = after_5(true);
    assert_eq!(
        session.cap("850F0001 00"),
        done(0, kinds(&[0, 1, 2, 3, 4, 5, 6, 7, 9]))
    );
}

#[test]
fn example_9() {
    let fresh = Made::enabling(&[4]).make();
    for (area, refusal) in [("850F0004 80 000480", 3), ("850F0005 80", 2)] {
        let mut session = fresh;
        assert_eq!(session.init(area), refused(refusal));
        assert_eq!(session, fresh);
        assert_eq!(read(&hex(area)).refusal, refusal);
    }
}

#[test]
fn example_10() {
    let fresh = Made::enabling(&[4]).make();
    let mut session = fresh;
    assert_eq!(session.init("06000000"), refused(4));
    assert_eq!(session, fresh);
    assert_eq!(session.init("86000000"), done(0, NEEDING_NONE));
    assert_eq!(read(&hex("06000000")).refusal, 4);
    assert_eq!(read(&hex("86000000")), Reading::default());
}

#[test]
fn example_11() {
    let mut session = Made::enabling(&[4]).make();
    assert_eq!(session.init("850F0005 80 000E8000"), mismatched(0));
    let mut session = Made::enabling(&[4]).make();
    assert_eq!(session.init("850F0005 80 00040000"), done(0, kinds(&[0])));
    assert_eq!(session.state(), OPEN);
}

#[test]
fn example_12() {
    let mut session = Made {
        number: 7,
        ..Made::enabling(&[7])
    }
    .make();
    session.init("85060001 80 850F0009 80 00048000 00078000");
    let before = session;
    let mut narrow = [0x5A; 16];
    let answer = local_change(&mut session.0, 4, true, &mut narrow);
    assert_eq!(answer, refused(8));
    assert_eq!(session, before);
    assert_eq!(narrow, [0x5A; 16]);

    let (answer, message) = session.change(4, true);
    assert_eq!(
        answer,
        Answer {
            gained: kinds(&[0]),
            written: 17,
            ..Answer::default()
        }
    );
    assert_eq!(message, hex("0202000D 00000007 850F0005 80 00048000"));
    assert_eq!(session.number(), 8);
}
