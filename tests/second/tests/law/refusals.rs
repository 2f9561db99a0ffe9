//! Each refusal: its limits, its place in the order, and that it does nothing.

use crate::*;

fn refusal(area: &str) -> u8 {
    let octets = hex(area);
    let reading = read(&octets);
    if reading.refusal != 0 {
        assert_eq!(
            reading,
            Reading {
                refusal: reading.refusal,
                ..Reading::default()
            }
        );
    }
    // The two events read alike.
    let fresh = Made::enabling(&[4]).make();
    let mut session = fresh;
    assert_eq!(session.init(area).refusal, reading.refusal);
    assert_eq!(session == fresh, reading.refusal != 0);
    let mut session = fresh;
    session.init("");
    let open = session;
    assert_eq!(session.cap(area).refusal, reading.refusal);
    if reading.refusal != 0 {
        assert_eq!(session, open);
    }
    reading.refusal
}

#[test]
fn one_the_largest_area() {
    // One TLV that fills the area, of an unknown type to be passed over.
    let filled = |length: usize| {
        let mut area = vec![0x86, 0x00];
        area.extend((length as u16 - 4).to_be_bytes());
        area.resize(length, 0);
        area
    };
    assert_eq!(read(&filled(4095)), Reading::default());
    assert_eq!(read(&filled(4096)), Reading::default());
    assert_eq!(read(&filled(4097)).refusal, 1);
    assert_eq!(read(&vec![0; 70_000]).refusal, 1);
    // Too long comes before anything inside.
    assert_eq!(read(&vec![0xFF; 4097]).refusal, 1);
    assert_eq!(read(&vec![0xFF; 4096]).refusal, 2);
    // A TAC that fills the area: 4,092 octets is not one more than 4n.
    let mut area = filled(4096);
    area[..2].copy_from_slice(&[0x85, 0x0F]);
    assert_eq!(read(&area).refusal, 3);
    let mut area = filled(4093);
    area[..2].copy_from_slice(&[0x85, 0x0F]);
    assert_eq!(
        read(&area).tac,
        Part {
            start: 4,
            length: 4089
        }
    );
}

#[test]
fn two_cut_short() {
    for area in [
        "85",
        "850F",
        "850F00",
        "86000000 85",
        "86000001",
        "850FFFFF 80",
    ] {
        assert_eq!(refusal(area), 2, "{area}");
    }
    // Before 4, 5 and 3.
    assert_eq!(refusal("06000001"), 2);
    assert_eq!(refusal("850F0001 80 850F0001"), 2);
    assert_eq!(refusal("850F0004 80"), 2);
    // But a TLV to the left comes first.
    assert_eq!(refusal("06000000 85"), 4);
    assert_eq!(refusal("850F0000 85"), 3);
}

#[test]
fn three_wrong_lengths() {
    for length in 0..=13u8 {
        let value = "80".repeat(usize::from(length));
        let tac = refusal(&format!("850F00{length:02X} {value}"));
        assert_eq!(
            tac,
            if [1, 5, 9, 13].contains(&length) {
                0
            } else {
                3
            }
        );
        let sac = refusal(&format!("850D00{length:02X} {value}"));
        assert_eq!(sac, if length < 2 { 3 } else { 0 });
        let dynamic = refusal(&format!("850600{length:02X} {value}"));
        assert_eq!(dynamic, if length == 1 { 0 } else { 3 });
    }
}

#[test]
fn four_other_types() {
    for (area, expected) in [
        ("04FF0000", 4),
        ("05000000", 0),
        ("05050001 00", 0),
        ("05FF0000", 0),
        ("06000000", 4),
        ("00000000", 4),
        ("3FFF0000", 4),
        ("46000000", 4), // F changes nothing
        ("7FFF0000", 4),
        ("84FF0000", 0),
        ("86000000", 0),
        ("C6000000", 0),
        ("FFFF0000", 0),
        ("45000000", 0),
    ] {
        assert_eq!(refusal(area), expected, "{area}");
    }
}

#[test]
fn our_types_with_any_u_and_f() {
    for first in ["05", "45", "85", "C5"] {
        let area = format!("{first}0F0005 80 00040000 {first}0D0002 00 90 {first}060001 00");
        assert_eq!(
            read(&hex(&area)),
            Reading {
                refusal: 0,
                dynamic: 1,
                capabilities: 0,
                holding: 0,
                tac: Part {
                    start: 4,
                    length: 5
                },
                sac: Part {
                    start: 13,
                    length: 2
                },
            }
        );
    }
}

#[test]
fn five_a_second_time() {
    assert_eq!(refusal("850F0001 80 850F0001 80"), 5);
    assert_eq!(refusal("850D0002 80 90 850D0002 80 90"), 5);
    assert_eq!(refusal("85060001 80 85060001 80"), 5);
    assert_eq!(refusal("850F0001 80 85000000 050F0001 80"), 5);
    // Before 3.
    assert_eq!(refusal("850F0001 80 850F0000"), 5);
    assert_eq!(refusal("850D0002 80 90 850D0000"), 5);
    assert_eq!(refusal("85060001 80 85060000"), 5);
    // The first one's own fault comes first.
    assert_eq!(refusal("850F0000 850F0001 80"), 3);
    // Other types may come as often as they like.
    assert_eq!(refusal("85000000 85000000 86000000 86000000"), 0);
}

#[test]
fn six_out_of_range() {
    let fresh = Made::enabling(&[4]).make();
    for ta_id in [0, 14, 0x0104, 0x1_0004, 0x0100_0000, u32::MAX] {
        for on in [false, true] {
            let mut session = fresh;
            assert_eq!(session.change(ta_id, on).0, refused(6));
            assert_eq!(session, fresh);
        }
    }
    for kind in [10, 16, 0x100, 0x1_0000, u32::MAX] {
        assert_eq!(
            permitted(&fresh.0, kind),
            Permission {
                refusal: 6,
                permitted: 0
            }
        );
    }
    for bit in 0..32 {
        let set = 1 << bit;
        let mut record = [7; RECORD_LENGTH];
        let by_kinds = Settings {
            protected_kinds: set,
            ..Settings::default()
        };
        let refusal = create(&mut record, by_kinds);
        assert_eq!(refusal, if bit < 10 { 0 } else { 6 });
        let mut record = [7; RECORD_LENGTH];
        let by_applications = Settings {
            enabled: set,
            ..Settings::default()
        };
        let refusal = create(&mut record, by_applications);
        assert_eq!(refusal, if bit < 13 { 0 } else { 6 });
        assert_eq!(record == [7; RECORD_LENGTH], bit >= 13);
    }
}

#[test]
fn six_after_ten() {
    for length in (0..64).filter(|&length| length != RECORD_LENGTH) {
        let mut room = vec![0x77; length];
        let settings = Settings {
            protected_kinds: u32::MAX,
            enabled: u32::MAX,
            wishes: u32::MAX,
            capabilities: u32::MAX,
            ..Settings::default()
        };
        assert_eq!(create(&mut room, settings), 10);
        assert_eq!(room, vec![0x77; length]);
    }
}

#[test]
fn seven_before_one() {
    let mut session = Made::default().make();
    assert_eq!(capability(&mut session.0, &[0; 5000]), refused(7));
    session.init("");
    let open = session;
    assert_eq!(initialization(&mut session.0, &[0; 5000]), refused(7));
    assert_eq!(capability(&mut session.0, &[0; 5000]), refused(1));
    assert_eq!(session, open);
}

/// An open session, in force over 4 alone.
fn open(dynamic: bool) -> Box24 {
    let mut session = Made::enabling(&[4]).make();
    session.init(if dynamic {
        "850F0005 80 00048000 85060001 80"
    } else {
        "850F0005 80 00048000"
    });
    session
}

#[test]
fn eight_and_nine_in_a_local_change() {
    // 6 comes first of all.
    assert_eq!(
        local_change(&mut open(false).0, 14, true, &mut []),
        refused(6)
    );
    // Then Unchanged.
    assert_eq!(
        local_change(&mut open(false).0, 4, true, &mut []),
        unchanged()
    );
    assert_eq!(
        local_change(&mut open(true).0, 7, false, &mut []),
        unchanged()
    );
    // Then 9, then 8, also where a mismatch would follow.
    for (ta_id, on) in [(7, true), (4, false)] {
        for length in 0..=20 {
            let mut room = vec![0x99; length];
            let mut session = open(false);
            assert_eq!(
                local_change(&mut session.0, ta_id, on, &mut room),
                refused(9)
            );
            assert_eq!(session, open(false));
            let mut session = open(true);
            let answer = local_change(&mut session.0, ta_id, on, &mut room);
            if length < 17 {
                assert_eq!(answer, refused(8));
                assert_eq!(session, open(true));
                assert_eq!(room, vec![0x99; length]);
            } else if on {
                assert_eq!((answer.refusal, answer.written), (0, 17));
                assert_eq!(room[17..], vec![0x99; length - 17]);
            } else {
                assert_eq!(answer, mismatched(kinds(&[0])));
                assert_eq!(room, vec![0x99; length]);
            }
        }
    }
    // Not to be written: neither is asked.
    let mut session = Made::enabling(&[4]).make();
    assert_eq!(local_change(&mut session.0, 7, true, &mut []), done(0, 0));
    let mut session = Made {
        uses_tac: false,
        ..Made::enabling(&[4])
    }
    .make();
    session.init("");
    assert_eq!(local_change(&mut session.0, 7, true, &mut []), done(0, 0));
    assert_eq!(session.number(), 0);
}
