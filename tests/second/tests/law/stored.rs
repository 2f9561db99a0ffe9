//! The stored record: its layout and when it is sound.

use crate::*;

#[test]
fn a_fresh_session_is_stored_so() {
    let session = Made {
        number: 1,
        ..Made::enabling(&[4, 7])
    }
    .make();
    assert_eq!(
        session.0.to_vec(),
        hex("1600 0200 00 07 4800 0000 0000 00 00 00000000 01000000 00 00")
    );
}

#[test]
fn every_field_has_its_place() {
    let mut session = Made {
        initiating: false,
        active: false,
        drops: true,
        protected: 0x302,
        number: 0x0403_0201,
        capabilities: 3,
        ..Made::enabling(&[1, 13])
    }
    .make();
    session.init(
        "85060001 00 850F0009 00 000D0000 00070000 850D0003 00 90 C0 89020001 00 85090001 00",
    );
    hello(&mut session.0, 0x0D0C_0B0A);
    assert_eq!(
        session.0.to_vec(),
        hex("1600 0200 01 7C 0110 4010 0203 09 00 0A0B0C0D 01020304 03 06")
    );
    assert!(sound(&session.0));
}

#[test]
fn no_other_length_is_sound() {
    let session = Made::default().make().0;
    assert!(sound(&session));
    for length in 0..RECORD_LENGTH {
        assert!(!sound(&session[..length]));
    }
    let mut longer = session.to_vec();
    longer.push(0);
    assert!(!sound(&longer));
}

/// The record of `text` with each change made to it alone must not be sound.
fn unsound(text: &str, changes: &[(usize, u8)]) {
    let record = holding_none(text).0;
    assert!(sound(&record), "{text}");
    for &(at, octet) in changes {
        let mut other = record;
        assert_ne!(other[at], octet);
        other[at] = octet;
        assert!(!sound(&other), "{text}, {at}: {octet:02X}");
    }
}

#[test]
fn header_and_spare_bits() {
    let mut changes = vec![
        (0, 0x14),
        (0, 0x18),
        (1, 1),
        (2, 0),
        (2, 1),
        (2, 3),
        (3, 2),
        (4, 4),
        (4, 0xFF),
        (13, 1),
        (13, 0x80),
    ];
    changes.push((5, 0xB7));
    for bit in 5..8 {
        changes.push((7, 1 << bit));
        changes.push((9, 1 << bit));
    }
    for bit in 2..8 {
        changes.push((11, 1 << bit));
    }
    for bit in 4..8 {
        changes.push((12, 1 << bit));
    }
    for bit in 3..8 {
        changes.push((22, 1 << bit));
        changes.push((23, 1 << bit));
    }
    unsound(
        "1600 0200 01 37 4800 4000 0000 00 00 00000000 01000000",
        &changes,
    );
}

#[test]
fn force_needs_open_tac_and_a_common_application() {
    unsound(
        "1600 0200 01 17 4800 4000 0000 00 00 00000000 01000000",
        &[
            (4, 0),    // Ready
            (4, 2),    // Held
            (5, 0x13), // TAC not used
            (6, 0x08), // 7 not enabled
        ],
    );
    // Listing 4 in place of 7 leaves something in common.
    assert!(sound(
        &holding_none("1600 0200 01 17 4800 0800 0000 00 00 00000000 01000000").0
    ));
    // Listing neither does not.
    assert!(!sound(
        &holding_none("1600 0200 01 17 4800 0000 0000 00 00 00000000 01000000").0
    ));
}

#[test]
fn what_the_peer_said_needs_its_holder() {
    // Listed, but not in force.
    unsound(
        "1600 0200 01 07 4800 0000 0000 00 00 00000000 01000000",
        &[(8, 0x40), (8, 0x01), (9, 0x10)],
    );
    // Ready with disabled kinds, a dynamic peer, a Hello number, capabilities of the peer.
    unsound(
        "1600 0200 00 07 4800 0000 0000 00 00 00000000 01000000",
        &[
            (12, 0x01),
            (12, 0x08),
            (5, 0x27),
            (14, 1),
            (17, 0x80),
            (23, 1),
            (23, 4),
        ],
    );
    // Open may have them.
    assert!(sound(&hex(
        "1600 0200 01 27 4800 0000 0000 0F 00 00000000 01000000 00 07"
    )));
    // Held may have none.
    unsound(
        "1600 0200 02 07 4800 0000 0000 00 00 00000000 01000000",
        &[(12, 0x01), (5, 0x27), (14, 1), (23, 1), (23, 2)],
    );
    // Nor may Gone.
    unsound(
        "1600 0200 03 0F 4800 0000 0000 00 00 00000000 01000000",
        &[(12, 0x01), (5, 0x2F), (14, 1), (23, 1), (23, 4)],
    );
}

#[test]
fn held_and_gone_by_role() {
    for flags in 0..16 {
        let (initiating, active, drops) = (flags & 1 != 0, flags & 2 != 0, flags & 8 != 0);
        for heard in [0, 0x40] {
            let record = |state: u8| {
                let mut record = Made::default().make().0;
                record[4] = state;
                record[5] = flags | heard;
                record
            };
            assert!(sound(&record(READY)));
            assert!(sound(&record(OPEN)));
            assert_eq!(
                sound(&record(HELD)),
                active && !(initiating && drops),
                "{flags:02X}"
            );
            assert_eq!(
                sound(&record(GONE)),
                active && initiating && drops && heard == 0,
                "{flags:02X}"
            );
        }
    }
}

#[test]
fn an_unsound_record_is_refused_everywhere_and_left_alone() {
    for record in [
        hex("1600 0200 00 87 4800 0000 0000 00 00 00000000 01000000 00 00"),
        // A record of kind 1, and the same with capabilities behind it.
        hex("1400 0100 00 07 4800 0000 0000 00 00 00000000 01000000"),
        hex("1400 0100 00 07 4800 0000 0000 00 00 00000000 01000000 00 00"),
        hex("1400 0100 01 07 4800 0000 0000 00 00 00000000 01000000 07 07"),
        vec![],
        vec![0; 22],
        vec![0; 24],
        vec![0xFF; 64],
    ] {
        let mut room = [0x33; 20];
        let mut used = record.clone();
        assert_eq!(initialization(&mut used, &[0; 5000]), refused(10));
        assert_eq!(capability(&mut used, &[1]), refused(10));
        assert_eq!(local_change(&mut used, 99, true, &mut room), refused(10));
        assert_eq!(mismatch(&mut used), refused(10));
        assert_eq!(hello(&mut used, 5), refused(10));
        assert_eq!(closed(&mut used), refused(10));
        assert_eq!(wish(&mut used, 0, 99, true, &mut room).answer, refused(10));
        assert_eq!(load(&used).refusal, 10);
        assert_eq!(
            why_not(&used, 99),
            Reason {
                refusal: 10,
                reason: 0
            }
        );
        assert_eq!(
            permitted(&used, 99),
            Permission {
                refusal: 10,
                permitted: 0
            }
        );
        assert_eq!(
            permitted_kinds(&used),
            Kinds {
                refusal: 10,
                kinds: 0
            }
        );
        assert_eq!(
            retry_interval(&used),
            Retry {
                refusal: 10,
                interval: 0
            }
        );
        assert!(!sound(&used));
        assert_eq!(used, record);
        assert_eq!(room, [0x33; 20]);
    }
}
