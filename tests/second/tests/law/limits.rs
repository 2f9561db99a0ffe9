//! Limits: how they are set, and the Initialization that is held to them.

use crate::*;

/// The limits with these set.
fn limited(set: &[(u32, u32)]) -> Limits {
    set.iter().fold(no_limits(), |limits, &(ta_id, limit)| {
        let answer = set_limit(limits, ta_id, limit);
        assert_eq!(answer.refusal, 0);
        answer.limits
    })
}

/// A row of sessions that enable these applications: so many that are open and
/// list the same, and a fresh one behind them.
fn row(users: usize, ta_ids: &[u32]) -> Vec<Fields> {
    let fresh = Made::enabling(ta_ids).make();
    let mut open = fresh;
    initialization(&mut open.0, &tac(ta_ids));
    let mut row = vec![open.loaded(); users];
    row.push(fresh.loaded());
    row
}

/// What an Initialization of the last session comes to.
fn opens(row: &mut [Fields], limits: Limits, listed: &[u32]) -> Answer {
    initialized(row, row.len() - 1, limits, &tac(listed))
}

fn count(row: &[Fields], ta_id: u32) -> u8 {
    let answer = row_count(row, ta_id);
    assert_eq!(answer.refusal, 0);
    answer.count
}

#[test]
fn a_limit_is_64_until_set() {
    assert_eq!(no_limits().of, [64; 13]);
    for ta_id in 1..=13 {
        for limit in [0, 1, 2, 63, 64] {
            let mut of = [64; 13];
            of[ta_id as usize - 1] = limit as u8;
            assert_eq!(limited(&[(ta_id, limit)]).of, of);
        }
    }
}

#[test]
fn six_then_twelve_and_the_limits_as_handed_in() {
    let odd = Limits {
        of: [0, 1, 2, 3, 63, 64, 65, 66, 127, 128, 254, 255, 9],
    };
    for (ta_id, limit, refusal) in [
        (0, 5, 6),
        (14, 5, 6),
        (0x104, 5, 6),
        (0x1_0004, 5, 6),
        (u32::MAX, 65, 6),
        (0, 65, 6),
        (4, 65, 12),
        (4, 255, 12),
        (4, 256, 12),
        (4, 0x1_0001, 12),
        (4, u32::MAX, 12),
    ] {
        let expected = Limited {
            refusal,
            limits: odd,
        };
        assert_eq!(set_limit(odd, ta_id, limit), expected);
    }
    // The others stay, whatever they are.
    let answer = set_limit(odd, 13, 64);
    assert_eq!(answer.refusal, 0);
    assert_eq!(answer.limits.of[..12], odd.of[..12]);
    assert_eq!(answer.limits.of[12], 64);
}

#[test]
fn a_session_opens_below_the_limit_and_not_at_it() {
    for users in [0, 1, 2, 3, 62, 63] {
        for limit in 0..=64 {
            let mut row = row(users, &[4]);
            let answer = opens(&mut row, limited(&[(4, limit)]), &[4]);
            if users < limit as usize {
                assert_eq!(answer, done(0, kinds(&[0])));
                assert_eq!(usize::from(count(&row, 4)), users + 1);
            } else {
                assert_eq!(answer, at_limit());
                assert_eq!(usize::from(count(&row, 4)), users);
            }
        }
    }
}

#[test]
fn a_handed_in_limit_over_64_acts_as_64() {
    for over in [65, 66, 127, 128, 192, 255] {
        for users in [0, 1, 63] {
            let mut row = row(users, &[4]);
            let answer = opens(&mut row, Limits { of: [over; 13] }, &[4]);
            assert_eq!(answer, done(0, kinds(&[0])));
        }
    }
}

#[test]
fn one_application_below_its_limit_is_enough_and_all_are_negotiated() {
    for below in [4, 7] {
        let mut limits = limited(&[(4, 2), (7, 2)]);
        limits.of[below as usize - 1] = 3;
        let mut row = row(2, &[4, 7]);
        assert_eq!(opens(&mut row, limits, &[4, 7]), done(0, kinds(&[0, 8])));
        // So one count has passed its limit.
        assert_eq!((count(&row, 4), count(&row, 7)), (3, 3));
    }
    let mut row = row(2, &[4, 7]);
    let limits = limited(&[(4, 2), (7, 2)]);
    assert_eq!(opens(&mut row, limits, &[4, 7]), at_limit());
}

#[test]
fn only_common_applications_are_asked_for() {
    // 10 is below its limit, and listed, but not enabled; 13 the other way round.
    let mut fresh = row(2, &[4, 13]);
    let limits = limited(&[(4, 2)]);
    assert_eq!(opens(&mut fresh, limits, &[4, 10]), at_limit());
    // The limits of others do not matter.
    let mut fresh = row(2, &[4]);
    let mut limits = Limits { of: [0; 13] };
    limits.of[3] = 3;
    assert_eq!(opens(&mut fresh, limits, &[4]), done(0, kinds(&[0])));
}

#[test]
fn at_its_limit_a_session_goes_where_a_mismatch_leads() {
    for bits in 0..16 {
        let made = Made {
            initiating: bits & 1 != 0,
            active: bits & 2 != 0,
            uses_tac: true,
            drops: bits & 4 != 0,
            ..Made::enabling(&[4, 7])
        };
        let mut session = made.make();
        if bits & 8 != 0 {
            hello(&mut session.0, 5);
        }
        let area = hex("850F0005 80 00048000 85060001 80 850D0002 80 A0");
        let mut row = [session.loaded()];
        let limits = limited(&[(4, 0)]);
        assert_eq!(initialized(&mut row, 0, limits, &area), at_limit());
        let mut told = session;
        assert_eq!(mismatch(&mut told.0), mismatched(0));
        assert_eq!(row[0], told.loaded());
    }
}

#[test]
fn a_mismatch_comes_before_the_limits() {
    for listed in [&[][..], &[7]] {
        let mut row = row(1, &[4]);
        let limits = Limits { of: [0; 13] };
        assert_eq!(opens(&mut row, limits, listed), mismatched(0));
    }
}

#[test]
fn negotiation_not_in_force_is_not_limited_and_counts_for_none() {
    let none = Limits { of: [0; 13] };
    for (uses_tac, area) in [(true, vec![]), (false, vec![]), (false, tac(&[4]))] {
        let made = Made {
            uses_tac,
            ..Made::enabling(&[4])
        };
        let mut row = [made.make().loaded(); 2];
        for at in [0, 1] {
            let answer = initialized(&mut row, at, none, &area);
            assert_eq!(answer, done(0, NEEDING_NONE));
        }
        assert_eq!(count(&row, 4), 0);
    }
}

#[test]
fn refusals_come_before_the_limits() {
    let none = Limits { of: [0; 13] };
    let mut open = row(2, &[4]);
    let before = open.clone();
    assert_eq!(initialized(&mut open, 0, none, &tac(&[4])), refused(7));
    for (area, refusal) in [("850F0005 80", 2), ("850F0000", 3), ("06000000", 4)] {
        let answer = initialized(&mut open, 2, none, &hex(area));
        assert_eq!(answer, refused(refusal));
    }
    assert_eq!(initialized(&mut open, 2, none, &[0; 4097]), refused(1));
    assert_eq!(open, before);
}

#[test]
fn limits_are_read_at_an_initialization_only() {
    let none = Limits { of: [0; 13] };
    // A Capability message and a local change may both take 7 to use.
    let area = hex("850F0009 80 00048000 00028000 85060001 80");
    let mut row = [Made::enabling(&[4, 7]).make().loaded()];
    initialized(&mut row, 0, no_limits(), &area);
    let mut room = [0; 17];
    let mut happens = |which, ta_id, area: &[u8]| {
        let event = Event {
            which,
            ta_id,
            on: 1,
            number: 0,
        };
        happened(&mut row, 0, event, none, area, &mut room)
    };
    assert_eq!(happens(1, 0, &tac(&[7])), done(0, kinds(&[8])));
    let answer = happens(2, 2, &[]);
    assert_eq!((answer.outcome, answer.gained), (0, kinds(&[1])));
    assert_eq!((count(&row, 4), count(&row, 7), count(&row, 2)), (1, 1, 1));
}

#[test]
fn a_session_that_closes_makes_place_for_another() {
    let limits = limited(&[(4, 2)]);
    let mut row = row(2, &[4]);
    assert_eq!(opens(&mut row, limits, &[4]), at_limit());
    assert_eq!(row[2].state, HELD);
    for number in [1, 2] {
        with_totals(&mut row, |row, totals| row_hello(row, 2, totals, number));
    }
    let closed = with_totals(&mut row, |row, totals| row_closed(row, 0, totals));
    assert_eq!(closed, done(kinds(&[0]), 0));
    assert_eq!(opens(&mut row, limits, &[4]), done(0, kinds(&[0])));
    assert_eq!(initialized(&mut row, 0, limits, &tac(&[4])), at_limit());
}

#[test]
fn what_uses_an_application() {
    let uses = |text: &str| {
        let record = holding_none(text);
        (1..=13)
            .filter(|&ta_id| count(&[record.loaded()], ta_id) == 1)
            .collect::<Vec<u32>>()
    };
    // Open, in force: 4 and 9 are enabled and listed; 7 and 13 are not both.
    let text = "1600 0200 01 17 4801 0811 0000 00 00 00000000 01000000";
    assert_eq!(uses(text), [4, 9]);
    // The same with every App disabled: it is used all the same.
    let text = "1600 0200 01 17 4801 0811 0000 0F 00 00000000 01000000";
    assert_eq!(uses(text), [4, 9]);
    // Open and not in force; Ready; Held; Gone.
    for text in [
        "1600 0200 01 07 FF1F 0000 0000 00 00 00000000 01000000",
        "1600 0200 00 07 FF1F 0000 0000 00 00 00000000 01000000",
        "1600 0200 02 07 FF1F 0000 0000 00 00 00000000 01000000",
        "1600 0200 03 0F FF1F 0000 0000 00 00 00000000 01000000",
    ] {
        assert!(uses(text).is_empty());
    }
}

#[test]
fn counting_refuses_11_10_6() {
    let row = row(3, &[4]);
    for ta_id in [0, 14, 0x104, 0x1_0004, u32::MAX] {
        assert_eq!(
            row_count(&row, ta_id),
            Count {
                refusal: 6,
                count: 0
            }
        );
    }
    assert_eq!(count(&row, 4), 3);
    assert_eq!(row_count(&[], 99).refusal, 11);
    assert_eq!(row_count(&vec![row[0]; 64], 4).count, 64);
    assert_eq!(
        row_count(&vec![row[0]; 65], 4),
        Count {
            refusal: 11,
            count: 0
        }
    );
}
