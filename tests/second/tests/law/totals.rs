//! Totals by kind: the question, the walk, and what events do to them: up for a kind
//! gained, down for one lost, and 16 last.

use crate::numbers::Numbers;
use crate::*;

const DYNAMIC: &str = "85060001 80";

/// Totals worth trying: about 0 and about 64, and far over it.
const EDGES: [u8; 12] = [0, 1, 2, 62, 63, 64, 65, 66, 67, 128, 200, 255];

/// Numbers that are no kind's, some of which look like one.
const NO_KINDS: [u32; 8] = [10, 11, 16, 0x100, 0x109, 0x1_0000, 0x8000_0001, u32::MAX];

fn all(total: u8) -> Totals {
    Totals { of: [total; 10] }
}

/// All that an event of a row is given beside the row.
#[derive(Clone, Debug)]
struct Given {
    at: usize,
    event: Event,
    limits: Limits,
    area: Vec<u8>,
    room: usize,
}

/// An event of session 1, with an area; with room to spare and no limits.
fn arrives(which: u32, area: &str) -> Given {
    Given {
        at: 1,
        event: Event {
            which,
            number: 7,
            ..Event::default()
        },
        limits: no_limits(),
        area: hex(area),
        room: 20,
    }
}

fn changes(ta_id: u32, on: u32) -> Given {
    let mut given = arrives(2, "");
    given.event.ta_id = ta_id;
    given.event.on = on;
    given
}

/// What there is after an event.
#[derive(Clone, Debug, PartialEq, Eq)]
struct After {
    answer: Answer,
    totals: Totals,
    row: Vec<Fields>,
    room: Vec<u8>,
}

impl Given {
    /// The event by its number; by its name it comes to the same.
    fn happens(&self, row: &[Fields], totals: Totals) -> After {
        let (mut used, mut room) = (row.to_vec(), vec![0x66; self.room]);
        let said = row_event(
            &mut used,
            self.at,
            self.event,
            self.limits,
            totals,
            &self.area,
            &mut room,
        );
        let after = After {
            answer: said.answer,
            totals: said.totals,
            row: used,
            room,
        };
        if self.event.which < 6 {
            assert_eq!(self.by_name(row, totals), after);
        }
        after
    }

    fn by_name(&self, row: &[Fields], totals: Totals) -> After {
        let (mut row, mut room, mut totals) = (row.to_vec(), vec![0x66; self.room], totals);
        let (used, kept, at) = (&mut row[..], &mut totals, self.at);
        let Event {
            ta_id, on, number, ..
        } = self.event;
        let answer = match self.event.which {
            0 => row_initialization(used, at, self.limits, kept, &self.area),
            1 => row_capability(used, at, kept, &self.area),
            2 => row_local_change(used, at, kept, ta_id, on != 0, &mut room),
            3 => row_mismatch(used, at, kept),
            4 => row_hello(used, at, kept, number),
            _ => row_closed(used, at, kept),
        };
        After {
            answer,
            totals,
            row,
            room,
        }
    }

    /// With these totals it comes to what is expected with the totals of the row, but
    /// that these move; or to 16. Tells whether it was refused.
    fn moves(&self, row: &[Fields], totals: Totals, expected: &After) -> bool {
        let Answer { lost, gained, .. } = expected.answer;
        match moved(totals, lost, gained) {
            Some(totals_after) => {
                let expected = After {
                    totals: totals_after,
                    ..expected.clone()
                };
                assert_eq!(self.happens(row, totals), expected, "{self:?}");
                false
            }
            None => {
                self.is_refused(row, totals, 16);
                true
            }
        }
    }

    /// Nothing but the refusal has come of it.
    fn is_refused(&self, row: &[Fields], totals: Totals, refusal: u8) {
        let expected = After {
            answer: refused(refusal),
            totals,
            row: row.to_vec(),
            room: vec![0x66; self.room],
        };
        assert_eq!(self.happens(row, totals), expected, "{self:?}");
    }
}

/// A session of the applications that opened with this area, between two others: one
/// that permits every kind, and a fresh one.
fn row(ta_ids: &[u32], area: &str) -> Vec<Fields> {
    let mut session = Made::enabling(ta_ids).holding(ALL_CAPABILITIES).make();
    assert_eq!(session.init(area).refusal, 0);
    among_others(session)
}

/// An open session of the same sort that permits every kind.
fn permitting_all() -> Box24 {
    let mut open = Made::default().holding(ALL_CAPABILITIES).make();
    open.init(ALL_HELD);
    open
}

fn among_others(session: Box24) -> Vec<Fields> {
    let open = permitting_all();
    let fresh = Made::enabling(&[4]).make();
    vec![open.loaded(), session.loaded(), fresh.loaded()]
}

/// Events that lose and gain kinds: the row, the event, what is lost and what gained.
fn moving() -> Vec<(Vec<Fields>, Given, u16, u16)> {
    let fresh = |ta_ids: &[u32]| {
        let made = Made::enabling(ta_ids).holding(ALL_CAPABILITIES);
        among_others(made.make())
    };
    let lists = |ta_ids: &[u32]| {
        let listed: String = ta_ids.iter().map(|id| format!("{id:04X}8000")).collect();
        let length = 1 + 4 * ta_ids.len();
        format!("850F{length:04X} 80 {listed} {DYNAMIC} {ALL_HELD}")
    };
    vec![
        // An Initialization, negotiation not in force and in force.
        (fresh(&[4]), arrives(0, ALL_HELD), 0, ALL_KINDS),
        (fresh(&[4]), arrives(0, ""), 0, NEEDING_NONE),
        (
            fresh(&[3, 7]),
            arrives(0, &lists(&[7, 3])),
            0,
            kinds(&[2, 3, 4, 5, 6, 8]),
        ),
        // A Capability message: kinds disabled, exchanged, all again; a mismatch.
        (
            row(&[4, 7], &lists(&[4, 7])),
            arrives(1, "850D0003 80 90 C0"),
            kinds(&[0, 8]),
            0,
        ),
        (
            row(&[2, 6, 10], &lists(&[6, 10])),
            arrives(1, "850F0009 80 00060000 00028000"),
            kinds(&[7]),
            kinds(&[1]),
        ),
        (
            row(&[2, 6], &format!("{} 850D0002 80 90", lists(&[2]))),
            arrives(1, "850F0001 00 850D0003 80 10 A0"),
            kinds(&[1]),
            ALL_KINDS - kinds(&[1]),
        ),
        (
            row(&[4, 7], &lists(&[4, 7])),
            arrives(1, "850F0009 80 00040000 00070000"),
            kinds(&[0, 8]),
            0,
        ),
        // Capabilities withdrawn, and held again.
        (
            row(&[], ALL_HELD),
            arrives(1, "85080001 00 89020001 00"),
            kinds(&[2, 5, 6]),
            0,
        ),
        (
            row(&[3], "850F0005 80 00038000"),
            arrives(1, ALL_HELD),
            0,
            kinds(&[2, 3, 4, 5, 6]),
        ),
        // A local change: on, off, and off to a mismatch, which writes nothing.
        (row(&[4], &lists(&[4, 10])), changes(10, 1), 0, kinds(&[9])),
        (
            row(&[4, 3], &lists(&[3, 4])),
            changes(3, 0),
            kinds(&[2, 3, 4, 5, 6]),
            0,
        ),
        (row(&[5], &lists(&[5])), changes(5, 0), kinds(&[1]), 0),
        // Told of a mismatch, and closed.
        (
            row(&[6, 7], &lists(&[6, 7])),
            arrives(3, ""),
            kinds(&[7, 8]),
            0,
        ),
        (row(&[], ALL_HELD), arrives(3, ""), ALL_KINDS, 0),
        (row(&[13], &lists(&[13])), arrives(5, ""), kinds(&[1]), 0),
        (row(&[], ALL_HELD), arrives(5, ""), ALL_KINDS, 0),
    ]
}

/// Events that lose and gain nothing, and are not refused.
fn resting() -> Vec<(Vec<Fields>, Given)> {
    let held = |drops: bool| {
        let made = Made {
            drops,
            ..Made::enabling(&[4])
        };
        let mut session = made.make();
        mismatch(&mut session.0);
        among_others(session)
    };
    let fresh = || among_others(Made::enabling(&[4]).make());
    let limited = |given: Given| Given {
        limits: Limits { of: [0; 13] },
        ..given
    };
    let dynamic = format!("{DYNAMIC} 850F0005 80 00048000");
    vec![
        (fresh(), arrives(0, "850F0001 80")),
        (fresh(), limited(arrives(0, "850F0005 80 00048000"))),
        (
            among_others(Made::enabling(&[9]).make()),
            arrives(0, "850F0005 80 00098000"),
        ),
        (
            fresh(),
            arrives(0, "850D0005 80 90 A0 B0 C0 850F0005 80 00048000"),
        ),
        (row(&[4], &dynamic), arrives(1, "")),
        (row(&[4], &dynamic), arrives(1, "850D0002 80 A0")),
        (row(&[4], &dynamic), changes(4, 1)),
        (row(&[4], &dynamic), changes(9, 1)),
        (fresh(), changes(4, 0)),
        (held(false), changes(4, 0)),
        (fresh(), arrives(3, "")),
        (fresh(), arrives(4, "")),
        (row(&[], ""), arrives(4, "")),
        (held(false), arrives(4, "")),
        (held(true), arrives(4, "")),
        (row(&[9], "850F0005 80 00098000"), arrives(3, "")),
        (row(&[9], "850F0005 80 00098000"), arrives(5, "")),
    ]
}

#[test]
fn the_total_of_a_kind_is_answered_as_it_stands() {
    let totals = Totals {
        of: [0, 1, 63, 64, 65, 66, 127, 128, 200, 255],
    };
    for kind in 0..10 {
        let expected = Total {
            refusal: 0,
            total: totals.of[kind as usize],
        };
        assert_eq!(kind_total(totals, kind), expected);
    }
    for kind in NO_KINDS {
        for totals in [totals, all(0), all(255)] {
            let refused = Total {
                refusal: 6,
                total: 0,
            };
            assert_eq!(kind_total(totals, kind), refused);
        }
    }
}

fn counted(totals: Totals) -> RowTotals {
    RowTotals { refusal: 0, totals }
}

fn not_counted(refusal: u8) -> RowTotals {
    RowTotals {
        refusal,
        totals: all(0),
    }
}

#[test]
fn recounting_takes_rows_of_1_to_64() {
    let open = permitting_all();
    for length in 0..=70 {
        let expected = match length {
            1..=64 => counted(all(length as u8)),
            _ => not_counted(11),
        };
        assert_eq!(recount(&vec![open.loaded(); length]), expected);
    }
}

#[test]
fn recounting_refuses_any_session_that_is_not_sound() {
    let open = permitting_all();
    let unsound = Fields {
        flags: 0x80,
        ..open.loaded()
    };
    for length in [1, 2, 3, 64, 65] {
        for bad in [0, length / 2, length - 1] {
            let mut row = vec![open.loaded(); length];
            row[bad] = unsound;
            let refusal = if length > 64 { 11 } else { 10 };
            assert_eq!(recount(&row), not_counted(refusal));
        }
    }
}

#[test]
fn recounting_counts_what_each_session_permits() {
    for (text, permits) in [
        // Open, in force: 4 and 9 are enabled and listed; the same with IPv4 prefixes disabled.
        (
            "1600 0200 01 17 4801 0811 0000 00 00 00000000 01000000",
            kinds(&[0]),
        ),
        ("1600 0200 01 17 4801 0811 0000 01 00 00000000 01000000", 0),
        // Open and not in force, with IPv6 prefixes disabled.
        (
            "1600 0200 01 07 4801 0000 0000 02 00 00000000 01000000",
            NEEDING_NONE - kinds(&[1]),
        ),
        // Ready; Held; Gone.
        ("1600 0200 00 07 4801 0000 FF03 00 00 00000000 01000000", 0),
        ("1600 0200 02 07 4801 0000 FF03 00 00 00000000 01000000", 0),
        ("1600 0200 03 0F 4801 0000 FF03 00 00 00000000 01000000", 0),
    ] {
        let session = holding_none(text).loaded();
        let fresh = Made::enabling(&[4]).make().loaded();
        let twice = Totals {
            of: std::array::from_fn(|kind| 2 * (permits >> kind & 1) as u8),
        };
        assert_eq!(recount(&[session, fresh, session]), counted(twice));
        assert_eq!(recount(&[fresh, session, session]), counted(twice));
        assert_eq!(recount(&[session, session, fresh]), counted(twice));
    }
}

/// The totals after an event that lost and gained these, if none comes to stand
/// outside 0 to 64.
fn moved(totals: Totals, lost: u16, gained: u16) -> Option<Totals> {
    let mut after = totals;
    for (kind, total) in after.of.iter_mut().enumerate() {
        match (lost >> kind & 1, gained >> kind & 1, *total) {
            (0, 0, _) => {}
            (1, 0, 1..=65) => *total -= 1,
            (0, 1, 0..=63) => *total += 1,
            _ => return None,
        }
    }
    Some(after)
}

#[test]
fn a_total_moves_with_its_kind_or_the_event_is_refused_with_16() {
    let mut messages = 0;
    for (row, given, lost, gained) in moving() {
        // With the totals of the row nothing is refused.
        let expected = given.happens(&row, walked(&row));
        let answer = expected.answer;
        assert_eq!(
            (answer.refusal, answer.lost, answer.gained),
            (0, lost, gained)
        );
        assert_eq!(expected.totals, walked(&expected.row));
        messages += u32::from(answer.written > 0);
        for kind in (0..10).filter(|kind| (lost | gained) >> kind & 1 == 1) {
            for total in 0..=255 {
                let mut totals = others_at_rest(lost | gained);
                totals.of[kind] = total;
                given.moves(&row, totals, &expected);
            }
        }
    }
    assert_eq!(messages, 2);
}

/// Totals that may move, for the kinds that do, and for the others any.
fn others_at_rest(moving: u16) -> Totals {
    let any = [0, 1, 64, 65, 66, 128, 200, 254, 255, 63];
    let mut totals = Totals { of: any };
    for (kind, total) in totals.of.iter_mut().enumerate() {
        if moving >> kind & 1 == 1 {
            *total = 30;
        }
    }
    totals
}

#[test]
fn one_total_is_enough_for_16() {
    for (row, given, lost, gained) in moving() {
        for kind in (0..10).filter(|kind| (lost | gained) >> kind & 1 == 1) {
            let mut totals = others_at_rest(lost | gained);
            totals.of[kind] = 255;
            given.is_refused(&row, totals, 16);
            totals.of[kind] = if lost >> kind & 1 == 1 { 0 } else { 64 };
            given.is_refused(&row, totals, 16);
        }
    }
}

#[test]
fn what_loses_and_gains_nothing_is_never_16() {
    for (row, given) in resting() {
        let expected = given.happens(&row, walked(&row));
        let answer = expected.answer;
        assert_eq!((answer.refusal, answer.lost, answer.gained), (0, 0, 0));
        for total in EDGES {
            let totals = all(total);
            let after = given.happens(&row, totals);
            assert_eq!(
                after,
                After {
                    totals,
                    ..expected.clone()
                }
            );
        }
    }
}

/// 16 comes after all others: totals that refuse every move are not asked for.
#[test]
fn sixteen_comes_last() {
    let dynamic = format!("{DYNAMIC} 850F0009 80 00048000 00078000");
    let open = row(&[4, 7], &dynamic);
    let fresh = among_others(Made::enabling(&[4]).make());
    let mut unsound = open.clone();
    unsound[2].flags |= 0x80;
    let outside = |given: Given| Given { at: 3, ..given };
    let long = "FF".repeat(4097);
    for (row, given, refusal) in [
        (&open, outside(arrives(5, "")), 11),
        (&unsound, arrives(5, ""), 10),
        (&unsound, outside(arrives(5, "")), 11),
        (&fresh, arrives(5, ""), 7),
        (&open, arrives(0, ""), 7),
        (&open, arrives(6, ""), 7),
        (&fresh, arrives(0, &long), 1),
        (&fresh, arrives(0, "85"), 2),
        (&fresh, arrives(0, "850F0000"), 3),
        (&fresh, arrives(0, "06000000"), 4),
        (&fresh, arrives(0, "850F0001 80 850F0001 80"), 5),
        (&open, arrives(1, &long), 1),
        (&open, arrives(1, "850F0001 00 85"), 2),
        (&open, arrives(1, "850D0002 80 90 850F0000"), 3),
        (&open, arrives(1, "850D0002 80 90 06000000"), 4),
        (&open, arrives(1, "850D0002 80 90 850D0002 80 90"), 5),
        (&open, changes(0, 0), 6),
        (&open, changes(14, 0), 6),
        (
            &open,
            Given {
                room: 16,
                ..changes(4, 0)
            },
            8,
        ),
        (&row(&[4, 7], "850F0005 80 00048000"), changes(4, 0), 9),
    ] {
        for total in [0, 64, 66, 255] {
            given.is_refused(row, all(total), refusal);
        }
    }
    // With nothing else in the way it is 16, and nothing is in the room.
    for (row, given) in [
        (&open, arrives(5, "")),
        (&open, arrives(3, "")),
        (&fresh, arrives(0, "")),
        (&open, arrives(1, "850F0001 00")),
        (
            &open,
            Given {
                room: 17,
                ..changes(4, 0)
            },
        ),
    ] {
        given.is_refused(row, all(255), 16);
    }
}

fn fresh(numbers: &mut Numbers) -> Fields {
    numbers.made().make().loaded()
}

/// Any event of a row of this length, now and then one that must be refused.
fn any(numbers: &mut Numbers, length: usize) -> Given {
    let mut area = numbers.area();
    if numbers.below(12) == 0 {
        area.push(0x85);
    }
    let beyond = u64::from(numbers.below(4) == 0);
    Given {
        at: numbers.below(length as u64 + beyond) as usize,
        event: Event {
            which: if numbers.chance(4) {
                0
            } else {
                numbers.below(7) as u32
            },
            ta_id: numbers.below(15) as u32,
            on: numbers.below(2) as u32,
            number: numbers.below(9) as u32,
        },
        limits: Limits {
            of: [(); 13].map(|()| numbers.below(65) as u8),
        },
        area,
        room: if numbers.chance(8) { 17 } else { 16 },
    }
}

/// From totals of 0 over fresh sessions the answer equals the walk's after any events,
/// refused ones included, and 16 never happens.
#[test]
fn totals_equal_the_walk_after_any_events() {
    let mut numbers = Numbers(3);
    let (mut refusals, mut lost, mut gained, mut most) = ([0; 17], 0, 0, 0);
    for (length, times) in [(1, 10), (2, 20), (5, 20), (12, 10), (40, 3), (64, 2)] {
        for _ in 0..times {
            let mut row: Vec<Fields> = (0..length).map(|_| fresh(&mut numbers)).collect();
            let mut totals = Totals::default();
            for _ in 0..30 + 6 * length {
                let after = any(&mut numbers, length).happens(&row, totals);
                (row, totals) = (after.row, after.totals);
                refusals[usize::from(after.answer.refusal)] += 1;
                lost += u32::from(after.answer.lost != 0);
                gained += u32::from(after.answer.gained != 0);
                assert_eq!(totals, walked(&row));
                assert_eq!(recount(&row), counted(totals));
                for kind in 0..10 {
                    let total = totals.of[kind as usize];
                    assert_eq!(kind_total(totals, kind), Total { refusal: 0, total });
                    most = most.max(total);
                }
            }
        }
    }
    assert_eq!(refusals[16], 0);
    for refusal in [0, 2, 6, 7, 8, 9, 11] {
        assert!(refusals[refusal] > 5, "{refusal}: {refusals:?}");
    }
    assert!(
        lost > 200 && gained > 200 && most > 20,
        "{lost} {gained} {most}"
    );
}

/// A row of 64 opens, session by session, and closes again.
#[test]
fn a_whole_row_opens_and_closes() {
    let made = Made::default().holding(ALL_CAPABILITIES);
    let mut row = vec![made.make().loaded(); 64];
    let mut totals = Totals::default();
    for at in 0..64 {
        let given = Given {
            at,
            ..arrives(0, ALL_HELD)
        };
        let after = given.happens(&row, totals);
        (row, totals) = (after.row, after.totals);
        assert_eq!(
            (after.answer, totals),
            (done(0, ALL_KINDS), all(at as u8 + 1))
        );
    }
    assert_eq!(recount(&row), counted(all(64)));
    for at in 0..64 {
        let given = Given {
            at,
            ..arrives(5, "")
        };
        let after = given.happens(&row, totals);
        (row, totals) = (after.row, after.totals);
        assert_eq!(
            (after.answer, totals),
            (done(ALL_KINDS, 0), all(63 - at as u8))
        );
    }
    assert_eq!(recount(&row), counted(all(0)));
}

/// Of any totals: what moves, and which event is refused for it.
#[test]
fn any_totals_over_any_row() {
    let mut numbers = Numbers(4);
    let mut times = [0; 2];
    for _ in 0..40 {
        let length = 1 + numbers.below(8) as usize;
        let mut row: Vec<Fields> = (0..length).map(|_| fresh(&mut numbers)).collect();
        for _ in 0..100 {
            let edges = numbers.chance(5);
            let totals = Totals {
                of: [(); 10].map(|()| match edges {
                    true => EDGES[numbers.below(EDGES.len() as u64) as usize],
                    false => numbers.below(66) as u8,
                }),
            };
            let given = any(&mut numbers, length);
            let expected = given.happens(&row, walked(&row));
            let refused = given.moves(&row, totals, &expected);
            let Answer { lost, gained, .. } = expected.answer;
            times[usize::from(refused)] += u32::from(lost | gained != 0);
            row = expected.row;
        }
    }
    assert!(times.iter().all(|&times| times > 200), "{times:?}");
}
