//! Sessions in a row: loaded and stored, what a row refuses, and that an event
//! does there what it does to a record.

use crate::*;

const EVENTS: std::ops::Range<u32> = 0..6;

/// A session in every state, with every field that the state can have.
fn one_of_each() -> Vec<Box24> {
    [
        "1600 0200 00 4E 0110 0000 0203 00 00 0A0B0C0D 01020304 05 00",
        "1600 0200 01 7C 0110 4010 0203 09 00 0A0B0C0D 01020304 03 06",
        "1600 0200 02 46 0110 0000 0203 00 00 0A0B0C0D 01020304 02 00",
        "1600 0200 03 0F 0110 0000 0203 00 00 00000000 01020304 07 00",
    ]
    .map(|text| Box24(hex(text).try_into().unwrap()))
    .to_vec()
}

fn unsound() -> Fields {
    Fields {
        flags: 0x80,
        ..Fields::default()
    }
}

/// An event with numbers that it may do anything with.
fn event(which: u32) -> Event {
    Event {
        which,
        ta_id: 4,
        on: 1,
        number: 9,
    }
}

/// Any event, with room to spare.
fn happens(row: &mut [Fields], at: usize, event: Event, area: &[u8]) -> (Answer, [u8; 20]) {
    let mut room = [0x66; 20];
    let answer = happened(row, at, event, no_limits(), area, &mut room);
    (answer, room)
}

#[test]
fn every_field_is_loaded_by_its_name() {
    assert_eq!(
        load(&one_of_each()[1].0),
        Loaded {
            refusal: 0,
            session: Fields {
                state: OPEN,
                flags: 0x7C,
                disabled: 0x09,
                enabled: 0x1001,
                listed: 0x1040,
                protects: 0x0302,
                ours: 0x03,
                theirs: 0x06,
                hello: 0x0D0C_0B0A,
                next: 0x0403_0201,
            },
        }
    );
}

#[test]
fn what_is_loaded_is_stored_again() {
    for record in one_of_each() {
        assert_eq!(stored(record.loaded()), record);
        assert_eq!(session_kinds(record.loaded()), permitted_kinds(&record.0));
        assert_eq!(session_retry(record.loaded()), retry_interval(&record.0));
    }
}

#[test]
fn no_session_is_loaded_from_an_unsound_record() {
    let refused = Loaded {
        refusal: 10,
        session: Fields {
            state: 255,
            ..Fields::default()
        },
    };
    let record = one_of_each()[1].0;
    for length in 0..RECORD_LENGTH {
        assert_eq!(load(&record[..length]), refused);
    }
    assert_eq!(load(&[&record[..], &[0]].concat()), refused);
    let mut other = record;
    other[13] = 1;
    assert_eq!(load(&other), refused);
}

#[test]
fn an_unsound_session_is_not_stored() {
    let mut record = [0x77; RECORD_LENGTH];
    assert_eq!(store(unsound(), &mut record), 10);
    assert_eq!(record, [0x77; RECORD_LENGTH]);
    assert_eq!(
        session_kinds(unsound()),
        Kinds {
            refusal: 10,
            kinds: 0
        }
    );
    assert_eq!(
        session_retry(unsound()),
        Retry {
            refusal: 10,
            interval: 0
        }
    );
    for length in (0..64).filter(|&length| length != RECORD_LENGTH) {
        let mut room = vec![0x77; length];
        assert_eq!(store(one_of_each()[0].loaded(), &mut room), 10);
        assert_eq!(room, vec![0x77; length]);
    }
}

#[test]
fn eleven_a_row_of_1_to_64_and_a_number_within_it() {
    let fresh = Made::enabling(&[4]).make().loaded();
    for length in 0..=70 {
        let row = vec![fresh; length];
        let fits = (1..=64).contains(&length);
        assert_eq!(row_count(&row, 4).refusal, if fits { 0 } else { 11 });
        for at in [
            0,
            1,
            length.saturating_sub(1),
            length,
            length + 1,
            63,
            64,
            65,
            1 << 32,
            usize::MAX,
        ] {
            let mut used = row.clone();
            let (answer, room) = happens(&mut used, at, event(4), &[]);
            if fits && at < length {
                assert_eq!(answer, done(0, 0));
                assert_eq!(used[at].hello, 9);
                used[at] = fresh;
            } else {
                assert_eq!(answer, refused(11));
            }
            assert_eq!(used, row);
            assert_eq!(room, [0x66; 20]);
        }
    }
}

#[test]
fn ten_for_any_session_after_eleven() {
    for length in [1, 2, 3, 64] {
        for bad in [0, length / 2, length - 1] {
            let mut row = vec![Made::enabling(&[4]).make().loaded(); length];
            row[bad] = unsound();
            let before = row.clone();
            for which in [0, 1, 2, 3, 4, 5, 6, u32::MAX] {
                for at in [0, bad, length - 1] {
                    // Before 7, 1 and 6.
                    let named = Event {
                        ta_id: 99,
                        ..event(which)
                    };
                    let (answer, room) = happens(&mut row, at, named, &[0; 5000]);
                    assert_eq!(answer, refused(10));
                    assert_eq!(room, [0x66; 20]);
                }
                assert_eq!(happens(&mut row, length, event(which), &[]).0, refused(11));
            }
            assert_eq!(row, before);
            assert_eq!(row_count(&row, 99).refusal, 10);
        }
    }
    assert_eq!(row_count(&[unsound(); 65], 99).refusal, 11);
    assert_eq!(
        happens(&mut [unsound(); 65], 0, event(9), &[]).0,
        refused(11)
    );
}

#[test]
fn seven_for_an_event_that_is_none() {
    for record in one_of_each() {
        for which in [6, 7, 255, 256, 0x1_0000, 0x8000_0004, u32::MAX] {
            let mut row = [record.loaded(); 3];
            let (answer, room) = happens(&mut row, 1, event(which), &[0; 5000]);
            assert_eq!(answer, refused(7));
            assert_eq!(row, [record.loaded(); 3]);
            assert_eq!(room, [0x66; 20]);
        }
    }
}

/// The same event of a record.
fn to_a_record(record: &mut Box24, event: Event, area: &[u8], room: &mut [u8]) -> Answer {
    match event.which {
        0 => initialization(&mut record.0, area),
        1 => capability(&mut record.0, area),
        2 => local_change(&mut record.0, event.ta_id, event.on != 0, room),
        3 => mismatch(&mut record.0),
        4 => hello(&mut record.0, event.number),
        _ => closed(&mut record.0),
    }
}

#[test]
fn an_event_does_in_a_row_what_it_does_to_a_record() {
    let areas = ["", "850F0001 80", "850F0005 80 000D8000 85060001 80", "85"];
    let all = one_of_each();
    let row: Vec<Fields> = all.iter().map(Box24::loaded).collect();
    for (at, which, area, on) in every_case(&areas) {
        for (ta_id, length) in [(1, 17), (2, 17), (2, 16), (13, 20), (14, 20)] {
            let event = Event {
                which,
                ta_id,
                on,
                number: 0x0D0C_0B0A + on,
            };
            let mut record = all[at];
            let mut expected_room = vec![0x66; length];
            let expected = to_a_record(&mut record, event, &hex(area), &mut expected_room);
            let mut used = row.clone();
            let mut room = vec![0x66; length];
            let answer = happened(&mut used, at, event, no_limits(), &hex(area), &mut room);
            assert_eq!(answer, expected);
            assert_eq!(room, expected_room);
            assert_eq!(used[at], record.loaded());
            // No other session is changed.
            used[at] = row[at];
            assert_eq!(used, row);
        }
    }
}

/// Every place in a row of four, with every event, area, and off and on.
fn every_case<'a>(areas: &'a [&'a str]) -> impl Iterator<Item = (usize, u32, &'a str, u32)> {
    (0..4).flat_map(move |at| {
        EVENTS.flat_map(move |which| {
            areas
                .iter()
                .flat_map(move |&area| [0, 1].map(|on| (at, which, area, on)))
        })
    })
}

#[test]
fn any_number_but_0_is_on() {
    for on in [0, 1, 2, 255, 256, 0x1_0000, 0x8000_0000, u32::MAX] {
        let mut row = [Made::enabling(&[7]).make().loaded()];
        let (answer, _) = happens(&mut row, 0, Event { on, ..event(2) }, &[]);
        let (expected, enabled) = if on == 0 {
            (unchanged(), applications(&[7]))
        } else {
            (done(0, 0), applications(&[4, 7]))
        };
        assert_eq!(answer, expected);
        assert_eq!(u32::from(row[0].enabled), enabled);
    }
}

#[test]
fn every_event_has_a_number_and_a_name() {
    let area = hex("85060001 80 850F0005 80 00048000");
    let fresh = Made::enabling(&[4, 7]).make().loaded();
    let (mut room, mut kept) = ([0; 17], Totals::default());
    let mut by_number = vec![fresh; 2];
    let mut by_name = vec![fresh; 2];
    let (row, kept) = (&mut by_name[..], &mut kept);
    for (which, named) in [
        (4, row_hello(row, 1, kept, 9)),
        (0, row_initialization(row, 1, no_limits(), kept, &area)),
        (1, row_capability(row, 1, kept, &area)),
        (2, row_local_change(row, 1, kept, 4, true, &mut room)),
        (5, row_closed(row, 1, kept)),
        (3, row_mismatch(row, 1, kept)),
    ] {
        assert_eq!(happens(&mut by_number, 1, event(which), &area).0, named);
        assert_eq!(named.refusal, 0);
    }
    assert_eq!(by_number, by_name);
    assert_eq!(by_name[0], fresh);
    assert_eq!(by_name[1].state, HELD);
}
