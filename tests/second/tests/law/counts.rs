//! From a row of fresh sessions, over any events: each application's count
//! equals the times a session gained it less the times one lost it, and an
//! event changes no other session.

use crate::numbers::Numbers;
use crate::*;

/// The applications that a session has negotiated, written down once more.
fn negotiated(session: &Fields) -> u16 {
    let in_force = session.flags & 0x10 != 0;
    if session.state == OPEN && in_force {
        session.enabled & session.listed
    } else {
        0
    }
}

fn fresh(numbers: &mut Numbers) -> Fields {
    Made {
        uses_tac: numbers.chance(9),
        enabled: (numbers.next() & numbers.next() & 0x1FFF) as u32,
        ..numbers.made()
    }
    .make()
    .loaded()
}

/// Any event, now and then one that is none.
fn event(numbers: &mut Numbers) -> Event {
    Event {
        which: if numbers.chance(4) {
            0
        } else {
            numbers.below(7) as u32
        },
        ta_id: numbers.below(16) as u32,
        on: numbers.below(3) as u32,
        number: numbers.below(9) as u32,
    }
}

#[test]
fn a_count_is_what_was_gained_less_what_was_lost() {
    let mut numbers = Numbers(2);
    let mut times = [0; 4];
    for _ in 0..100 {
        let length = 1 + numbers.below(12) as usize;
        let mut row: Vec<Fields> = (0..length).map(|_| fresh(&mut numbers)).collect();
        let mut kept = [0_i32; 13];
        let mut limits = Limits {
            of: [(); 13].map(|()| numbers.below(4) as u8),
        };
        for _ in 0..200 {
            if numbers.chance(1) {
                let (ta_id, limit) = (numbers.below(15) as u32, numbers.below(5) as u32);
                limits = set_limit(limits, ta_id, limit).limits;
            }
            let (at, event, area) = (
                numbers.below(length as u64) as usize,
                event(&mut numbers),
                numbers.area(),
            );
            let before = row.clone();
            let answer = happened(&mut row, at, event, limits, &area, &mut [0; 17]);
            times[usize::from(answer.outcome)] += 1;
            let (had, has) = (negotiated(&before[at]), negotiated(&row[at]));
            for (bit, kept) in kept.iter_mut().enumerate() {
                let bit_of = |set: u16| i32::from(set >> bit & 1);
                *kept += bit_of(has & !had) - bit_of(had & !has);
                let count = row_count(&row, bit as u32 + 1);
                assert_eq!((count.refusal, i32::from(count.count)), (0, *kept));
            }
            assert_eq!(row[..at], before[..at]);
            assert_eq!(row[at + 1..], before[at + 1..]);
            if answer.refusal != 0 {
                assert_eq!(row, before);
            }
        }
    }
    assert!(times.iter().all(|&times| times > 200), "{times:?}");
}
