//! Enabling more applications never costs a kind: two sessions alike but for
//! that are opened by one Initialization and led through the same events.

use crate::capabilities::with_held;
use crate::numbers::Numbers;
use crate::*;

/// The kinds that these applications open, written down once more.
pub fn opened_by(set: u16, protected: u16) -> u16 {
    let rows = [
        0x001, 0x002, 0x07C, 0x001, 0x002, 0x080, 0x100, protected, 0, 0x200, 0x07C, 0x001, 0x002,
    ];
    (0..13)
        .filter(|bit| set >> bit & 1 == 1)
        .fold(0, |kinds, bit| kinds | rows[bit])
}

/// The kinds that these Apps control.
pub fn disabled_by(apps: u8) -> u16 {
    let controlled = [0x001, 0x002, 0x080, 0x100];
    (0..4)
        .filter(|bit| apps >> bit & 1 == 1)
        .fold(0, |kinds, bit| kinds | controlled[bit])
}

fn compare(first: &Box24, second: &Box24) {
    assert_eq!(second.state(), OPEN);
    let (small, large) = (first.permitted(), second.permitted());
    assert_eq!(small & !large, 0);
    let protected = u16::from_le_bytes([first.0[10], first.0[11]]);
    let disabled = disabled_by(first.disabled());
    let listed = first.listed();
    let held = first.ours() & first.theirs();
    let further = if first.in_force() {
        opened_by(second.enabled() & !first.enabled() & listed, protected)
            & !opened_by(first.enabled() & listed, protected)
            & !disabled
            & with_held(held)
    } else {
        0
    };
    assert_eq!(large & !small, further);
}

#[test]
fn more_applications_never_cost_a_kind() {
    let mut numbers = Numbers(1);
    let mut compared = 0;
    for _ in 0..4000 {
        let made = Made {
            enabled: (numbers.next() & numbers.next() & 0x1FFF) as u32,
            ..numbers.made()
        };
        let mut first = made.make();
        let mut second = Made {
            enabled: made.enabled | (numbers.next() & 0x1FFF) as u32,
            ..made
        }
        .make();
        let area = numbers.area();
        initialization(&mut first.0, &area);
        initialization(&mut second.0, &area);
        for _ in 0..20 {
            if first.state() != OPEN {
                break;
            }
            compare(&first, &second);
            compared += 1;
            if numbers.chance(5) {
                let area = numbers.area();
                capability(&mut first.0, &area);
                capability(&mut second.0, &area);
            } else if numbers.chance(8) {
                let (ta_id, on) = (numbers.below(16) as u32, numbers.chance(5));
                let length = if numbers.chance(8) { 17 } else { 16 };
                local_change(&mut first.0, ta_id, on, &mut vec![0; length]);
                local_change(&mut second.0, ta_id, on, &mut vec![0; length]);
            } else {
                let number = numbers.below(9) as u32;
                hello(&mut first.0, number);
                hello(&mut second.0, number);
            }
        }
    }
    assert!(compared > 10_000, "{compared}");
}
