//! Totals: how many sessions of a row permit each kind, kept beside the row and
//! brought up to date from what each event lost and gained.

use crate::kinds::Kind;
use crate::{Answer, Refusal};

/// The highest total that an event may lead to: a row has no more sessions.
const HIGHEST: i32 = 64;

/// The total of each kind, kind k at k.
#[derive(Clone, Copy, Debug, Default, PartialEq, Eq)]
#[repr(C)]
pub struct Totals {
    pub of: [u8; Kind::ALL.len()],
}

/// The total of one kind. After a refusal it is 0.
#[derive(Clone, Copy, Debug, Default, PartialEq, Eq)]
#[repr(C)]
pub struct Total {
    pub refusal: u8,
    pub total: u8,
}

/// What an event of a row did, and the totals after it. After a refusal they are as
/// handed in.
#[derive(Clone, Copy, Debug, Default, PartialEq, Eq)]
#[repr(C)]
pub struct RowAnswer {
    pub answer: Answer,
    pub totals: Totals,
}

/// The totals of a row, counted anew. After a refusal they are 0.
#[derive(Clone, Copy, Debug, Default, PartialEq, Eq)]
#[repr(C)]
pub struct RowTotals {
    pub refusal: u8,
    pub totals: Totals,
}

impl Totals {
    /// One session more, which permits this kind.
    pub(crate) fn count(&mut self, kind: Kind) {
        self.of[kind as usize] += 1;
    }

    /// The totals after an event, or 16 where it would take one outside 0 to 64. A total
    /// whose kind was neither lost nor gained is not asked: it may be any, and stays so.
    pub(crate) fn after(mut self, answer: Answer) -> Result<Totals, Refusal> {
        for (kind, total) in self.of.iter_mut().enumerate() {
            let lost = i32::from(answer.lost >> kind & 1);
            let gained = i32::from(answer.gained >> kind & 1);
            if lost == gained {
                continue;
            }
            let moved = i32::from(*total) - lost + gained;
            if !(0..=HIGHEST).contains(&moved) {
                return Err(Refusal::TotalOutside);
            }
            *total = moved as u8;
        }
        Ok(self)
    }
}

/// How many sessions of the row with these totals permit this kind?
pub fn kind_total(totals: Totals, kind: u32) -> Total {
    match Kind::from_number(kind) {
        Some(kind) => Total {
            refusal: 0,
            total: totals.of[kind as usize],
        },
        None => Total {
            refusal: Refusal::OutOfRange.number(),
            total: 0,
        },
    }
}

#[cfg(test)]
mod tests {
    use super::*;

    /// What becomes of the total of kind 4 by an event that loses or gains it.
    fn moved(total: u8, lost: u16, gained: u16) -> Option<u8> {
        let mut totals = Totals { of: [200; 10] };
        totals.of[4] = total;
        let answer = Answer {
            lost: lost << 4,
            gained: gained << 4,
            ..Answer::default()
        };
        let after = totals.after(answer).ok()?;
        for (kind, &other) in after.of.iter().enumerate() {
            assert!(kind == 4 || other == 200);
        }
        Some(after.of[4])
    }

    #[test]
    fn a_total_that_moves_comes_to_0_to_64() {
        for total in 0..=255u8 {
            let lower = total.checked_sub(1).filter(|&after| after <= 64);
            let higher = total.checked_add(1).filter(|&after| after <= 64);
            assert_eq!(moved(total, 1, 0), lower);
            assert_eq!(moved(total, 0, 1), higher);
            assert_eq!(moved(total, 0, 0), Some(total));
        }
    }
}
