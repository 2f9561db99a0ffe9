//! Numbers, settings and areas for long runs of events.

use crate::Made;

/// Numbers that look random and always are the same.
pub struct Numbers(pub u64);

impl Numbers {
    pub fn next(&mut self) -> u64 {
        self.0 = self.0.wrapping_add(0x9E37_79B9_7F4A_7C15);
        let mut mixed = self.0;
        mixed = (mixed ^ (mixed >> 30)).wrapping_mul(0xBF58_476D_1CE4_E5B9);
        mixed = (mixed ^ (mixed >> 27)).wrapping_mul(0x94D0_49BB_1331_11EB);
        mixed ^ (mixed >> 31)
    }

    pub fn below(&mut self, limit: u64) -> u64 {
        self.next() % limit
    }

    pub fn chance(&mut self, of_ten: u64) -> bool {
        self.below(10) < of_ten
    }

    /// Settings of any sort, most of them with TAC.
    pub fn made(&mut self) -> Made {
        Made {
            initiating: self.chance(5),
            active: self.chance(5),
            uses_tac: self.chance(8),
            drops: self.chance(5),
            protected: self.below(0x400) as u32,
            enabled: (self.next() & 0x1FFF) as u32,
            number: self.next() as u32,
            capabilities: self.below(8) as u32,
        }
    }

    /// An area that a reader must take.
    pub fn area(&mut self) -> Vec<u8> {
        let mut area = Vec::new();
        if self.chance(8) {
            let elements = self.below(9) as usize;
            area.extend([0x85, 0x0F, 0, 1 + 4 * elements as u8]);
            area.push(if self.chance(9) { 0x80 } else { 0 });
            for _ in 0..elements {
                let e = if self.chance(7) { 0x80 } else { 0 };
                area.extend([0, self.below(15) as u8, e, 0]);
            }
        }
        if self.chance(5) {
            area.extend([0x85, 0x0D, 0, 3, 0x80]);
            area.extend([self.next() as u8, self.next() as u8]);
        }
        if self.chance(8) {
            area.extend([0x85, 0x06, 0, 1, 0x80]);
        }
        for (high, low) in [(0x85, 0x08), (0x85, 0x09), (0x89, 0x02)] {
            if self.chance(5) {
                area.extend([high, low, 0, 1, self.next() as u8]);
            }
        }
        area
    }
}
