//! What calls are given and answer with: as octets, in words, and simpler ones
//! of each.

use crate::call::SESSION_OCTETS;
use second::Fields;
use std::fmt::Write;

/// What can be asked of anything that a call is given.
pub trait Given {
    /// Puts it down as `calls.c` takes it.
    fn put(&self, octets: &mut Vec<u8>);

    /// How many octets long it is, if it can be shorter.
    fn length(&self) -> usize {
        0
    }

    /// Is anything lent at all?
    fn is_there(&self) -> bool {
        true
    }

    /// How many bits are set.
    fn bits(&self) -> u32;

    fn show(&self) -> String;
}

/// What can be read back, and made simpler.
pub trait Value: Given + Sized {
    fn get(octets: &mut &[u8]) -> Option<Self>;

    /// Hands over shorter ones until one is taken; tells whether one was.
    fn shorter(&self, _take: &mut dyn FnMut(Self) -> bool) -> bool {
        false
    }

    /// The same with ones that have fewer bits.
    fn plainer(&self, take: &mut dyn FnMut(Self) -> bool) -> bool;
}

/// The ways to make something simpler.
#[derive(Clone, Copy)]
pub enum Way {
    Shorter,
    Plainer,
}

impl Way {
    pub fn of<T: Value>(self, value: &T, take: &mut dyn FnMut(T) -> bool) -> bool {
        match self {
            Way::Shorter => value.shorter(take),
            Way::Plainer => value.plainer(take),
        }
    }
}

pub fn take<'a>(octets: &mut &'a [u8], length: usize) -> Option<&'a [u8]> {
    let (taken, left) = octets.split_at_checked(length)?;
    *octets = left;
    Some(taken)
}

/// Numbers; large ones are shown in hexadecimal too.
macro_rules! number {
    ($type:ty, $shown:literal) => {
        impl Given for $type {
            fn put(&self, octets: &mut Vec<u8>) {
                octets.extend(self.to_le_bytes());
            }

            fn bits(&self) -> u32 {
                self.count_ones()
            }

            fn show(&self) -> String {
                format!($shown, self)
            }
        }

        impl Value for $type {
            fn get(octets: &mut &[u8]) -> Option<$type> {
                let taken = take(octets, size_of::<$type>())?;
                Some(<$type>::from_le_bytes(taken.try_into().ok()?))
            }

            /// 0, and each set bit away.
            fn plainer(&self, take: &mut dyn FnMut($type) -> bool) -> bool {
                let mut bits = (0..<$type>::BITS).rev();
                take(0) || bits.any(|bit| self >> bit & 1 == 1 && take(self & !(1 << bit)))
            }
        }
    };
}

number!(u8, "{}");
number!(u16, "{}");
number!(u32, "{0} ({0:08X})");
number!(u64, "{0} ({0:X})");

impl Given for bool {
    fn put(&self, octets: &mut Vec<u8>) {
        octets.push((*self).into());
    }

    fn bits(&self) -> u32 {
        (*self).into()
    }

    fn show(&self) -> String {
        self.to_string()
    }
}

impl Value for bool {
    fn get(octets: &mut &[u8]) -> Option<bool> {
        match u8::get(octets)? {
            0 => Some(false),
            1 => Some(true),
            _ => None,
        }
    }

    fn plainer(&self, take: &mut dyn FnMut(bool) -> bool) -> bool {
        take(false)
    }
}

impl<const COUNT: usize> Given for [u8; COUNT] {
    fn put(&self, octets: &mut Vec<u8>) {
        octets.extend(self);
    }

    fn bits(&self) -> u32 {
        set_bits(self)
    }

    fn show(&self) -> String {
        self.map(|number| number.to_string()).join(" ")
    }
}

impl<const COUNT: usize> Value for [u8; COUNT] {
    fn get(octets: &mut &[u8]) -> Option<[u8; COUNT]> {
        take(octets, COUNT)?.try_into().ok()
    }

    fn plainer(&self, take: &mut dyn FnMut([u8; COUNT]) -> bool) -> bool {
        fewer_bits(self, &mut |fewer| {
            take(std::array::from_fn(|place| fewer[place]))
        })
    }
}

impl Given for Vec<u8> {
    fn put(&self, octets: &mut Vec<u8>) {
        (self.len() as u32).put(octets);
        octets.extend(self);
    }

    fn length(&self) -> usize {
        self.len()
    }

    fn is_there(&self) -> bool {
        !self.is_empty()
    }

    fn bits(&self) -> u32 {
        set_bits(self)
    }

    fn show(&self) -> String {
        format!("{} ({} octets)", hex(self), self.len())
    }
}

impl Value for Vec<u8> {
    fn get(octets: &mut &[u8]) -> Option<Vec<u8>> {
        let length = u32::get(octets)?;
        Some(take(octets, length as usize)?.to_vec())
    }

    fn shorter(&self, take: &mut dyn FnMut(Vec<u8>) -> bool) -> bool {
        runs(self.len(), &mut |from, to| {
            let mut fewer = self.clone();
            fewer.drain(from..to);
            take(fewer)
        })
    }

    fn plainer(&self, take: &mut dyn FnMut(Vec<u8>) -> bool) -> bool {
        fewer_bits(self, take)
    }
}

impl Given for Vec<Fields> {
    fn put(&self, octets: &mut Vec<u8>) {
        ((SESSION_OCTETS * self.len()) as u32).put(octets);
        for session in self {
            session.put(octets);
        }
    }

    fn length(&self) -> usize {
        SESSION_OCTETS * self.len()
    }

    fn is_there(&self) -> bool {
        !self.is_empty()
    }

    fn bits(&self) -> u32 {
        self.iter().map(Given::bits).sum()
    }

    /// A line for each session, or for each run of equal ones.
    fn show(&self) -> String {
        let mut text = format!("{} sessions", self.len());
        let mut first = 0;
        for run in self.chunk_by(|one, next| one == next) {
            let last = first + run.len() - 1;
            let which = if first == last {
                first.to_string()
            } else {
                format!("{first}-{last}")
            };
            write!(text, "\n   {which:>7} {}", run[0].show()).unwrap();
            first = last + 1;
        }
        text
    }
}

impl Value for Vec<Fields> {
    fn get(octets: &mut &[u8]) -> Option<Vec<Fields>> {
        let length = u32::get(octets)?;
        let mut fields = take(octets, length as usize)?;
        let mut row = Vec::new();
        while !fields.is_empty() {
            row.push(Fields::get(&mut fields)?);
        }
        Some(row)
    }

    /// Sessions as the one before, or plainer.
    fn plainer(&self, take: &mut dyn FnMut(Vec<Fields>) -> bool) -> bool {
        (0..self.len()).any(|at| {
            let mut with = |session| {
                let mut row = self.clone();
                row[at] = session;
                take(row)
            };
            at > 0 && with(self[at - 1]) || self[at].plainer(&mut with)
        })
    }
}

/// Octets in hexadecimal. A long run of one octet is written once, with how
/// often it stands there: `[00 x 4092]`.
fn hex(octets: &[u8]) -> String {
    if octets.is_empty() {
        return "(none)".to_string();
    }
    let mut text = String::new();
    for run in octets.chunk_by(|one, next| one == next) {
        if run.len() >= 40 {
            write!(text, "[{:02X} x {}]", run[0], run.len()).unwrap();
        } else {
            for octet in run {
                write!(text, "{octet:02X}").unwrap();
            }
        }
    }
    text
}

fn set_bits(octets: &[u8]) -> u32 {
    octets.iter().map(|octet| octet.count_ones()).sum()
}

/// Runs of octets made 0, then single bits.
fn fewer_bits(octets: &[u8], take: &mut dyn FnMut(Vec<u8>) -> bool) -> bool {
    let zeroed = runs(octets.len(), &mut |from, to| {
        let mut fewer = octets.to_vec();
        fewer[from..to].fill(0);
        octets[from..to] != fewer[from..to] && take(fewer)
    });
    zeroed
        || (0..8 * octets.len()).any(|bit| {
            let (index, mask) = (bit / 8, 1 << (bit % 8));
            let mut fewer = octets.to_vec();
            fewer[index] &= !mask;
            octets[index] != fewer[index] && take(fewer)
        })
}

/// Runs that cover a length, longer ones first.
pub fn runs(length: usize, take: &mut dyn FnMut(usize, usize) -> bool) -> bool {
    let mut width = length;
    while width > 0 {
        let mut from = 0;
        while from < length {
            if take(from, (from + width).min(length)) {
                return true;
            }
            from += width;
        }
        width /= 2;
    }
    false
}
