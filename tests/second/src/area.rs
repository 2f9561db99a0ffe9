//! The TLVs of a parameter area.

use crate::capabilities::{Capability, CapabilitySet};
use crate::{Part, Refusal};

pub(crate) const LARGEST: usize = 4096;

const TAC: u16 = 0x050F;
const SAC: u16 = 0x050D;
const DYNAMIC: u16 = 0x0506;

// Numbered by RFC 6388 and RFC 7140. The last lies outside the range below and is ours all
// the same.
const P2MP: u16 = 0x0508;
const MP2MP: u16 = 0x0509;
const HSMP: u16 = 0x0902;

/// Types of capability parameters; unknown ones among them do no harm.
const HARMLESS: std::ops::RangeInclusive<u16> = 0x0500..=0x05FF;

/// The values found, by what they are.
#[derive(Clone, Copy, Debug, Default, PartialEq, Eq)]
pub(crate) struct Parameters {
    pub tac: Option<Part>,
    pub sac: Option<Part>,
    pub dynamic: Option<Part>,
    pub p2mp: Option<Part>,
    pub mp2mp: Option<Part>,
    pub hsmp: Option<Part>,
}

impl Parameters {
    /// The capabilities that are present.
    pub fn capabilities(&self) -> CapabilitySet {
        self.such_capabilities(|_| true)
    }

    /// Those of them with S = 1; the other seven bits are not read.
    pub fn holding(&self, area: &[u8]) -> CapabilitySet {
        self.such_capabilities(|value| value.of(area)[0] & 0x80 != 0)
    }

    fn such_capabilities(&self, fits: impl Fn(Part) -> bool) -> CapabilitySet {
        let mut set = CapabilitySet::default();
        for (capability, value) in [
            (Capability::P2mp, self.p2mp),
            (Capability::Mp2mp, self.mp2mp),
            (Capability::Hsmp, self.hsmp),
        ] {
            if value.is_some_and(&fits) {
                set = set.with(capability);
            }
        }
        set
    }
}

impl Part {
    /// The octets of this part.
    pub(crate) fn of(self, area: &[u8]) -> &[u8] {
        let start = usize::from(self.start);
        &area[start..start + usize::from(self.length)]
    }
}

/// One TLV that lies wholly within its area.
struct Tlv {
    may_be_unknown: bool,
    kind: u16,
    value: Part,
}

impl Tlv {
    const HEADER: usize = 4;

    /// The TLV that starts at `start`.
    fn at(area: &[u8], start: usize) -> Result<Tlv, Refusal> {
        let rest = &area[start..];
        let &[high, low, long, short, ref after @ ..] = rest else {
            return Err(Refusal::CutShort);
        };
        let length = u16::from_be_bytes([long, short]);
        if usize::from(length) > after.len() {
            return Err(Refusal::CutShort);
        }
        Ok(Tlv {
            may_be_unknown: high & 0x80 != 0,
            kind: u16::from_be_bytes([high & 0x3F, low]),
            value: Part {
                // No area is long enough to lose anything here.
                start: (start + Tlv::HEADER) as u16,
                length,
            },
        })
    }

    /// Where the next TLV starts.
    fn end(&self) -> usize {
        usize::from(self.value.start) + usize::from(self.value.length)
    }
}

/// Reads a whole area from the left.
pub(crate) fn parse(area: &[u8]) -> Result<Parameters, Refusal> {
    if area.len() > LARGEST {
        return Err(Refusal::AreaTooLong);
    }
    let mut found = Parameters::default();
    let mut at = 0;
    while at < area.len() {
        let tlv = Tlv::at(area, at)?;
        let length = tlv.value.length;
        match tlv.kind {
            TAC => place(&mut found.tac, tlv.value, length % 4 == 1)?,
            SAC => place(&mut found.sac, tlv.value, length >= 2)?,
            DYNAMIC => place(&mut found.dynamic, tlv.value, length == 1)?,
            P2MP => place(&mut found.p2mp, tlv.value, length == 1)?,
            MP2MP => place(&mut found.mp2mp, tlv.value, length == 1)?,
            HSMP => place(&mut found.hsmp, tlv.value, length == 1)?,
            other => {
                if !tlv.may_be_unknown && !HARMLESS.contains(&other) {
                    return Err(Refusal::UnknownType);
                }
            }
        }
        at = tlv.end();
    }
    Ok(found)
}

/// Puts a value into its place, once only and with a fitting length.
fn place(place: &mut Option<Part>, value: Part, fitting: bool) -> Result<(), Refusal> {
    if place.is_some() {
        return Err(Refusal::Repeated);
    }
    if !fitting {
        return Err(Refusal::BadLength);
    }
    *place = Some(value);
    Ok(())
}

#[cfg(test)]
mod tests {
    use super::*;

    #[test]
    fn a_type_has_fourteen_bits() {
        let tlv = Tlv::at(&[0xFF, 0xFF, 0, 0], 0).ok().unwrap();
        assert!(tlv.may_be_unknown);
        assert_eq!(tlv.kind, 0x3FFF);
        let tlv = Tlv::at(&[0x45, 0x0F, 0, 0], 0).ok().unwrap();
        assert!(!tlv.may_be_unknown);
        assert_eq!(tlv.kind, TAC);
    }

    #[test]
    fn parts_lie_behind_their_headers() {
        let area = [0x85, 0x06, 0, 1, 0x80, 0x85, 0x0D, 0, 2, 0x80, 0x90];
        let found = parse(&area).unwrap();
        assert_eq!(found.tac, None);
        assert_eq!(found.sac.unwrap().of(&area), [0x80, 0x90]);
        assert_eq!(found.dynamic.unwrap().of(&area), [0x80]);
    }

    #[test]
    fn capabilities_are_present_with_s_or_without() {
        let area = [
            0x05, 0x08, 0, 1, 0x7F, 0x89, 0x02, 0, 1, 0x80, 0x85, 0x09, 0, 1, 0x00,
        ];
        let found = parse(&area).unwrap();
        assert_eq!(found.capabilities().bits(), 0b111);
        assert_eq!(found.holding(&area).bits(), 0b100);
        let found = parse(&area[5..10]).unwrap();
        assert_eq!(found.capabilities().bits(), 0b100);
    }
}
