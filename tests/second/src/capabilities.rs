//! The capabilities of multipoint labels: sets of them, and which kind needs which. A kind
//! that needs one may be sent only where both ends hold it.

use crate::kinds::{Kind, KindSet};

/// A capability, numbered by its bit in a set.
#[derive(Clone, Copy, Debug, PartialEq, Eq)]
pub(crate) enum Capability {
    P2mp,
    Mp2mp,
    Hsmp,
}

impl Capability {
    pub const ALL: [Capability; 3] = [Capability::P2mp, Capability::Mp2mp, Capability::Hsmp];

    /// "Kind 2 needs P2MP, kinds 3 and 4 need MP2MP, kinds 5 and 6 need HSMP."
    pub fn needed_by(kind: Kind) -> Option<Capability> {
        match kind {
            Kind::Ipv4Prefix => None,
            Kind::Ipv6Prefix => None,
            Kind::P2mp => Some(Capability::P2mp),
            Kind::Mp2mpUp => Some(Capability::Mp2mp),
            Kind::Mp2mpDown => Some(Capability::Mp2mp),
            Kind::HsmpDownstream => Some(Capability::Hsmp),
            Kind::HsmpUpstream => Some(Capability::Hsmp),
            Kind::Pwid => None,
            Kind::GeneralizedPwid => None,
            Kind::P2mpPwUpstream => None,
        }
    }
}

/// A set of capabilities: P2MP bit 0, MP2MP bit 1, HSMP bit 2.
#[derive(Clone, Copy, Debug, Default, PartialEq, Eq)]
pub(crate) struct CapabilitySet(u8);

impl CapabilitySet {
    const KNOWN: u32 = (1 << Capability::ALL.len()) - 1;

    /// None if a bit stands for no capability.
    pub fn from_bits(bits: u32) -> Option<CapabilitySet> {
        (bits & !CapabilitySet::KNOWN == 0).then_some(CapabilitySet(bits as u8))
    }

    pub fn bits(self) -> u8 {
        self.0
    }

    pub fn is_empty(self) -> bool {
        self.0 == 0
    }

    pub fn contains(self, capability: Capability) -> bool {
        self.0 & (1 << capability as u8) != 0
    }

    pub fn with(self, capability: Capability) -> CapabilitySet {
        CapabilitySet(self.0 | 1 << capability as u8)
    }

    pub fn common(self, others: CapabilitySet) -> CapabilitySet {
        CapabilitySet(self.0 & others.0)
    }

    /// What is held after a Capability message in which some are present and some of these
    /// with S = 1: "S = 1 holds, S = 0 withdrawn", and what is absent stays.
    pub fn updated(self, present: CapabilitySet, holding: CapabilitySet) -> CapabilitySet {
        CapabilitySet(self.0 & !present.0 | holding.0)
    }

    /// Every kind that needs a capability outside the set.
    pub fn lacks(self) -> KindSet {
        let mut kinds = KindSet::NONE;
        for kind in Kind::ALL {
            let needed = Capability::needed_by(kind);
            if needed.is_some_and(|needed| !self.contains(needed)) {
                kinds = kinds.with(KindSet::of([kind]));
            }
        }
        kinds
    }
}

#[cfg(test)]
mod tests {
    use super::*;

    #[test]
    fn five_kinds_need_one_of_three() {
        let needed = Kind::ALL.map(|kind| Capability::needed_by(kind).map(|one| one as u8));
        let [p2mp, mp2mp, hsmp] = [Some(0), Some(1), Some(2)];
        assert_eq!(
            needed,
            [None, None, p2mp, mp2mp, mp2mp, hsmp, hsmp, None, None, None]
        );
    }

    #[test]
    fn what_is_not_held_is_lacking() {
        for (held, lacks) in [
            (0, 0x07C),
            (1, 0x078),
            (2, 0x064),
            (4, 0x01C),
            (5, 0x018),
            (7, 0),
        ] {
            assert_eq!(CapabilitySet(held).lacks().bits(), lacks);
        }
    }

    #[test]
    fn sets_know_their_width() {
        assert_eq!(CapabilitySet::from_bits(7), Some(CapabilitySet(7)));
        for bit in 3..32 {
            assert_eq!(CapabilitySet::from_bits(1 << bit), None);
        }
    }
}
