//! The lists that a peer sends: sets of applications and of controls, and the
//! elements of TAC and SAC values that change them.

use crate::kinds::{Application, Control, Kind, KindSet};

/// A set of targeted applications, TA-Id n at bit n-1.
#[derive(Clone, Copy, Debug, Default, PartialEq, Eq)]
pub(crate) struct ApplicationSet(u16);

impl ApplicationSet {
    pub const EMPTY: ApplicationSet = ApplicationSet(0);
    pub const ALL: ApplicationSet = ApplicationSet(ApplicationSet::KNOWN as u16);
    const KNOWN: u32 = (1 << Application::ALL.len()) - 1;

    /// None if a bit stands for no application.
    pub fn from_bits(bits: u32) -> Option<ApplicationSet> {
        (bits & !ApplicationSet::KNOWN == 0).then_some(ApplicationSet(bits as u16))
    }

    pub fn bits(self) -> u16 {
        self.0
    }

    /// The list that a TAC gives in an Initialization: S and E say nothing.
    pub fn announced(tac: &[u8]) -> ApplicationSet {
        let mut list = ApplicationSet::EMPTY;
        for (application, _) in tac_elements(tac) {
            list.set(application, true);
        }
        list
    }

    /// The list after a TAC that advertises in a Capability message.
    pub fn updated(mut self, tac: &[u8]) -> ApplicationSet {
        for (application, enable) in tac_elements(tac) {
            self.set(application, enable);
        }
        self
    }

    pub fn is_empty(self) -> bool {
        self.0 == 0
    }

    pub fn contains(self, application: Application) -> bool {
        self.0 & ApplicationSet::bit(application) != 0
    }

    /// Puts the application in or takes it out.
    pub fn set(&mut self, application: Application, within: bool) {
        if within {
            self.0 |= ApplicationSet::bit(application);
        } else {
            self.0 &= !ApplicationSet::bit(application);
        }
    }

    pub fn common(self, others: ApplicationSet) -> ApplicationSet {
        ApplicationSet(self.0 & others.0)
    }

    /// Every kind that some application of the set opens.
    pub fn opens(self, protected: KindSet) -> KindSet {
        let mut kinds = KindSet::NONE;
        let mut left = self.0;
        while left != 0 {
            let application = Application::ALL[left.trailing_zeros() as usize];
            kinds = kinds.with(application.opens(protected));
            left &= left - 1;
        }
        kinds
    }

    fn bit(application: Application) -> u16 {
        1 << (application.ta_id() - 1)
    }
}

/// A set of SAC controls, App n at bit n-1.
#[derive(Clone, Copy, Debug, Default, PartialEq, Eq)]
pub(crate) struct ControlSet(u8);

impl ControlSet {
    const KNOWN: u32 = (1 << Control::ALL.len()) - 1;

    /// None if a bit stands for no control.
    pub fn from_bits(bits: u32) -> Option<ControlSet> {
        (bits & !ControlSet::KNOWN == 0).then_some(ControlSet(bits as u8))
    }

    pub fn bits(self) -> u8 {
        self.0
    }

    /// What a SAC disables in an Initialization: it cannot enable anything.
    pub fn announced(sac: &[u8]) -> ControlSet {
        let mut disabled = ControlSet::default();
        for (control, disable) in sac_elements(sac) {
            if disable {
                disabled.set(control, true);
            }
        }
        disabled
    }

    /// What is disabled after a SAC in a Capability message.
    pub fn updated(mut self, sac: &[u8]) -> ControlSet {
        for (control, disable) in sac_elements(sac) {
            self.set(control, disable);
        }
        self
    }

    pub fn is_empty(self) -> bool {
        self.0 == 0
    }

    pub fn contains(self, control: Control) -> bool {
        self.0 & ControlSet::bit(control) != 0
    }

    /// Its controls, from the first App on.
    pub fn controls(self) -> impl Iterator<Item = Control> {
        let all = Control::ALL.into_iter();
        all.filter(move |&control| self.contains(control))
    }

    /// Puts the control in or takes it out.
    pub fn set(&mut self, control: Control, within: bool) {
        if within {
            self.0 |= ControlSet::bit(control);
        } else {
            self.0 &= !ControlSet::bit(control);
        }
    }

    /// Is this kind one that some control of the set closes?
    pub fn disables(self, kind: Kind) -> bool {
        self.controls().any(|control| control.kind() == kind)
    }

    /// Every kind that some control of the set closes.
    pub fn closes(self) -> KindSet {
        let mut kinds = KindSet::NONE;
        for control in self.controls() {
            kinds = kinds.with(KindSet::of([control.kind()]));
        }
        kinds
    }

    fn bit(control: Control) -> u8 {
        1 << (control as u8 - 1)
    }
}

/// The S bit of a TAC value.
pub(crate) fn tac_advertises(value: &[u8]) -> bool {
    value[0] & 0x80 != 0
}

/// The elements of a TAC value that count, each with its E bit: those of known
/// applications, and of equal ones only the first.
fn tac_elements(value: &[u8]) -> impl Iterator<Item = (Application, bool)> + '_ {
    let mut seen = ApplicationSet::EMPTY;
    value[1..].chunks_exact(4).filter_map(move |element| {
        let ta_id = u16::from_be_bytes([element[0], element[1]]);
        let application = Application::from_ta_id(u32::from(ta_id))?;
        if seen.contains(application) {
            return None;
        }
        seen.set(application, true);
        Some((application, element[2] & 0x80 != 0))
    })
}

/// The elements of a SAC value that count, each with its D bit.
fn sac_elements(value: &[u8]) -> impl Iterator<Item = (Control, bool)> + '_ {
    value[1..].iter().filter_map(|&element| {
        let control = Control::from_app(element >> 4 & 0x7)?;
        Some((control, element & 0x80 != 0))
    })
}

#[cfg(test)]
mod tests {
    use super::*;

    #[test]
    fn the_first_of_equal_elements_counts() {
        let value = [
            0x80, 0, 7, 0x80, 0, 0, 7, 0, 0, 0, 14, 0x80, 0, 0, 0, 0x80, 0, 1, 7, 0x80, 0, 0, 4,
            0x7F, 0xFF, 0, 4, 0x80, 0,
        ];
        let counting: Vec<_> = tac_elements(&value).collect();
        assert_eq!(
            counting,
            [
                (Application::Fec129Pw, true),
                (Application::Ldpv4RemoteLfa, false)
            ]
        );
        assert!(tac_advertises(&value));
        assert!(!tac_advertises(&[0x7F]));
    }

    #[test]
    fn sac_elements_count_in_order_and_need_a_known_app() {
        let value = [0, 0x9F, 0x20, 0x80, 0x50, 0xF0, 0x1F];
        let counting: Vec<_> = sac_elements(&value).collect();
        assert_eq!(
            counting,
            [
                (Control::Ipv4Prefixes, true),
                (Control::Ipv6Prefixes, false),
                (Control::Ipv4Prefixes, false)
            ]
        );
    }

    #[test]
    fn sets_know_their_width() {
        assert_eq!(
            ApplicationSet::from_bits(0x1FFF),
            Some(ApplicationSet(0x1FFF))
        );
        for bit in 13..32 {
            assert_eq!(ApplicationSet::from_bits(1 << bit), None);
        }
        assert_eq!(ControlSet::from_bits(0x0F), Some(ControlSet(0x0F)));
        for bit in 4..32 {
            assert_eq!(ControlSet::from_bits(1 << bit), None);
        }
    }

    #[test]
    fn controls_close_their_kinds() {
        assert_eq!(ControlSet(0b0000).closes().bits(), 0);
        assert_eq!(ControlSet(0b0101).closes().bits(), 0x081);
        assert_eq!(ControlSet(0b1111).closes().bits(), 0x183);
    }
}
