//! Label kinds, the applications that open them and the SAC controls that
//! close them.

/// A kind of label.
#[derive(Clone, Copy, Debug, PartialEq, Eq)]
pub(crate) enum Kind {
    Ipv4Prefix,
    Ipv6Prefix,
    P2mp,
    Mp2mpUp,
    Mp2mpDown,
    HsmpDownstream,
    HsmpUpstream,
    Pwid,
    GeneralizedPwid,
    P2mpPwUpstream,
}

impl Kind {
    pub const ALL: [Kind; 10] = [
        Kind::Ipv4Prefix,
        Kind::Ipv6Prefix,
        Kind::P2mp,
        Kind::Mp2mpUp,
        Kind::Mp2mpDown,
        Kind::HsmpDownstream,
        Kind::HsmpUpstream,
        Kind::Pwid,
        Kind::GeneralizedPwid,
        Kind::P2mpPwUpstream,
    ];

    pub fn from_number(number: u32) -> Option<Kind> {
        Kind::ALL.get(usize::try_from(number).ok()?).copied()
    }
}

/// A set of kinds, kind k at bit k.
#[derive(Clone, Copy, Debug, Default, PartialEq, Eq)]
pub(crate) struct KindSet(u16);

impl KindSet {
    pub const NONE: KindSet = KindSet(0);
    pub const ALL: KindSet = KindSet((1 << Kind::ALL.len()) - 1);

    pub const fn of<const N: usize>(kinds: [Kind; N]) -> KindSet {
        let mut bits = 0;
        let mut index = 0;
        while index < N {
            bits |= 1 << kinds[index] as u16;
            index += 1;
        }
        KindSet(bits)
    }

    /// None if a bit stands for no kind.
    pub fn from_bits(bits: u32) -> Option<KindSet> {
        let known = u32::from(KindSet::ALL.0);
        (bits & !known == 0).then_some(KindSet(bits as u16))
    }

    pub fn bits(self) -> u16 {
        self.0
    }

    pub fn contains(self, kind: Kind) -> bool {
        self.0 & (1 << kind as u16) != 0
    }

    pub fn with(self, others: KindSet) -> KindSet {
        KindSet(self.0 | others.0)
    }

    pub fn without(self, others: KindSet) -> KindSet {
        KindSet(self.0 & !others.0)
    }
}

/// A targeted application, numbered by its TA-Id.
#[derive(Clone, Copy, Debug, PartialEq, Eq)]
pub(crate) enum Application {
    Ldpv4Tunneling = 1,
    Ldpv6Tunneling = 2,
    MldpTunneling = 3,
    Ldpv4RemoteLfa = 4,
    Ldpv6RemoteLfa = 5,
    Fec128Pw = 6,
    Fec129Pw = 7,
    SessionProtection = 8,
    Iccp = 9,
    P2mpPw = 10,
    MldpNodeProtection = 11,
    Ipv4IntraArea = 12,
    Ipv6IntraArea = 13,
}

impl Application {
    pub const ALL: [Application; 13] = [
        Application::Ldpv4Tunneling,
        Application::Ldpv6Tunneling,
        Application::MldpTunneling,
        Application::Ldpv4RemoteLfa,
        Application::Ldpv6RemoteLfa,
        Application::Fec128Pw,
        Application::Fec129Pw,
        Application::SessionProtection,
        Application::Iccp,
        Application::P2mpPw,
        Application::MldpNodeProtection,
        Application::Ipv4IntraArea,
        Application::Ipv6IntraArea,
    ];

    pub fn from_ta_id(ta_id: u32) -> Option<Application> {
        let index = usize::try_from(ta_id).ok()?.checked_sub(1)?;
        Application::ALL.get(index).copied()
    }

    pub fn ta_id(self) -> u16 {
        self as u16
    }

    /// The kinds that this application opens; session protection opens what
    /// the session protects.
    pub fn opens(self, protected: KindSet) -> KindSet {
        const MULTIPOINT: KindSet = KindSet::of([
            Kind::P2mp,
            Kind::Mp2mpUp,
            Kind::Mp2mpDown,
            Kind::HsmpDownstream,
            Kind::HsmpUpstream,
        ]);
        match self {
            Application::Ldpv4Tunneling => KindSet::of([Kind::Ipv4Prefix]),
            Application::Ldpv6Tunneling => KindSet::of([Kind::Ipv6Prefix]),
            Application::MldpTunneling => MULTIPOINT,
            Application::Ldpv4RemoteLfa => KindSet::of([Kind::Ipv4Prefix]),
            Application::Ldpv6RemoteLfa => KindSet::of([Kind::Ipv6Prefix]),
            Application::Fec128Pw => KindSet::of([Kind::Pwid]),
            Application::Fec129Pw => KindSet::of([Kind::GeneralizedPwid]),
            Application::SessionProtection => protected,
            Application::Iccp => KindSet::NONE,
            Application::P2mpPw => KindSet::of([Kind::P2mpPwUpstream]),
            Application::MldpNodeProtection => MULTIPOINT,
            Application::Ipv4IntraArea => KindSet::of([Kind::Ipv4Prefix]),
            Application::Ipv6IntraArea => KindSet::of([Kind::Ipv6Prefix]),
        }
    }
}

/// What a SAC element controls, numbered by its App field.
#[derive(Clone, Copy, Debug, PartialEq, Eq)]
pub(crate) enum Control {
    Ipv4Prefixes = 1,
    Ipv6Prefixes = 2,
    Fec128 = 3,
    Fec129 = 4,
}

impl Control {
    pub const ALL: [Control; 4] = [
        Control::Ipv4Prefixes,
        Control::Ipv6Prefixes,
        Control::Fec128,
        Control::Fec129,
    ];

    pub fn from_app(app: impl Into<u32>) -> Option<Control> {
        let index = usize::try_from(app.into()).ok()?.checked_sub(1)?;
        Control::ALL.get(index).copied()
    }

    /// The kind that is closed while this control is disabled.
    pub fn kind(self) -> Kind {
        match self {
            Control::Ipv4Prefixes => Kind::Ipv4Prefix,
            Control::Ipv6Prefixes => Kind::Ipv6Prefix,
            Control::Fec128 => Kind::Pwid,
            Control::Fec129 => Kind::GeneralizedPwid,
        }
    }
}

#[cfg(test)]
mod tests {
    use super::*;

    #[test]
    fn kinds_are_numbered_from_zero_to_nine() {
        for number in 0..10 {
            assert_eq!(Kind::from_number(number).unwrap() as u32, number);
        }
        assert_eq!(Kind::from_number(10), None);
        assert_eq!(Kind::from_number(0x1_0000), None);
        assert_eq!(Kind::from_number(u32::MAX), None);
    }

    #[test]
    fn every_application_opens_its_row() {
        let protected = KindSet::from_bits(0x281).unwrap();
        let rows = [
            0x001, 0x002, 0x07C, 0x001, 0x002, 0x080, 0x100, 0x281, 0x000, 0x200, 0x07C, 0x001,
            0x002,
        ];
        for (ta_id, kinds) in (1..).zip(rows) {
            let application = Application::from_ta_id(ta_id).unwrap();
            assert_eq!(u32::from(application.ta_id()), ta_id);
            assert_eq!(application.opens(protected).bits(), kinds, "{ta_id}");
        }
        for unknown in [0, 14, 0x0104, 0x1_0001, u32::MAX] {
            assert_eq!(Application::from_ta_id(unknown), None);
        }
    }

    #[test]
    fn four_of_eight_controls_exist() {
        let kinds = [None, Some(0), Some(1), Some(7), Some(8), None, None, None];
        for (app, kind) in (0u32..).zip(kinds) {
            let control = Control::from_app(app);
            assert_eq!(control.map(|control| control.kind() as u8), kind);
        }
    }

    #[test]
    fn only_ten_bits_make_a_set_of_kinds() {
        assert_eq!(KindSet::from_bits(0x3FF), Some(KindSet::ALL));
        for bit in 10..32 {
            assert_eq!(KindSet::from_bits(1 << bit), None);
        }
    }
}
