//! The Capability message that announces a local change.

use crate::kinds::Application;

pub(crate) const LENGTH: usize = 17;

/// One TAC with one element, under the given message number.
pub(crate) fn capability(number: u32, application: Application, on: bool) -> [u8; LENGTH] {
    let [n0, n1, n2, n3] = number.to_be_bytes();
    let [high, low] = application.ta_id().to_be_bytes();
    let e = if on { 0x80 } else { 0x00 };
    [
        0x02, 0x02, // Capability message
        0x00, 0x0D, // of 13 octets
        n0, n1, n2, n3, // message number
        0x85, 0x0F, // TAC, U = 1
        0x00, 0x05, // of 5 octets
        0x80, // S = 1
        high, low, e, 0x00, // the element
    ]
}

#[cfg(test)]
mod tests {
    use super::*;

    #[test]
    fn on_and_off_differ_in_one_bit() {
        let on = capability(0x0102_0304, Application::Ipv6IntraArea, true);
        let off = capability(0x0102_0304, Application::Ipv6IntraArea, false);
        assert_eq!(
            on,
            [2, 2, 0, 13, 1, 2, 3, 4, 0x85, 0x0F, 0, 5, 0x80, 0, 13, 0x80, 0]
        );
        assert_eq!(on[..15], off[..15]);
        assert_eq!(off[15..], [0, 0]);
    }
}
