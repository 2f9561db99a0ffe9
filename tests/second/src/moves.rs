//! From a stored record of kind 1 to one of kind 2, and back. Kind 1 has no place for
//! capabilities: on the way forward a session holds none, and with any there is no way back.

use crate::{record, Refusal};

/// What an Open session loses on its way forward. After a refusal it is 0.
#[derive(Clone, Copy, Debug, Default, PartialEq, Eq)]
#[repr(C)]
pub struct Moved {
    pub refusal: u8,
    pub lost: u16,
}

/// Puts the session of a record of kind 1 into one of kind 2.
pub fn forward(kind1: &[u8], kind2: &mut [u8]) -> Moved {
    let moved = record::decode_kind1(kind1).and_then(|session| {
        *record::room(kind2)? = record::encode(&session);
        Ok(session.lacking())
    });
    match moved {
        Ok(lost) => Moved {
            refusal: 0,
            lost: lost.bits(),
        },
        Err(refusal) => Moved {
            refusal: refusal.number(),
            lost: 0,
        },
    }
}

/// Puts the session of a record of kind 2 into one of kind 1; answers the refusal number, 0
/// for none.
pub fn back(kind2: &[u8], kind1: &mut [u8]) -> u8 {
    let moved = record::decode(kind2).and_then(|session| {
        let room = record::room(kind1)?;
        if !session.settings.ours.is_empty() {
            return Err(Refusal::NoPlaceForCapabilities);
        }
        if !session.peer.theirs.is_empty() {
            return Err(Refusal::NoPlaceForCapabilities);
        }
        *room = record::encode_kind1(&session);
        Ok(())
    });
    match moved {
        Ok(()) => 0,
        Err(refusal) => refusal.number(),
    }
}
