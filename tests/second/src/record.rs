//! The stored form of a session: a record of kind 2.
//!
//! | octets | field                                                     |
//! |--------|-----------------------------------------------------------|
//! | 0, 1   | length of what follows them, 22                           |
//! | 2, 3   | kind of record, 2                                         |
//! | 4      | state                                                     |
//! | 5      | flags                                                     |
//! | 6, 7   | enabled applications                                      |
//! | 8, 9   | applications listed by the peer                           |
//! | 10, 11 | protected kinds                                           |
//! | 12     | disabled controls                                         |
//! | 13     | nothing                                                   |
//! | 14-17  | Hello number                                              |
//! | 18-21  | next message number                                       |
//! | 22     | our capabilities                                          |
//! | 23     | the peer's capabilities                                   |
//!
//! A record of kind 1 ends before the capabilities, and its length is 20. Its session has
//! none at either end.

use crate::capabilities::CapabilitySet;
use crate::kinds::KindSet;
use crate::lists::{ApplicationSet, ControlSet};
use crate::session::{Peer, Session, Settled, State};
use crate::Refusal;

pub(crate) const LENGTH: usize = 24;
pub(crate) const KIND1_LENGTH: usize = 22;

/// Length and kind, of a record of kind 2 and of one of kind 1.
pub(crate) const HEAD: [u8; 4] = [22, 0, 2, 0];
const KIND1_HEAD: [u8; 4] = [20, 0, 1, 0];

const INITIATING: u8 = 1 << 0;
const ACTIVE: u8 = 1 << 1;
const USES_TAC: u8 = 1 << 2;
const DROPS: u8 = 1 << 3;
const IN_FORCE: u8 = 1 << 4;
const DYNAMIC: u8 = 1 << 5;
const HELLO: u8 = 1 << 6;
const SPARE: u8 = 1 << 7;

/// Room for a record, if it has just its size.
pub(crate) fn room<const N: usize>(octets: &mut [u8]) -> Result<&mut [u8; N], Refusal> {
    octets.try_into().map_err(|_| Refusal::NotSound)
}

/// The session of a sound record of kind 1.
pub(crate) fn decode_kind1(record: &[u8]) -> Result<Session, Refusal> {
    match record.strip_prefix(&KIND1_HEAD) {
        // With these two it has 24 octets if it had 22.
        Some(shared) => decode(&[&HEAD, shared, &[0, 0]].concat()),
        None => Err(Refusal::NotSound),
    }
}

/// The session of a sound record.
pub(crate) fn decode(record: &[u8]) -> Result<Session, Refusal> {
    decoded(record).ok_or(Refusal::NotSound)
}

fn decoded(record: &[u8]) -> Option<Session> {
    let octets: &[u8; LENGTH] = record.try_into().ok()?;
    let pair = |at: usize| u16::from_le_bytes([octets[at], octets[at + 1]]);
    let number = |at: usize| {
        u32::from_le_bytes([octets[at], octets[at + 1], octets[at + 2], octets[at + 3]])
    };
    let flags = octets[5];
    let flag = |bit: u8| flags & bit != 0;

    if octets[..4] != HEAD {
        return None;
    }
    if flag(SPARE) {
        return None;
    }
    if octets[13] != 0 {
        return None;
    }
    let state = match octets[4] {
        0 => State::Ready,
        1 => State::Open,
        2 => State::Held,
        3 => State::Gone,
        _ => return None,
    };
    let settings = Settled {
        initiating: flag(INITIATING),
        active: flag(ACTIVE),
        uses_tac: flag(USES_TAC),
        drops: flag(DROPS),
        protected: KindSet::from_bits(pair(10).into())?,
        ours: CapabilitySet::from_bits(octets[22].into())?,
    };
    let enabled = ApplicationSet::from_bits(pair(6).into())?;
    let listed = ApplicationSet::from_bits(pair(8).into())?;
    if !flag(IN_FORCE) && !listed.is_empty() {
        return None;
    }
    if !flag(HELLO) && number(14) != 0 {
        return None;
    }
    let session = Session {
        settings,
        enabled,
        state,
        peer: Peer {
            listed: flag(IN_FORCE).then_some(listed),
            disabled: ControlSet::from_bits(octets[12].into())?,
            dynamic: flag(DYNAMIC),
            theirs: CapabilitySet::from_bits(octets[23].into())?,
        },
        hello: flag(HELLO).then_some(number(14)),
        next_number: number(18),
    };
    is_sound(&session).then_some(session)
}

/// The rules between the fields.
fn is_sound(session: &Session) -> bool {
    let Session {
        settings,
        state,
        peer,
        hello,
        ..
    } = session;
    let drops = settings.initiating && settings.drops;
    if peer.listed.is_some() {
        if *state != State::Open {
            return false;
        }
        if !settings.uses_tac {
            return false;
        }
        if !session.agrees() {
            return false;
        }
    }
    if *state != State::Open {
        if !peer.disabled.is_empty() {
            return false;
        }
        if peer.dynamic {
            return false;
        }
        if !peer.theirs.is_empty() {
            return false;
        }
    }
    match state {
        State::Ready | State::Open => true,
        State::Held => settings.active && !drops,
        State::Gone => settings.active && drops && hello.is_none(),
    }
}

/// The record of kind 1; capabilities have no place there.
pub(crate) fn encode_kind1(session: &Session) -> [u8; KIND1_LENGTH] {
    let [mut octets @ .., _ours, _theirs] = encode(session);
    octets[..4].copy_from_slice(&KIND1_HEAD);
    octets
}

pub(crate) fn encode(session: &Session) -> [u8; LENGTH] {
    let Session {
        settings,
        enabled,
        state,
        peer,
        hello,
        next_number,
    } = session;
    let mut flags = 0;
    for (bit, set) in [
        (INITIATING, settings.initiating),
        (ACTIVE, settings.active),
        (USES_TAC, settings.uses_tac),
        (DROPS, settings.drops),
        (IN_FORCE, peer.listed.is_some()),
        (DYNAMIC, peer.dynamic),
        (HELLO, hello.is_some()),
    ] {
        if set {
            flags |= bit;
        }
    }
    let listed = peer.listed.unwrap_or(ApplicationSet::EMPTY);
    let mut octets = [0; LENGTH];
    octets[..4].copy_from_slice(&HEAD);
    octets[4] = match state {
        State::Ready => 0,
        State::Open => 1,
        State::Held => 2,
        State::Gone => 3,
    };
    octets[5] = flags;
    octets[6..8].copy_from_slice(&enabled.bits().to_le_bytes());
    octets[8..10].copy_from_slice(&listed.bits().to_le_bytes());
    octets[10..12].copy_from_slice(&settings.protected.bits().to_le_bytes());
    octets[12] = peer.disabled.bits();
    octets[14..18].copy_from_slice(&hello.unwrap_or(0).to_le_bytes());
    octets[18..22].copy_from_slice(&next_number.to_le_bytes());
    octets[22] = settings.ours.bits();
    octets[23] = peer.theirs.bits();
    octets
}
