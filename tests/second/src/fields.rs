//! A session as a row holds it: the fields of its record, each as a number.

use crate::record::{self, HEAD, LENGTH};
use crate::session::Session;
use crate::{Kinds, Refusal, Retry};

/// One session of a row.
#[derive(Clone, Copy, Debug, Default, PartialEq, Eq)]
#[repr(C)]
pub struct Fields {
    pub state: u8,
    pub flags: u8,
    pub disabled: u8,
    pub enabled: u16,
    pub listed: u16,
    pub protects: u16,
    pub ours: u8,
    pub theirs: u8,
    pub hello: u32,
    pub next: u32,
}

/// A session read from a record.
#[derive(Clone, Copy, Debug, PartialEq, Eq)]
#[repr(C)]
pub struct Loaded {
    pub refusal: u8,
    pub session: Fields,
}

impl Fields {
    /// What stands in place of a session that could not be read.
    const NO_SESSION: Fields = Fields {
        state: 255,
        flags: 0,
        disabled: 0,
        enabled: 0,
        listed: 0,
        protects: 0,
        ours: 0,
        theirs: 0,
        hello: 0,
        next: 0,
    };

    pub(crate) fn of(session: &Session) -> Fields {
        let octets = record::encode(session);
        let pair = |at: usize| u16::from_le_bytes([octets[at], octets[at + 1]]);
        let number = |at: usize| {
            u32::from_le_bytes([octets[at], octets[at + 1], octets[at + 2], octets[at + 3]])
        };
        Fields {
            state: octets[4],
            flags: octets[5],
            disabled: octets[12],
            enabled: pair(6),
            listed: pair(8),
            protects: pair(10),
            ours: octets[22],
            theirs: octets[23],
            hello: number(14),
            next: number(18),
        }
    }

    /// The session with these fields. They are sound if their record is.
    pub(crate) fn session(&self) -> Result<Session, Refusal> {
        record::decode(&self.record())
    }

    fn record(&self) -> [u8; LENGTH] {
        let mut octets = [0; LENGTH];
        octets[..4].copy_from_slice(&HEAD);
        octets[4] = self.state;
        octets[5] = self.flags;
        octets[6..8].copy_from_slice(&self.enabled.to_le_bytes());
        octets[8..10].copy_from_slice(&self.listed.to_le_bytes());
        octets[10..12].copy_from_slice(&self.protects.to_le_bytes());
        octets[12] = self.disabled;
        octets[14..18].copy_from_slice(&self.hello.to_le_bytes());
        octets[18..22].copy_from_slice(&self.next.to_le_bytes());
        octets[22] = self.ours;
        octets[23] = self.theirs;
        octets
    }
}

/// The session of a record.
pub fn load(record: &[u8]) -> Loaded {
    match record::decode(record) {
        Ok(session) => Loaded {
            refusal: 0,
            session: Fields::of(&session),
        },
        Err(refusal) => Loaded {
            refusal: refusal.number(),
            session: Fields::NO_SESSION,
        },
    }
}

/// Stores a session in `record`; answers the refusal number, 0 for none.
pub fn store(session: Fields, record: &mut [u8]) -> u8 {
    let Ok(record) = record::room(record) else {
        return Refusal::NotSound.number();
    };
    match session.session() {
        Ok(session) => {
            *record = record::encode(&session);
            0
        }
        Err(refusal) => refusal.number(),
    }
}

/// Which kinds of label may this session send?
pub fn session_kinds(session: Fields) -> Kinds {
    crate::permitted_kinds(&session.record())
}

/// How long must this session's next attempt wait?
pub fn session_retry(session: Fields) -> Retry {
    crate::retry_interval(&session.record())
}
