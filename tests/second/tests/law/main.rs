//! The rules, through the public functions only.

mod capabilities;
mod counts;
mod limits;
mod moves;
mod numbers;
mod proved;
mod refusals;
mod rfc;
mod rows;
mod states;
mod stored;
mod totals;
mod why;
mod widening;
mod wishes;

use second::*;

/// Octets from hexadecimal; blanks do not matter.
pub fn hex(text: &str) -> Vec<u8> {
    let digits: Vec<u8> = text
        .chars()
        .filter(|digit| !digit.is_whitespace())
        .map(|digit| digit.to_digit(16).expect("a hexadecimal digit") as u8)
        .collect();
    digits
        .chunks(2)
        .map(|pair| pair[0] << 4 | pair[1])
        .collect()
}

/// The set of these applications, TA-Id n at bit n-1.
pub fn applications(ta_ids: &[u32]) -> u32 {
    ta_ids.iter().map(|ta_id| 1 << (ta_id - 1)).sum()
}

/// The set of these kinds, kind k at bit k.
pub fn kinds(kinds: &[u16]) -> u16 {
    kinds.iter().map(|kind| 1 << kind).sum()
}

pub const ALL_KINDS: u16 = 0x3FF;

/// The kinds that need no capability: 0, 1, 7, 8 and 9.
pub const NEEDING_NONE: u16 = 0x383;

/// All three capabilities, and the TLVs of a peer that holds them.
pub const ALL_CAPABILITIES: u32 = 7;
pub const ALL_HELD: &str = "85080001 80 85090001 80 89020001 80";

pub const READY: u8 = 0;
pub const OPEN: u8 = 1;
pub const HELD: u8 = 2;
pub const GONE: u8 = 3;

/// A record of which only the first 22 octets are said: nothing is held at either end.
pub fn holding_none(text: &str) -> Box24 {
    let mut octets = hex(text);
    assert_eq!(octets.len(), RECORD_LENGTH - 2);
    octets.extend([0, 0]);
    Box24(octets.try_into().unwrap())
}

/// A session in its record, with shorter names for what the tests do to it.
#[derive(Clone, Copy, Debug, PartialEq, Eq)]
pub struct Box24(pub [u8; RECORD_LENGTH]);

/// What creation settles.
#[derive(Clone, Copy)]
pub struct Made {
    pub initiating: bool,
    pub active: bool,
    pub uses_tac: bool,
    pub drops: bool,
    pub protected: u32,
    pub enabled: u32,
    pub number: u32,
    /// Ours: P2MP bit 0, MP2MP bit 1, HSMP bit 2.
    pub capabilities: u32,
}

impl Default for Made {
    fn default() -> Made {
        Made {
            initiating: true,
            active: true,
            uses_tac: true,
            drops: false,
            protected: 0,
            enabled: 0,
            number: 0,
            capabilities: 0,
        }
    }
}

impl Made {
    pub fn enabling(ta_ids: &[u32]) -> Made {
        Made {
            enabled: applications(ta_ids),
            ..Made::default()
        }
    }

    /// The same with these capabilities of ours.
    pub fn holding(self, capabilities: u32) -> Made {
        Made {
            capabilities,
            ..self
        }
    }

    pub fn make(self) -> Box24 {
        self.wishing(0)
    }

    /// The same with wishes, which leave no trace in the record.
    pub fn wishing(self, wishes: u32) -> Box24 {
        let mut record = [0xA5; RECORD_LENGTH];
        let settings = Settings {
            initiating: self.initiating,
            active: self.active,
            uses_tac: self.uses_tac,
            drops: self.drops,
            protected_kinds: self.protected,
            enabled: self.enabled,
            first_number: self.number,
            wishes,
            capabilities: self.capabilities,
        };
        assert_eq!(create(&mut record, settings), 0);
        Box24(record)
    }
}

impl Box24 {
    pub fn init(&mut self, area: &str) -> Answer {
        initialization(&mut self.0, &hex(area))
    }

    pub fn cap(&mut self, area: &str) -> Answer {
        capability(&mut self.0, &hex(area))
    }

    /// A local change with room to spare; the message, if any.
    pub fn change(&mut self, ta_id: u32, on: bool) -> (Answer, Vec<u8>) {
        let mut room = [0xEE; 24];
        let answer = local_change(&mut self.0, ta_id, on, &mut room);
        let written = usize::from(answer.written);
        assert!(room[written..].iter().all(|&octet| octet == 0xEE));
        (answer, room[..written].to_vec())
    }

    /// The session as a row holds it.
    pub fn loaded(&self) -> Fields {
        let loaded = load(&self.0);
        assert_eq!(loaded.refusal, 0);
        loaded.session
    }

    pub fn state(&self) -> u8 {
        assert!(sound(&self.0), "{:02X?}", self.0);
        self.0[4]
    }

    pub fn flag(&self, bit: u8) -> bool {
        self.0[5] >> bit & 1 == 1
    }

    pub fn in_force(&self) -> bool {
        self.flag(4)
    }

    pub fn dynamic(&self) -> bool {
        self.flag(5)
    }

    pub fn enabled(&self) -> u16 {
        u16::from_le_bytes([self.0[6], self.0[7]])
    }

    pub fn listed(&self) -> u16 {
        u16::from_le_bytes([self.0[8], self.0[9]])
    }

    pub fn disabled(&self) -> u8 {
        self.0[12]
    }

    /// Our capabilities.
    pub fn ours(&self) -> u8 {
        self.0[22]
    }

    /// The peer's capabilities.
    pub fn theirs(&self) -> u8 {
        self.0[23]
    }

    pub fn heard(&self) -> Option<u32> {
        let number = u32::from_le_bytes(self.0[14..18].try_into().unwrap());
        self.flag(6).then_some(number)
    }

    pub fn number(&self) -> u32 {
        u32::from_le_bytes(self.0[18..22].try_into().unwrap())
    }

    /// Why each kind may not be sent, a digit for each from kind 0 on.
    pub fn why(&self) -> String {
        (0..10)
            .map(|kind| {
                let answer = why_not(&self.0, kind);
                assert_eq!(answer.refusal, 0);
                char::from(b'0' + answer.reason)
            })
            .collect()
    }

    /// The permitted kinds, asked one by one and all at once; why says the same.
    pub fn permitted(&self) -> u16 {
        let all = permitted_kinds(&self.0);
        assert_eq!(all.refusal, 0);
        for kind in 0..10 {
            let one = permitted(&self.0, kind);
            assert_eq!(one.refusal, 0);
            assert_eq!(u16::from(one.permitted), all.kinds >> kind & 1);
            let why = why_not(&self.0, kind);
            assert_eq!((why.refusal, why.reason == 0), (0, one.permitted == 1));
        }
        all.kinds
    }
}

/// The session of a row in a record of its own.
pub fn stored(session: Fields) -> Box24 {
    let mut record = [0x5C; RECORD_LENGTH];
    assert_eq!(store(session, &mut record), 0);
    Box24(record)
}

/// How many sessions of a row permit each kind, by a walk over them.
pub fn walked(row: &[Fields]) -> Totals {
    let mut totals = Totals::default();
    for &session in row {
        let kinds = session_kinds(session).kinds;
        for (kind, total) in totals.of.iter_mut().enumerate() {
            *total += (kinds >> kind & 1) as u8;
        }
    }
    totals
}

/// An event of a row with the totals of that row, which are its totals after it too.
pub fn with_totals(
    row: &mut [Fields],
    event: impl FnOnce(&mut [Fields], &mut Totals) -> Answer,
) -> Answer {
    let mut totals = walked(row);
    let answer = event(row, &mut totals);
    assert_eq!(totals, walked(row));
    answer
}

/// The same for an Initialization.
pub fn initialized(row: &mut [Fields], at: usize, limits: Limits, area: &[u8]) -> Answer {
    with_totals(row, |row, totals| {
        row_initialization(row, at, limits, totals, area)
    })
}

/// The same for an event by its number.
pub fn happened(
    row: &mut [Fields],
    at: usize,
    event: Event,
    limits: Limits,
    area: &[u8],
    room: &mut [u8],
) -> Answer {
    with_totals(row, |row, totals| {
        let after = row_event(row, at, event, limits, *totals, area, room);
        *totals = after.totals;
        after.answer
    })
}

/// A TAC that lists these applications.
pub fn tac(ta_ids: &[u32]) -> Vec<u8> {
    let mut area = vec![0x85, 0x0F];
    area.extend((1 + 4 * ta_ids.len() as u16).to_be_bytes());
    area.push(0x80);
    for &ta_id in ta_ids {
        area.extend((ta_id as u16).to_be_bytes());
        area.extend([0x80, 0x00]);
    }
    area
}

pub fn done(lost: u16, gained: u16) -> Answer {
    Answer {
        lost,
        gained,
        ..Answer::default()
    }
}

pub fn unchanged() -> Answer {
    Answer {
        outcome: 1,
        ..Answer::default()
    }
}

pub fn mismatched(lost: u16) -> Answer {
    Answer {
        outcome: 2,
        lost,
        ..Answer::default()
    }
}

pub fn at_limit() -> Answer {
    Answer {
        outcome: 3,
        ..Answer::default()
    }
}

pub fn refused(refusal: u8) -> Answer {
    Answer {
        refusal,
        ..Answer::default()
    }
}
