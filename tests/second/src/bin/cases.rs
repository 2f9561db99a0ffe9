//! Prints what the calls on standard input come to, a line for each. The head
//! of make_cases.rs says how calls and lines are written.

use second::{Answer, Fields, Limits, Part, Settings, Totals, RECORD_LENGTH};
use std::io::{self, Read, Write};

/// Octets of input that are read.
const MOST: u64 = 32_768;

/// Octets that a room has at the most.
const MOST_ROOM: u8 = 40;

/// What is left of the input. Nothing is handed out that is cut short.
struct Input<'a>(&'a [u8]);

impl<'a> Input<'a> {
    fn octets(&mut self, length: usize) -> Option<&'a [u8]> {
        let (taken, rest) = self.0.split_at_checked(length)?;
        self.0 = rest;
        Some(taken)
    }

    fn array<const N: usize>(&mut self) -> Option<[u8; N]> {
        self.octets(N)?.try_into().ok()
    }

    fn octet(&mut self) -> Option<u8> {
        self.array().map(u8::from_le_bytes)
    }

    fn pair(&mut self) -> Option<u16> {
        self.array().map(u16::from_le_bytes)
    }

    fn number(&mut self) -> Option<u32> {
        self.array().map(u32::from_le_bytes)
    }

    fn session(&mut self) -> Option<Fields> {
        Some(Fields {
            state: self.octet()?,
            flags: self.octet()?,
            disabled: self.octet()?,
            enabled: self.pair()?,
            listed: self.pair()?,
            protects: self.pair()?,
            ours: self.octet()?,
            theirs: self.octet()?,
            hello: self.number()?,
            next: self.number()?,
        })
    }

    fn settings(&mut self) -> Option<Settings> {
        let roles = self.octet()?;
        let role = |bit: u8| roles >> bit & 1 == 1;
        Some(Settings {
            initiating: role(0),
            active: role(1),
            uses_tac: role(2),
            drops: role(3),
            protected_kinds: self.number()?,
            enabled: self.number()?,
            first_number: self.number()?,
            wishes: self.number()?,
            capabilities: self.number()?,
        })
    }

    /// A room as long as asked, up to the most.
    fn room(&mut self) -> Option<Vec<u8>> {
        let length = self.octet()?;
        Some(vec![0xEE; length.min(MOST_ROOM).into()])
    }

    /// Octets with their length before them.
    fn lent(&mut self) -> Option<&'a [u8]> {
        let length = self.pair()?;
        self.octets(length.into())
    }
}

/// The words of one line.
struct Line(Vec<String>);

impl Line {
    fn number(&mut self, number: impl Into<u32>) {
        self.0.push(format!("{:x}", number.into()));
    }

    fn octets(&mut self, octets: &[u8]) {
        let digits: String = octets.iter().map(|octet| format!("{octet:02x}")).collect();
        self.0.push(if digits.is_empty() {
            "-".into()
        } else {
            digits
        });
    }

    fn answer(&mut self, answer: Answer) {
        self.number(answer.refusal);
        self.number(answer.outcome);
        self.number(answer.lost);
        self.number(answer.gained);
        self.number(answer.written);
    }

    fn session(&mut self, session: Fields) {
        self.number(session.state);
        self.number(session.flags);
        self.number(session.disabled);
        self.number(session.enabled);
        self.number(session.listed);
        self.number(session.protects);
        self.number(session.ours);
        self.number(session.theirs);
        self.number(session.hello);
        self.number(session.next);
    }

    fn part(&mut self, part: Part) {
        self.number(part.start);
        self.number(part.length);
    }
}

/// Makes the next call; none if nothing is left, or no whole call of ours.
fn call(input: &mut Input, record: &mut [u8; RECORD_LENGTH]) -> Option<Line> {
    let which = input.octet()?;
    let mut line = Line(Vec::new());
    line.number(which);
    match which {
        1 => {
            line.number(second::create(record, input.settings()?));
            line.octets(record);
        }
        2 => {
            line.answer(second::initialization(record, input.lent()?));
            line.octets(record);
        }
        3 => {
            line.answer(second::capability(record, input.lent()?));
            line.octets(record);
        }
        4 => {
            let (ta_id, on, mut room) = (input.number()?, input.octet()?, input.room()?);
            line.answer(second::local_change(record, ta_id, on != 0, &mut room));
            line.octets(record);
            line.octets(&room);
        }
        5 => {
            line.answer(second::mismatch(record));
            line.octets(record);
        }
        6 => {
            line.answer(second::hello(record, input.number()?));
            line.octets(record);
        }
        7 => {
            line.answer(second::closed(record));
            line.octets(record);
        }
        8 => {
            let permission = second::permitted(record, input.number()?);
            line.number(permission.refusal);
            line.number(permission.permitted);
        }
        9 => {
            let kinds = second::permitted_kinds(record);
            line.number(kinds.refusal);
            line.number(kinds.kinds);
        }
        10 => {
            let retry = second::retry_interval(record);
            line.number(retry.refusal);
            line.number(retry.interval);
        }
        11 => line.number(second::sound(record)),
        12 => {
            let reading = second::read(input.lent()?);
            line.number(reading.refusal);
            line.number(reading.dynamic);
            line.number(reading.capabilities);
            line.number(reading.holding);
            line.part(reading.tac);
            line.part(reading.sac);
        }
        13 => {
            *record = input.array()?;
            line.octets(record);
        }
        14 => line.octets(&second::no_limits().of),
        15 => {
            let limits = Limits { of: input.array()? };
            let limited = second::set_limit(limits, input.number()?, input.number()?);
            line.number(limited.refusal);
            line.octets(&limited.limits.of);
        }
        16 => {
            let loaded = second::load(record);
            line.number(loaded.refusal);
            line.session(loaded.session);
        }
        17 => {
            let (session, mut room) = (input.session()?, input.room()?);
            line.number(second::store(session, &mut room));
            line.octets(&room);
        }
        18 => {
            let (wishes, app) = (input.number()?, input.number()?);
            let (disable, mut room) = (input.octet()? != 0, input.room()?);
            let wished = second::wish(record, wishes, app, disable, &mut room);
            line.answer(wished.answer);
            line.number(wished.wishes);
            line.octets(record);
            line.octets(&room);
        }
        19 => {
            let (wishes, mut room) = (input.number()?, input.room()?);
            let sac = second::wish_sac(wishes, &mut room);
            line.number(sac.refusal);
            line.number(sac.written);
            line.octets(&room);
        }
        20 => {
            let want = second::wanted(input.number()?, input.number()?);
            line.number(want.refusal);
            line.number(want.wanted);
        }
        21 => {
            let totals = Totals { of: input.array()? };
            let total = second::kind_total(totals, input.number()?);
            line.number(total.refusal);
            line.number(total.total);
        }
        22 => {
            let moved = second::forward(input.lent()?, record);
            line.number(moved.refusal);
            line.number(moved.lost);
            line.octets(record);
        }
        23 => {
            let mut room = input.room()?;
            line.number(second::back(record, &mut room));
            line.octets(&room);
        }
        _ => return None,
    }
    Some(line)
}

/// The lines of all calls.
fn lines(calls: &[u8]) -> String {
    let mut input = Input(calls);
    let mut record = [0; RECORD_LENGTH];
    let mut text = String::new();
    while let Some(line) = call(&mut input, &mut record) {
        text += &line.0.join(" ");
        text += "\n";
    }
    text
}

fn main() -> io::Result<()> {
    let mut calls = Vec::new();
    io::stdin().take(MOST).read_to_end(&mut calls)?;
    io::stdout().write_all(lines(&calls).as_bytes())
}

#[cfg(test)]
mod tests {
    use super::*;

    #[test]
    fn the_stored_lines_are_these() {
        let stored = concat!(env!("CARGO_MANIFEST_DIR"), "/../../crates/cases/");
        let calls = std::fs::read(format!("{stored}stdin")).unwrap();
        let expected = std::fs::read_to_string(format!("{stored}stdout")).unwrap();
        assert!(lines(&calls) == expected, "stdout is not what stdin gives");
    }

    #[test]
    fn a_call_cut_short_ends_the_run() {
        assert_eq!(lines(&[11, 6, 1, 0, 0]), "b 0\n");
        assert_eq!(lines(&[12, 1, 0]), "");
        assert_eq!(lines(&[[1].as_slice(), &[0; 20]].concat()), "");
        assert_eq!(lines(&[[17].as_slice(), &[0; 19]].concat()), "");
        assert_eq!(lines(&[[18].as_slice(), &[0; 9]].concat()), "");
        assert_eq!(lines(&[19, 0, 0, 0, 0]), "");
        assert_eq!(lines(&[[20].as_slice(), &[0; 7]].concat()), "");
        assert_eq!(lines(&[[21].as_slice(), &[0; 13]].concat()), "");
        assert_eq!(lines(&[22, 1, 0]), "");
        assert_eq!(lines(&[23]), "");
        assert_eq!(lines(&[11, 0, 11]), "b 0\n");
    }
}
