//! Our own disinterest: of which kinds we want no bindings. Our wishes are a set of
//! controls that is kept beside a session; nothing outside this file asks for them.

use crate::events::{Effect, Outcome};
use crate::fields::Fields;
use crate::kinds::{Control, Kind};
use crate::lists::ControlSet;
use crate::row::happen_to;
use crate::session::{Session, State};
use crate::{happen, Answer, Refusal};

/// What a wish did, and the wishes after it. After a refusal they are as handed in.
#[derive(Clone, Copy, Debug, Default, PartialEq, Eq)]
#[repr(C)]
pub struct Wished {
    pub answer: Answer,
    pub wishes: u32,
}

impl Wished {
    fn new(answer: Answer, wishes: u32) -> Wished {
        Wished { answer, wishes }
    }
}

/// How many octets were written where no session is asked.
#[derive(Clone, Copy, Debug, Default, PartialEq, Eq)]
#[repr(C)]
pub struct Written {
    pub refusal: u8,
    pub written: u16,
}

/// Whether bindings of one kind are wanted.
#[derive(Clone, Copy, Debug, Default, PartialEq, Eq)]
#[repr(C)]
pub struct Want {
    pub refusal: u8,
    pub wanted: u8,
}

impl Session {
    /// One wish changes; `wishes` are those that are kept.
    fn wish(
        &mut self,
        wishes: &mut u32,
        app: u32,
        disable: bool,
        room: &mut [u8],
    ) -> Result<Effect, Refusal> {
        let mut set = kept(*wishes)?;
        let control = Control::from_app(app).ok_or(Refusal::NoControl)?;
        if set.contains(control) == disable {
            return Ok(Outcome::Unchanged.into());
        }
        if self.state != State::Open {
            return Err(Refusal::WrongState);
        }
        if !self.peer.dynamic {
            return Err(Refusal::PeerNotDynamic);
        }
        let written = put(&message(self.next_number, control, disable), room)?;
        self.next_number = self.next_number.wrapping_add(1);
        set.set(control, disable);
        *wishes = set.bits().into();
        let outcome = Outcome::Done;
        Ok(Effect { outcome, written })
    }
}

/// We want bindings of a kind no more, or again; a message goes into `room`.
pub fn wish(record: &mut [u8], wishes: u32, app: u32, disable: bool, room: &mut [u8]) -> Wished {
    let mut after = wishes;
    let answer = happen(record, |session| {
        session.wish(&mut after, app, disable, room)
    });
    Wished::new(answer, after)
}

/// The same for a session as a row holds it.
pub fn session_wish(
    session: &mut Fields,
    wishes: u32,
    app: u32,
    disable: bool,
    room: &mut [u8],
) -> Wished {
    let mut after = wishes;
    let answer = happen_to(session, |session| {
        session.wish(&mut after, app, disable, room)
    });
    Wished::new(answer, after)
}

/// Writes the SAC that tells our wishes in an Initialization.
pub fn wish_sac(wishes: u32, room: &mut [u8]) -> Written {
    let written = kept(wishes).and_then(|wishes| {
        if wishes.is_empty() {
            return Ok(0);
        }
        let elements: Vec<u8> = wishes.controls().map(|wish| element(wish, true)).collect();
        put(&sac(&elements), room)
    });
    match written {
        Ok(written) => Written {
            refusal: 0,
            written,
        },
        Err(refusal) => Written {
            refusal: refusal.number(),
            written: 0,
        },
    }
}

/// A binding of this kind arrived: is it wanted?
pub fn wanted(wishes: u32, kind: u32) -> Want {
    let wanted = kept(wishes).and_then(|wishes| {
        let kind = Kind::from_number(kind).ok_or(Refusal::OutOfRange)?;
        Ok(!wishes.disables(kind))
    });
    match wanted {
        Ok(wanted) => Want {
            refusal: 0,
            wanted: wanted.into(),
        },
        Err(refusal) => Want {
            refusal: refusal.number(),
            wanted: 0,
        },
    }
}

/// The wishes that were kept, if they can be any.
fn kept(wishes: u32) -> Result<ControlSet, Refusal> {
    ControlSet::from_bits(wishes).ok_or(Refusal::NotSound)
}

/// Puts octets at the start of the room, if there is room for them.
fn put(octets: &[u8], room: &mut [u8]) -> Result<u16, Refusal> {
    let start = room.get_mut(..octets.len()).ok_or(Refusal::NoRoom)?;
    start.copy_from_slice(octets);
    Ok(octets.len() as u16)
}

/// The Capability message that tells of one wish, under the given message number.
fn message(number: u32, control: Control, disable: bool) -> Vec<u8> {
    let sac = sac(&[element(control, disable)]);
    let length = 4 + sac.len() as u16;
    let mut message = vec![0x02, 0x02];
    message.extend(length.to_be_bytes());
    message.extend(number.to_be_bytes());
    message.extend(sac);
    message
}

/// A SAC with these elements.
fn sac(elements: &[u8]) -> Vec<u8> {
    let length = 1 + elements.len() as u16;
    let mut sac = vec![0x85, 0x0D];
    sac.extend(length.to_be_bytes());
    sac.push(0x80);
    sac.extend(elements);
    sac
}

/// D, then App.
fn element(control: Control, disable: bool) -> u8 {
    u8::from(disable) << 7 | (control as u8) << 4
}

#[cfg(test)]
mod tests {
    use super::*;

    #[test]
    fn to_disable_and_to_take_again_differ_in_one_bit() {
        let disable = message(0x0102_0304, Control::Fec129, true);
        let again = message(0x0102_0304, Control::Fec129, false);
        assert_eq!(
            disable,
            [2, 2, 0, 10, 1, 2, 3, 4, 0x85, 0x0D, 0, 2, 0x80, 0xC0]
        );
        assert_eq!(disable[..13], again[..13]);
        assert_eq!(again[13], 0x40);
    }

    #[test]
    fn a_sac_counts_its_first_octet() {
        assert_eq!(sac(&[0x90, 0xA0]), [0x85, 0x0D, 0, 3, 0x80, 0x90, 0xA0]);
    }
}
