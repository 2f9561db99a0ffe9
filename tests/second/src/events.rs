//! What happens to a session. Every refusal comes before the first change, so
//! a refused event leaves the session as it was.

use crate::kinds::Application;
use crate::lists::{tac_advertises, ApplicationSet, ControlSet};
use crate::session::{Peer, Session, State};
use crate::{area, message, Part, Refusal};

#[derive(Clone, Copy, Debug, PartialEq, Eq)]
pub(crate) enum Outcome {
    Done,
    Unchanged,
    Mismatch,
    AtLimit,
}

/// The outcome of an event and how many octets it wrote.
#[derive(Clone, Copy, Debug, PartialEq, Eq)]
pub(crate) struct Effect {
    pub outcome: Outcome,
    pub written: u16,
}

impl From<Outcome> for Effect {
    fn from(outcome: Outcome) -> Effect {
        Effect {
            outcome,
            written: 0,
        }
    }
}

impl Session {
    /// `below` are the applications that are used less than their limits allow.
    pub fn initialization(
        &mut self,
        area: &[u8],
        below: ApplicationSet,
    ) -> Result<Effect, Refusal> {
        if self.state != State::Ready {
            return Err(Refusal::WrongState);
        }
        let found = area::parse(area)?;
        self.state = State::Open;
        self.peer = Peer {
            dynamic: found.dynamic.is_some(),
            disabled: match found.sac {
                Some(sac) => ControlSet::announced(sac.of(area)),
                None => ControlSet::default(),
            },
            listed: self
                .heeded(found.tac)
                .map(|tac| ApplicationSet::announced(tac.of(area))),
            // S is not read.
            theirs: found.capabilities(),
        };
        let mut outcome = self.settle();
        if outcome == Outcome::Done && self.at_limit(below) {
            self.mismatch();
            outcome = Outcome::AtLimit;
        }
        Ok(outcome.into())
    }

    pub fn capability(&mut self, area: &[u8]) -> Result<Effect, Refusal> {
        if self.state != State::Open {
            return Err(Refusal::WrongState);
        }
        let update = area::parse(area)?;
        if let Some(sac) = update.sac {
            self.peer.disabled = self.peer.disabled.updated(sac.of(area));
        }
        let (present, holding) = (update.capabilities(), update.holding(area));
        self.peer.theirs = self.peer.theirs.updated(present, holding);
        if let Some(tac) = self.heeded(update.tac) {
            let value = tac.of(area);
            self.peer.listed = if tac_advertises(value) {
                let list = self.peer.listed.unwrap_or_default();
                Some(list.updated(value))
            } else {
                None
            };
        }
        Ok(self.settle().into())
    }

    pub fn local_change(
        &mut self,
        ta_id: u32,
        on: bool,
        room: &mut [u8],
    ) -> Result<Effect, Refusal> {
        let application = Application::from_ta_id(ta_id).ok_or(Refusal::OutOfRange)?;
        if self.enabled.contains(application) == on {
            return Ok(Outcome::Unchanged.into());
        }
        let announce = self.state == State::Open && self.settings.uses_tac;
        if announce && !self.peer.dynamic {
            return Err(Refusal::PeerNotDynamic);
        }
        if announce && room.len() < message::LENGTH {
            return Err(Refusal::NoRoom);
        }
        self.enabled.set(application, on);
        if self.state == State::Held {
            self.state = State::Ready;
        }
        let outcome = self.settle();
        if !announce || outcome == Outcome::Mismatch {
            return Ok(outcome.into());
        }
        let message = message::capability(self.next_number, application, on);
        room[..message::LENGTH].copy_from_slice(&message);
        self.next_number = self.next_number.wrapping_add(1);
        Ok(Effect {
            outcome,
            written: message::LENGTH as u16,
        })
    }

    pub fn mismatch_notified(&mut self) -> Result<Effect, Refusal> {
        match self.state {
            State::Ready | State::Open => Ok(self.mismatch().into()),
            State::Held | State::Gone => Err(Refusal::WrongState),
        }
    }

    pub fn hello(&mut self, number: u32) -> Result<Effect, Refusal> {
        let earlier = self.hello;
        let news = match earlier {
            Some(recorded) => number > recorded,
            None => true,
        };
        if !news {
            return Ok(Outcome::Unchanged.into());
        }
        self.hello = Some(number);
        match self.state {
            State::Gone => self.state = State::Ready,
            State::Held if earlier.is_some() => self.state = State::Ready,
            State::Ready | State::Open | State::Held => {}
        }
        Ok(Outcome::Done.into())
    }

    pub fn closed(&mut self) -> Result<Effect, Refusal> {
        match self.state {
            State::Open => self.leave_for(State::Ready),
            State::Ready | State::Held | State::Gone => return Err(Refusal::WrongState),
        }
        Ok(Outcome::Done.into())
    }

    /// The TAC, if this session has any use for one.
    fn heeded(&self, tac: Option<Part>) -> Option<Part> {
        tac.filter(|_| self.settings.uses_tac)
    }

    /// After either list changed: is there still something in common?
    fn settle(&mut self) -> Outcome {
        if self.agrees() {
            Outcome::Done
        } else {
            self.mismatch()
        }
    }

    /// A mismatch, found here or heard of.
    fn mismatch(&mut self) -> Outcome {
        let settings = self.settings;
        if !settings.active {
            self.leave_for(State::Ready);
        } else if settings.initiating && settings.drops {
            self.leave_for(State::Gone);
            self.hello = None;
        } else {
            self.leave_for(State::Held);
        }
        Outcome::Mismatch
    }

    /// Goes to a state in which nothing that the peer said holds any more.
    fn leave_for(&mut self, state: State) {
        self.state = state;
        self.peer = Peer::default();
    }
}
