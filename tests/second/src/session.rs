//! A targeted session and what can be asked of it.

use crate::capabilities::{Capability, CapabilitySet};
use crate::kinds::{Application, Kind, KindSet};
use crate::lists::{ApplicationSet, ControlSet};

#[derive(Clone, Copy, Debug, PartialEq, Eq)]
pub(crate) enum State {
    /// Waiting for an Initialization.
    Ready,
    /// Labels may flow.
    Open,
    /// After a mismatch, waiting for a change at either end.
    Held,
    /// After a mismatch, the adjacency is torn down.
    Gone,
}

/// Why a kind may not be sent, with its number.
#[derive(Clone, Copy, Debug, PartialEq, Eq)]
pub(crate) enum Why {
    /// It may be sent.
    Permitted = 0,
    NotOpen = 1,
    DisabledByPeer = 2,
    /// Negotiation is in force, and no application for it is enabled here.
    NotEnabled = 3,
    /// Some is enabled here, and the peer lists none of these.
    NotListed = 4,
    /// The capability that it needs is not ours.
    NotOurs = 5,
    /// It is ours, and not the peer's.
    NotTheirs = 6,
}

/// What is settled once and for all at creation.
#[derive(Clone, Copy, Debug, PartialEq, Eq)]
pub(crate) struct Settled {
    pub initiating: bool,
    pub active: bool,
    pub uses_tac: bool,
    pub drops: bool,
    pub protected: KindSet,
    /// The capabilities that we hold.
    pub ours: CapabilitySet,
}

/// What the peer told us since the session opened.
#[derive(Clone, Copy, Debug, Default, PartialEq, Eq)]
pub(crate) struct Peer {
    /// The applications that the peer lists, while negotiation is in force.
    pub listed: Option<ApplicationSet>,
    pub disabled: ControlSet,
    pub dynamic: bool,
    /// The capabilities that the peer holds.
    pub theirs: CapabilitySet,
}

#[derive(Clone, Copy, Debug, PartialEq, Eq)]
pub(crate) struct Session {
    pub settings: Settled,
    pub enabled: ApplicationSet,
    pub state: State,
    pub peer: Peer,
    pub hello: Option<u32>,
    pub next_number: u32,
}

impl Session {
    pub fn new(settings: Settled, enabled: ApplicationSet, next_number: u32) -> Session {
        Session {
            settings,
            enabled,
            state: State::Ready,
            peer: Peer::default(),
            hello: None,
            next_number,
        }
    }

    /// The kinds of label that may be sent now.
    pub fn permitted(&self) -> KindSet {
        self.permitted_if_held().without(self.held().lacks())
    }

    /// The kinds that may not be sent only because a capability is not held by both ends.
    pub fn lacking(&self) -> KindSet {
        self.permitted_if_held().without(self.permitted())
    }

    /// The kinds that might be sent now if both ends held every capability.
    fn permitted_if_held(&self) -> KindSet {
        if self.state != State::Open {
            return KindSet::NONE;
        }
        let open = match self.peer.listed {
            Some(listed) => self.enabled.common(listed).opens(self.settings.protected),
            None => KindSet::ALL,
        };
        open.without(self.peer.disabled.closes())
    }

    /// The capabilities held by both ends.
    fn held(&self) -> CapabilitySet {
        self.settings.ours.common(self.peer.theirs)
    }

    /// Why labels of this kind may not be sent now: application by application,
    /// and the first reason that there is.
    pub fn why_not(&self, kind: Kind) -> Why {
        let State::Open = self.state else {
            return Why::NotOpen;
        };
        if self.peer.disabled.disables(kind) {
            return Why::DisabledByPeer;
        }
        if let Some(listed) = self.peer.listed {
            let protected = self.settings.protected;
            let mut enabled = Application::ALL
                .into_iter()
                .filter(|&application| self.enabled.contains(application))
                .filter(|application| application.opens(protected).contains(kind))
                .peekable();
            if enabled.peek().is_none() {
                return Why::NotEnabled;
            }
            if !enabled.any(|application| listed.contains(application)) {
                return Why::NotListed;
            }
        }
        let Some(needed) = Capability::needed_by(kind) else {
            return Why::Permitted;
        };
        if !self.settings.ours.contains(needed) {
            return Why::NotOurs;
        }
        if !self.peer.theirs.contains(needed) {
            return Why::NotTheirs;
        }
        Why::Permitted
    }

    /// Do the two lists leave anything to talk about? Without negotiation in
    /// force there is nothing to disagree on.
    pub fn agrees(&self) -> bool {
        match self.peer.listed {
            Some(listed) => !self.enabled.common(listed).is_empty(),
            None => true,
        }
    }

    /// Is every application in common one that is used as much as its limit
    /// allows? Without negotiation in force no limit is asked.
    pub fn at_limit(&self, below: ApplicationSet) -> bool {
        match self.peer.listed {
            Some(listed) => self.enabled.common(listed).common(below).is_empty(),
            None => false,
        }
    }

    /// Does this session use the application? None, without negotiation in
    /// force.
    pub fn uses(&self, application: Application) -> bool {
        match self.peer.listed {
            Some(listed) if self.state == State::Open => {
                self.enabled.common(listed).contains(application)
            }
            _ => false,
        }
    }

    pub fn retry_interval(&self) -> u16 {
        match self.state {
            State::Held => u16::MAX,
            State::Ready | State::Open | State::Gone => 0,
        }
    }
}
