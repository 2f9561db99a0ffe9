//! Limits: how many sessions of a row may use an application before one that
//! needs it is turned away.

use crate::kinds::Application;
use crate::Refusal;

/// The highest limit, and the one of every application until another is set.
const HIGHEST: u8 = 64;

/// The limit of each application, TA-Id n at n-1.
#[derive(Clone, Copy, Debug, Default, PartialEq, Eq)]
#[repr(C)]
pub struct Limits {
    pub of: [u8; Application::ALL.len()],
}

/// Limits with one of them set. After a refusal they are as handed in.
#[derive(Clone, Copy, Debug, PartialEq, Eq)]
#[repr(C)]
pub struct Limited {
    pub refusal: u8,
    pub limits: Limits,
}

impl Limits {
    /// The limit of an application, as it acts.
    pub(crate) fn acting(&self, application: Application) -> usize {
        let limit = self.of[Limits::place(application)];
        limit.min(HIGHEST).into()
    }

    fn with(mut self, ta_id: u32, limit: u32) -> Result<Limits, Refusal> {
        let application = Application::from_ta_id(ta_id).ok_or(Refusal::OutOfRange)?;
        if limit > u32::from(HIGHEST) {
            return Err(Refusal::LimitTooHigh);
        }
        self.of[Limits::place(application)] = limit as u8;
        Ok(self)
    }

    fn place(application: Application) -> usize {
        usize::from(application.ta_id()) - 1
    }
}

/// The limits until one is set.
pub fn no_limits() -> Limits {
    Limits {
        of: [HIGHEST; Application::ALL.len()],
    }
}

/// The limits with that of one application set.
pub fn set_limit(limits: Limits, ta_id: u32, limit: u32) -> Limited {
    match limits.with(ta_id, limit) {
        Ok(limits) => Limited { refusal: 0, limits },
        Err(refusal) => Limited {
            refusal: refusal.number(),
            limits,
        },
    }
}

#[cfg(test)]
mod tests {
    use super::*;

    #[test]
    fn a_limit_over_the_highest_acts_as_that() {
        for (limit, acting) in [(0, 0), (1, 1), (63, 63), (64, 64), (65, 64), (255, 64)] {
            let mut limits = no_limits();
            limits.of[3] = limit;
            assert_eq!(limits.acting(Application::Ldpv4RemoteLfa), acting);
            assert_eq!(limits.acting(Application::Ldpv6RemoteLfa), 64);
        }
    }
}
