//! How many applications, kinds, SAC Apps and capabilities there are, for everything that is
//! made here.

pub const APPLICATIONS: usize = 13;
/// The highest TA-Id.
pub const LAST: u32 = APPLICATIONS as u32;
pub const ALL_APPLICATIONS: u16 = (1 << APPLICATIONS) - 1;

pub const KINDS: usize = 10;
pub const ALL_KINDS: u16 = (1 << KINDS) - 1;

pub const APPS: usize = 4;
/// The highest SAC App.
pub const LAST_APP: u32 = APPS as u32;
pub const ALL_APPS: u32 = (1 << APPS) - 1;

pub const CAPABILITIES: usize = 3;
pub const ALL_CAPABILITIES: u8 = (1 << CAPABILITIES) - 1;
