//! The profiles of the adapter.
use crate::tables::{PROFILE_ADAPTER, PROFILE_TABLE};

/// Which registers an adapter has, and what their accesses do (docs/device.md). A machine keeps the profile that it is made of.
#[derive(Clone, Copy, PartialEq, Eq, Hash, Debug, Default)]
pub enum Profile {
    /// What a polled driver in user space needs.
    #[default]
    Table,
    /// What the drivers of operating systems need besides: EECD, MDIC and others.
    Adapter,
}

impl Profile {
    /// The number that bunjelav.h has for it.
    pub(crate) fn number(self) -> u32 {
        match self {
            Profile::Table => PROFILE_TABLE,
            Profile::Adapter => PROFILE_ADAPTER,
        }
    }

    /// The profile of a number that a machine has told.
    pub(crate) fn of(number: u32) -> Profile {
        match number {
            PROFILE_ADAPTER => Profile::Adapter,
            _ => Profile::Table,
        }
    }
}
