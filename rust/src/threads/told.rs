//! What ends were told, and what a refused call hands back.
use std::{error, fmt, io};

use super::ffi;
use crate::{Books, Caller, Refused, Side};

/// How many bytes, by the side that wrote them.
#[derive(Clone, Copy, Debug, Default, PartialEq, Eq)]
pub struct Each {
    /// Of the master.
    pub from_master: u64,
    /// Of the slave.
    pub from_slave: u64,
}

/// How many calls were granted, and the bytes that they wrote and read, those of control parts too. A number of calls stands still at `u64::MAX`.
#[derive(Clone, Copy, Debug, Default, PartialEq, Eq)]
pub struct Told {
    /// Calls.
    pub calls: u64,
    /// Bytes that were written.
    pub written: Each,
    /// Bytes that were read.
    pub read: Each,
}

impl Each {
    fn of(each: ffi::Each) -> Each {
        Each { from_master: each.from_master, from_slave: each.from_slave }
    }
}

impl Told {
    fn of(told: ffi::Told) -> Told {
        Told { calls: told.calls, written: Each::of(told.written), read: Each::of(told.read) }
    }
}

/// What an end is.
#[derive(Clone, Copy, Debug, PartialEq, Eq)]
pub struct Share {
    /// What it was told of its calls, and with those of ends that were joined to it.
    pub told: Told,
    /// How many parts of its pair it has, of 2^63.
    pub parts: u64,
    /// The number of its pair.
    pub pair: usize,
    /// The side as which it calls.
    pub side: Side,
    /// Who makes its calls.
    pub caller: Caller,
}

impl Share {
    pub(super) fn of(share: &ffi::Share) -> Share {
        let ffi::Share { told, parts, pair, side, group, ignores, orphaned } = *share;
        let side = if side == Side::Slave as u32 { Side::Slave } else { Side::Master };
        Share { told: Told::of(told), parts, pair: pair as usize, side, caller: Caller { group, ignores, orphaned } }
    }
}

/// What was told of a pair in all since it was opened, and its ledgers.
#[derive(Clone, Debug, PartialEq, Eq)]
pub struct Account {
    /// What all of its ends were told.
    pub told: Told,
    /// Where the bytes are that the master wrote.
    pub ms: Books,
    /// Where the bytes are that the slave wrote.
    pub sm: Books,
}

impl Account {
    pub(super) fn of(account: ffi::Account) -> Account {
        Account { told: Told::of(account.told), ms: Books::of(account.ms), sm: Books::of(account.sm) }
    }
}

/// A call that was refused, and what it took: nothing of it is lost.
///
/// It becomes a [`Refused`] or an [`io::Error`] by `?`, and what it holds is dropped then.
pub struct Kept<T> {
    refused: Refused,
    kept: T,
}

impl<T> Kept<T> {
    pub(super) fn new(refused: Refused, kept: T) -> Kept<T> {
        Kept { refused, kept }
    }

    /// Why the call was refused.
    pub fn refused(&self) -> Refused {
        self.refused
    }

    /// What the call took, as it was.
    pub fn into_inner(self) -> T {
        self.kept
    }
}

impl<T> fmt::Debug for Kept<T> {
    fn fmt(&self, f: &mut fmt::Formatter<'_>) -> fmt::Result {
        f.debug_struct("Kept").field("refused", &self.refused).finish_non_exhaustive()
    }
}

impl<T> fmt::Display for Kept<T> {
    fn fmt(&self, f: &mut fmt::Formatter<'_>) -> fmt::Result {
        self.refused.fmt(f)
    }
}

impl<T> error::Error for Kept<T> {}

impl<T> From<Kept<T>> for Refused {
    fn from(kept: Kept<T>) -> Refused {
        kept.refused
    }
}

impl<T> From<Kept<T>> for io::Error {
    fn from(kept: Kept<T>) -> io::Error {
        kept.refused.into()
    }
}
