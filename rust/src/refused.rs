//! Why a call isn't done.
use std::{fmt, io};

use crate::Signal;

/// Why a call was refused.
#[derive(Clone, Copy, Debug, PartialEq, Eq, Hash)]
#[non_exhaustive]
pub enum Refusal {
    /// An argument is out of range, or the call doesn't fit what is there; or the pair was freed.
    Einval,
    /// The call would have to wait.
    Eagain,
    /// That side isn't open, or was hung up.
    Enxio,
    /// The first message isn't one that a read gives.
    Ebadmsg,
    /// Fewer blocks are free than the call may need.
    Enosr,
    /// A size or a number is beyond its limit.
    Erange,
    /// The journal has no room for the call and its longest answer.
    JournalFull,
    /// No pair is free for a claim.
    NoMinor,
    /// No memory was given.
    NoMemory,
    /// Another end has a part of the pair.
    StillShared,
    /// The caller is in the background, and may not be stopped.
    Eio,
    /// A number that this crate doesn't know.
    Other(u32),
}

impl Refusal {
    const NAMED: [(u32, Refusal, &'static str); 11] = [
        (1, Refusal::Einval, "EINVAL"),
        (2, Refusal::Eagain, "EAGAIN"),
        (3, Refusal::Enxio, "ENXIO"),
        (4, Refusal::Ebadmsg, "EBADMSG"),
        (5, Refusal::Enosr, "ENOSR"),
        (6, Refusal::Erange, "ERANGE"),
        (7, Refusal::JournalFull, "JournalFull"),
        (8, Refusal::NoMinor, "NoMinor"),
        (9, Refusal::NoMemory, "NoMemory"),
        (10, Refusal::StillShared, "StillShared"),
        (11, Refusal::Eio, "EIO"),
    ];

    pub(crate) fn of(number: u32) -> Refusal {
        let named = Refusal::NAMED.iter().find(|named| named.0 == number);
        named.map_or(Refusal::Other(number), |named| named.1)
    }

    /// Its number in include/strm.h, which is another one than that of errno.h.
    pub fn number(self) -> u32 {
        match self {
            Refusal::Other(number) => number,
            _ => Refusal::NAMED.iter().find(|named| named.1 == self).map_or(0, |named| named.0),
        }
    }

    /// Its name, as scripts have it; "?" where it has none.
    pub fn name(self) -> &'static str {
        Refusal::NAMED.iter().find(|named| named.1 == self).map_or("?", |named| named.2)
    }

    fn says(self) -> &'static str {
        match self {
            Refusal::Einval => "an argument is out of range, or the call doesn't fit what is there",
            Refusal::Eagain => "the call would have to wait",
            Refusal::Enxio => "that side isn't open, or was hung up",
            Refusal::Ebadmsg => "the first message has a control part",
            Refusal::Enosr => "too few blocks are free",
            Refusal::Erange => "a size or a number is beyond its limit",
            Refusal::JournalFull => "the journal has no room for the call",
            Refusal::NoMinor => "no pair is free",
            Refusal::NoMemory => "no memory was given",
            Refusal::StillShared => "another end has a part of the pair",
            Refusal::Eio => "the caller is in the background, and may not be stopped",
            Refusal::Other(_) => "refused for a reason that this crate doesn't know",
        }
    }
}

impl fmt::Display for Refusal {
    fn fmt(&self, f: &mut fmt::Formatter<'_>) -> fmt::Result {
        match self {
            Refusal::Other(number) => write!(f, "{}: {number}", self.says()),
            _ => write!(f, "{} ({})", self.says(), self.name()),
        }
    }
}

impl std::error::Error for Refusal {}

/// What a call came to that wasn't done.
#[derive(Clone, Copy, Debug, PartialEq, Eq, Hash)]
pub enum Refused {
    /// It was refused, and nothing has changed.
    Call(Refusal),
    /// An ioctl was answered with M_IOCNAK.
    Nak(Refusal),
    /// Job control would stop the caller by this signal, which its process group gets.
    Stopped(Signal),
}

impl Refused {
    /// Whether the call would have had to wait: EAGAIN.
    pub fn would_wait(self) -> bool {
        self == Refused::Call(Refusal::Eagain)
    }

    /// The refusal's name, or that of the signal.
    pub fn name(self) -> &'static str {
        match self {
            Refused::Call(why) | Refused::Nak(why) => why.name(),
            Refused::Stopped(signal) => signal.name(),
        }
    }
}

impl fmt::Display for Refused {
    fn fmt(&self, f: &mut fmt::Formatter<'_>) -> fmt::Result {
        match self {
            Refused::Call(why) => why.fmt(f),
            Refused::Nak(why) => write!(f, "answered with M_IOCNAK: {why}"),
            Refused::Stopped(signal) => write!(f, "the caller is in the background, and stopped by SIG{}", signal.name()),
        }
    }
}

impl std::error::Error for Refused {}

impl From<Refusal> for Refused {
    fn from(why: Refusal) -> Refused {
        Refused::Call(why)
    }
}

/// EAGAIN is `WouldBlock`; the `Refused` itself is what the error has inside (`io::Error::get_ref`).
impl From<Refused> for io::Error {
    fn from(refused: Refused) -> io::Error {
        let kind = match refused {
            Refused::Call(Refusal::Eagain) => io::ErrorKind::WouldBlock,
            Refused::Call(Refusal::Enxio) => io::ErrorKind::NotConnected,
            Refused::Call(Refusal::NoMemory) => io::ErrorKind::OutOfMemory,
            Refused::Call(Refusal::Ebadmsg) => io::ErrorKind::InvalidData,
            Refused::Call(Refusal::Einval | Refusal::Erange) | Refused::Nak(_) => io::ErrorKind::InvalidInput,
            _ => io::ErrorKind::Other,
        };
        io::Error::new(kind, refused)
    }
}

pub(crate) fn told(number: u32) -> Result<(), Refused> {
    match number {
        0 => Ok(()),
        _ => Err(Refused::Call(Refusal::of(number))),
    }
}
