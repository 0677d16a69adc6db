//! Systems: pairs that are claimed, and workers that make their turns.
use std::sync::{Arc, Mutex, MutexGuard, PoisonError};
use std::{fmt, ptr};

use super::end::End;
use super::ffi;
use super::told::{Account, Kept};
use crate::pair::chosen;
use crate::refused::told;
use crate::{Choices, Queue, Refusal, Refused, Side, Sizes, Turn, TERMINAL_BLOCKS};

/// What a system of terminals is made of: bytes typed and written are stopped by flow control, and never by a pool, and journals begin anew by
/// themselves. A pair costs the memory that it touches, so many blocks cost addresses alone.
pub const TERMINALS: Choices = Choices { sizes: Sizes { blocks: TERMINAL_BLOCKS, entries: 64, bytes: 16_384 }, reserve: 0, anew: true };

// The library's system: freed with the last of all that was made of it.
pub(super) struct Inner {
    pub(super) at: *mut ffi::System,
    // Who starts or stops workers has it: the library asks for one thread at a time.
    workers: Mutex<()>,
}

// SAFETY: the library's systems are used by any threads at once, but for the start and stop of workers, which `workers` orders.
unsafe impl Send for Inner {}
// SAFETY: as above.
unsafe impl Sync for Inner {}

impl Inner {
    fn workers(&self) -> MutexGuard<'_, ()> {
        self.workers.lock().unwrap_or_else(PoisonError::into_inner)
    }

    // Gives back a pair that is claimed by whoever calls, and isn't open.
    pub(super) fn releases(&self, pair: u32) {
        // SAFETY: the system stands as long as this does.
        let refused = unsafe { ffi::strm_system_release(self.at, pair) };
        debug_assert_eq!(refused, 0);
    }
}

impl Drop for Inner {
    fn drop(&mut self) {
        // SAFETY: no end is left, as each has this system; nor is anything else that would use it.
        let refused = unsafe { ffi::strm_system_free(self.at) };
        debug_assert_eq!(refused, 0);
    }
}

/// Pairs of one size that threads share, each with a lock of its own. A clone is the same system.
#[derive(Clone)]
pub struct System {
    inner: Arc<Inner>,
}

impl System {
    /// A system of 1 to 65,536 pairs that nobody opened, each of what is chosen: [`TERMINALS`] where nothing else is wanted. EINVAL: a number isn't
    /// one of these, or blocks in reserve are asked for, which these pairs haven't. NoMemory.
    pub fn new(pairs: usize, choices: &Choices) -> Result<System, Refused> {
        let mut at = ptr::null_mut();
        // SAFETY: what is told has a place.
        told(unsafe { ffi::strm_system_new(&mut at, pairs, &chosen(*choices)) })?;
        Ok(System { inner: Arc::new(Inner { at, workers: Mutex::new(()) }) })
    }

    /// How many pairs it has.
    pub fn pairs(&self) -> usize {
        // SAFETY: the system stands as long as `inner`.
        unsafe { ffi::strm_system_pairs(self.inner.at) }
    }

    /// Claims a pair that nobody has. NoMinor: each is taken. NoMemory.
    pub fn claim(&self) -> Result<Claim, Refused> {
        let mut pair = 0;
        // SAFETY: what is told has a place.
        told(unsafe { ffi::strm_system_claim(self.inner.at, &mut pair) })?;
        Ok(Claim { system: Arc::clone(&self.inner), pair, is_held: true })
    }

    /// A terminal as a shell expects it, of a pair that is claimed by it: both sides open, `ptem` and `ldterm` on the slave. The master's end and
    /// the slave's. NoMinor, NoMemory, and what the calls are refused for; nothing is claimed or open then.
    pub fn terminal(&self) -> Result<(End, End), Refused> {
        let (mut master, mut slave) = (ptr::null_mut(), ptr::null_mut());
        // SAFETY: what is told has a place.
        told(unsafe { ffi::strm_system_terminal(self.inner.at, &mut master, &mut slave) })?;
        // SAFETY: the library made both just now.
        Ok(unsafe { End::terminal(&self.inner, master, slave) })
    }

    /// Makes the turn of the queue of a pair that was enabled first: which one it was, and what it did. `None`: none is enabled. EINVAL: no such
    /// pair. NoMemory, and what the turn is refused for.
    pub fn turn(&self, pair: usize) -> Result<Option<(Queue, Turn)>, Refused> {
        let mut visit = ffi::Visit::default();
        // SAFETY: what is told has a place.
        told(unsafe { ffi::strm_system_turn(self.inner.at, number(pair)?, &mut visit) })?;
        told(visit.refusal)?;
        Ok(Queue::of(visit.queue).map(|queue| (queue, Turn::of(visit.went))))
    }

    /// Makes such turns until no queue is enabled: how many were made. A turn that is refused ends it, by ERANGE, JournalFull or ENOSR. It makes
    /// [`RUN_MOST`](crate::RUN_MOST) turns at most, and is EAGAIN where a queue is enabled behind them. What was made stays made. A journal begins
    /// anew by an end alone ([`End::run`]), so here it may be JournalFull.
    pub fn run(&self, pair: usize) -> Result<usize, Refused> {
        let mut turns = 0;
        // SAFETY: what is told has a place.
        told(unsafe { ffi::strm_system_run(self.inner.at, number(pair)?, &mut turns) }).map(|()| turns)
    }

    /// What was told of a pair so far, and its ledgers, of one moment under its lock. EINVAL: no such pair. NoMemory.
    pub fn audit(&self, pair: usize) -> Result<Account, Refused> {
        let mut account = ffi::Account::default();
        // SAFETY: what is told has a place.
        told(unsafe { ffi::strm_system_audit(self.inner.at, number(pair)?, &mut account) })?;
        Ok(Account::of(account))
    }

    /// Starts so many threads, 1 to 256, that make turns wherever a queue is enabled, and sleep where none is. They stop where what this gives is
    /// dropped. EINVAL: workers are there, or the number is none of these. NoMemory: a thread couldn't be had, and none is left.
    pub fn start_workers(&self, threads: usize) -> Result<Workers, Refused> {
        let _held = self.inner.workers();
        // SAFETY: nobody else starts or stops workers meanwhile.
        told(unsafe { ffi::strm_workers_start(self.inner.at, threads) })?;
        Ok(Workers { system: Arc::clone(&self.inner) })
    }
}

impl fmt::Debug for System {
    fn fmt(&self, f: &mut fmt::Formatter<'_>) -> fmt::Result {
        f.debug_struct("System").field("pairs", &self.pairs()).finish_non_exhaustive()
    }
}

fn number(pair: usize) -> Result<u32, Refused> {
    u32::try_from(pair).map_err(|_| Refused::Call(Refusal::Einval))
}

/// The workers of a system. Dropped, they stop: that waits until each has ended, behind a turn that is under way, and what is enabled stays so.
#[must_use = "workers stop where this is dropped"]
pub struct Workers {
    system: Arc<Inner>,
}

impl Drop for Workers {
    fn drop(&mut self) {
        let _held = self.system.workers();
        // SAFETY: nobody else starts or stops workers meanwhile.
        let refused = unsafe { ffi::strm_workers_stop(self.system.at) };
        debug_assert_eq!(refused, 0);
    }
}

impl fmt::Debug for Workers {
    fn fmt(&self, f: &mut fmt::Formatter<'_>) -> fmt::Result {
        f.debug_struct("Workers").finish_non_exhaustive()
    }
}

/// A pair that is claimed, and isn't open. Dropped, it is released.
pub struct Claim {
    system: Arc<Inner>,
    pair: u32,
    is_held: bool,
}

impl Claim {
    /// The number of the pair.
    pub fn pair(&self) -> usize {
        self.pair as usize
    }

    /// open(2) of the master: the end that has all of the pair. ENOSR: it has too few blocks. JournalFull, NoMemory. The claim comes back then.
    pub fn open(mut self) -> Result<End, Kept<Claim>> {
        let mut master = ptr::null_mut();
        // SAFETY: what is told has a place.
        if let Err(refused) = told(unsafe { ffi::strm_system_open(self.system.at, self.pair, &mut master) }) {
            return Err(Kept::new(refused, self));
        }
        self.is_held = false;
        // SAFETY: the library made it just now.
        Ok(unsafe { End::opened(&self.system, master, Side::Master) })
    }

    /// Gives the pair back: somebody else may claim it.
    pub fn release(self) {
        drop(self);
    }
}

impl Drop for Claim {
    fn drop(&mut self) {
        if self.is_held {
            self.system.releases(self.pair);
        }
    }
}

impl fmt::Debug for Claim {
    fn fmt(&self, f: &mut fmt::Formatter<'_>) -> fmt::Result {
        f.debug_struct("Claim").field("pair", &self.pair).finish_non_exhaustive()
    }
}
