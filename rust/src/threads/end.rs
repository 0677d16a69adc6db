//! Ends: what is cut off, joined, settled and dropped, and waits.
use std::os::unix::io::{AsRawFd, BorrowedFd, RawFd};
use std::sync::{Arc, Mutex, MutexGuard, PoisonError};
use std::time::{Duration, Instant};
use std::{fmt, io, mem, ptr, thread};

use super::ioctls::Ioctls;
use super::system::Inner;
use super::told::{Account, Kept, Share};
use super::{ffi, Reader, Writer};
use crate::journal::Traces;
use crate::refused::told;
use crate::{Caller, Ready, Refusal, Refused, Side, Trace};

/// So long the last end of a slave that is dropped waits at most for what it wrote to leave its modules, before it closes the side: as close(2) of a
/// stream.
pub const LINGER: Duration = Duration::from_secs(15);

// Between two runs of turns of who waits for them: there may be no worker.
const SLICE: Duration = Duration::from_millis(50);

// An end of the library's that was dropped.
struct Dropped(*mut ffi::End);

// SAFETY: an end may be handed from one thread to another.
unsafe impl Send for Dropped {}

// The ends of a pair that are left, in all and of each side, and one that has the parts of those that were dropped.
struct Left {
    ends: usize,
    sides: [usize; 2],
    dropped: Option<Dropped>,
}

// What all ends of a pair share.
pub(super) struct Shared {
    system: Arc<Inner>,
    number: u32,
    left: Mutex<Left>,
    pub(super) ioctls: [Ioctls; 2],
}

impl Shared {
    fn new(system: &Arc<Inner>, at: *mut ffi::End, sides: [usize; 2]) -> Arc<Shared> {
        let mut share = ffi::Share::default();
        // SAFETY: the end is the library's, and what is told has a place.
        unsafe { ffi::strm_end_told(at, &mut share) };
        let left = Left { ends: sides[0] + sides[1], sides, dropped: None };
        Arc::new(Shared { system: Arc::clone(system), number: share.pair, left: Mutex::new(left), ioctls: Default::default() })
    }

    fn left(&self) -> MutexGuard<'_, Left> {
        self.left.lock().unwrap_or_else(PoisonError::into_inner)
    }

    fn adds(&self, side: Side) {
        let mut left = self.left();
        left.ends += 1;
        left.sides[side as usize] += 1;
    }

    // Puts an end to those that were dropped. The last one settles the pair, which is released then.
    fn drops(&self, at: *mut ffi::End) {
        let mut left = self.left();
        let mut kept = at;
        if let Some(Dropped(before)) = left.dropped.take() {
            // SAFETY: both are ends of this pair that nobody else has.
            match unsafe { ffi::strm_end_join(before, at) } {
                0 => kept = before,
                // SAFETY: as above. No library of this version refuses it.
                _ => unsafe { ffi::strm_end_free(before) },
            }
        }
        left.ends -= 1;
        if left.ends > 0 {
            left.dropped = Some(Dropped(kept));
            return;
        }
        // SAFETY: nobody else has it, and what is told has a place.
        match unsafe { ffi::strm_end_settle(kept, &mut ffi::Account::default()) } {
            0 => self.system.releases(self.number),
            // SAFETY: as above. No library of this version refuses it, as all parts are together.
            _ => unsafe { ffi::strm_end_free(kept) },
        }
    }
}

/// What a thread has of a pair: it calls as one side, and is told what its own calls were, wrote and read.
///
/// It may go to another thread, and isn't shared by two:
///
/// ```compile_fail,E0277
/// fn is_shared<T: Sync>() {}
/// is_shared::<strm::threads::End>();
/// ```
///
/// The end that opens a pair has all of it. [`End::open_slave`] and [`End::split`] cut a part off for another thread, [`End::join`] puts two
/// together, and who has all of a pair again settles it ([`End::settle`]).
///
/// Dropped, the last end of a side closes it, behind what it wrote ([`LINGER`]; at once where [`End::close`] did before): the other side reads that,
/// and then the end of input. The parts of ends that were dropped, and what these were told, are settled with the rest; where all were dropped the
/// pair is free for another claim.
pub struct End {
    // Null: it is gone, and its parts with it.
    pub(super) at: *mut ffi::End,
    pub(super) shared: Arc<Shared>,
    side: Side,
    /// How long each sleep of a call that waits lasts at most: `None` has no end, as it is at first. A time that is over is EAGAIN.
    pub timeout: Option<Duration>,
    // Whether it makes turns where it waits for an answer: it is about to close its side, and there may be no worker.
    lingers: bool,
}

// SAFETY: an end may be handed from one thread to another, and has no state beside itself and its pair.
unsafe impl Send for End {}

impl End {
    // SAFETY: of whoever calls: the end is one that the library just made, by this system.
    pub(super) unsafe fn opened(system: &Arc<Inner>, at: *mut ffi::End, side: Side) -> End {
        End { at, shared: Shared::new(system, at, [1, 0]), side, timeout: None, lingers: false }
    }

    // SAFETY: of whoever calls: the two are ends of one pair that the library just made, by this system.
    pub(super) unsafe fn terminal(system: &Arc<Inner>, master: *mut ffi::End, slave: *mut ffi::End) -> (End, End) {
        let shared = Shared::new(system, master, [1, 1]);
        let end = |at, side| End { at, shared: Arc::clone(&shared), side, timeout: None, lingers: false };
        (end(master, Side::Master), end(slave, Side::Slave))
    }

    // One that the library cut off this one.
    fn beside(&self, at: *mut ffi::End, side: Side) -> End {
        self.shared.adds(side);
        End { at, shared: Arc::clone(&self.shared), side, timeout: self.timeout, lingers: false }
    }

    // Behind a join, by which the end may call as the other side.
    fn looks(&mut self, left: &mut Left) {
        left.sides[self.side as usize] -= 1;
        self.side = self.told().side;
        left.sides[self.side as usize] += 1;
    }

    /// open(2) of the slave by a call of this end, and the end that calls as it. EAGAIN before [`End::unlock`]. ERANGE: an end of one part. EINVAL,
    /// ENXIO, ENOSR, JournalFull, NoMemory.
    pub fn open_slave(&mut self) -> Result<End, Refused> {
        let mut slave = ptr::null_mut();
        // SAFETY: the end is this one's alone, and what is told has a place.
        told(unsafe { ffi::strm_end_open_slave(self.at, &mut slave) })?;
        Ok(self.beside(slave, Side::Slave))
    }

    /// Cuts the end in two, which call alike: the second one is for another thread, and was told nothing yet. ERANGE: an end of one part. NoMemory.
    pub fn split(&mut self) -> Result<End, Refused> {
        let mut second = ptr::null_mut();
        // SAFETY: the end is this one's alone, and what is told has a place.
        told(unsafe { ffi::strm_end_split(self.at, &mut second) })?;
        Ok(self.beside(second, self.side))
    }

    /// The end as two files, for one thread that reads and one that writes. Refused as [`End::split`] is: the end comes back then.
    pub fn into_halves(mut self) -> Result<(Reader, Writer), Kept<End>> {
        match self.split() {
            Ok(second) => Ok((Reader::from(self), Writer::from(second))),
            Err(refused) => Err(Kept::new(refused, self)),
        }
    }

    /// Joins a second end to this one: it has the parts of both, and what both were told. It calls as the end that opened the pair did, where that is
    /// one of them, else as this one did. No side is closed by it. EINVAL: they are of two pairs. Both come back then, in their order.
    pub fn join(mut self, mut second: End) -> Result<End, Kept<(End, End)>> {
        // SAFETY: each end is its owner's alone.
        if let Err(refused) = told(unsafe { ffi::strm_end_join(self.at, second.at) }) {
            return Err(Kept::new(refused, (self, second)));
        }
        second.at = ptr::null_mut();
        let shared = Arc::clone(&self.shared);
        let mut left = shared.left();
        left.ends -= 1;
        left.sides[second.side as usize] -= 1;
        self.looks(&mut left);
        drop(left);
        Ok(self)
    }

    /// Settles the pair, of which no other end is left: what its ends were told in all, also those that were dropped, which is what the pair's books
    /// say, and both ledgers. The pair is free for another claim. StillShared: another end is left. This one comes back then.
    pub fn settle(mut self) -> Result<Account, Kept<End>> {
        let mut account = ffi::Account::default();
        let shared = Arc::clone(&self.shared);
        let mut left = shared.left();
        if let Some(Dropped(before)) = left.dropped.take() {
            // SAFETY: both are ends of this pair that nobody else has.
            if unsafe { ffi::strm_end_join(self.at, before) } != 0 {
                left.dropped = Some(Dropped(before));
            }
            self.looks(&mut left);
        }
        // SAFETY: the end is this one's alone, and what is told has a place.
        if let Err(refused) = told(unsafe { ffi::strm_end_settle(self.at, &mut account) }) {
            drop(left);
            return Err(Kept::new(refused, self));
        }
        self.at = ptr::null_mut();
        shared.system.releases(shared.number);
        Ok(Account::of(account))
    }

    /// What the end is. Nothing is waited for.
    pub fn told(&self) -> Share {
        let mut share = ffi::Share::default();
        // SAFETY: the end is this one's alone, and what is told has a place.
        unsafe { ffi::strm_end_told(self.at, &mut share) };
        Share::of(&share)
    }

    /// The side as which it calls.
    pub fn side(&self) -> Side {
        self.side
    }

    /// The number of its pair.
    pub fn pair(&self) -> usize {
        self.shared.number as usize
    }

    /// Sets who makes the end's later calls, for job control: nobody, where it isn't set.
    pub fn set_caller(&mut self, caller: Caller) {
        let Caller { group, ignores, orphaned } = caller;
        // SAFETY: the end is this one's alone.
        unsafe { ffi::strm_end_set_group(self.at, group, ignores, orphaned) }
    }

    /// Makes turns of the end's pair until no queue is enabled, as [`System::run`](super::System::run) does; a full journal begins anew where that
    /// was chosen.
    pub fn run(&mut self) -> Result<usize, Refused> {
        let mut turns = 0;
        // SAFETY: the end is this one's alone, and what is told has a place.
        told(unsafe { ffi::strm_end_run(self.at, &mut turns) }).map(|()| turns)
    }

    /// Begins the journal of the end's pair anew.
    pub fn restart(&mut self) -> Result<(), Refused> {
        // SAFETY: the end is this one's alone.
        told(unsafe { ffi::strm_end_restart(self.at) })
    }

    /// Hands out the image at which the journal of the end's pair began and all entries since, calls of all of its ends and turns, and begins the
    /// journal anew. Where full ones begin anew ([`Choices`](crate::Choices)) entries before that are gone. NoMemory.
    pub fn cut(&mut self) -> Result<Trace, Refused> {
        let library = Traces { next: ffi::strm_end_trace_next, base: ffi::strm_end_trace_base, free: ffi::strm_end_trace_free };
        // SAFETY: the functions are of one library, the end is this one's alone, and the trace's handle is closed.
        unsafe { Trace::of(library, |trace| ffi::strm_end_cut(self.at, trace)) }
    }

    /// What the end's side is ready for. ENXIO: the side isn't open.
    pub fn ready(&mut self) -> Result<Ready, Refused> {
        let mut ready = 0;
        // SAFETY: the end is this one's alone, and what is told has a place.
        told(unsafe { ffi::strm_end_ready(self.at, &mut ready) })?;
        Ok(Ready(ready))
    }

    /// Sleeps until the side is ready for something of `what`, or is hung up: all that it is ready for. EAGAIN: the time is over; `None` has no
    /// end, and a time of 0 doesn't sleep. ENXIO: the side isn't open, or was closed meanwhile by another end.
    ///
    /// Two ends of one side that wait for the same are both woken, and one of them finds what the other took: it waits again.
    pub fn wait(&mut self, what: Ready, timeout: Option<Duration>) -> Result<Ready, Refused> {
        let mut ready = 0;
        // SAFETY: the end is this one's alone, and what is told has a place.
        told(unsafe { ffi::strm_end_wait(self.at, what.0, milliseconds(timeout), &mut ready) })?;
        Ok(Ready(ready))
    }

    /// A descriptor for poll(2), of which the end is the owner. It becomes readable where the side may have become ready for more since this end looked
    /// ([`End::ready`], [`End::wait`]), and is so at first; a look makes it unreadable. So look, call until a call is EAGAIN, then poll. NoMemory:
    /// the system gives none.
    pub fn as_fd(&self) -> io::Result<BorrowedFd<'_>> {
        match self.as_raw_fd() {
            -1 => Err(Refused::Call(Refusal::NoMemory).into()),
            // SAFETY: it is open as long as the end.
            fd => Ok(unsafe { BorrowedFd::borrow_raw(fd) }),
        }
    }

    // Makes turns, for who closes a side: there may be no worker.
    pub(super) fn runs(&mut self) {
        if self.lingers {
            let _ = self.run();
        }
    }

    // Sleeps until what the slave wrote has left its modules, or till then.
    fn drains(&mut self, until: Instant) {
        self.set_caller(Caller::NOBODY);
        loop {
            let rest = until.saturating_duration_since(Instant::now());
            self.timeout = Some(rest.min(SLICE));
            match self.drain() {
                Err(refused) if refused.would_wait() && !rest.is_zero() => {}
                _ => return,
            }
        }
    }

    // close(2) of a side whose last end goes. What is refused can't be told, but too few blocks are waited for.
    fn closes(&mut self) {
        let until = Instant::now() + LINGER;
        self.lingers = true;
        self.runs();
        if self.side == Side::Slave && !thread::panicking() {
            self.drains(until);
        }
        while matches!(self.close(), Err(Refused::Call(Refusal::Enosr))) && Instant::now() < until {
            thread::sleep(SLICE / 50);
            self.runs();
        }
        self.runs();
    }
}

impl Drop for End {
    fn drop(&mut self) {
        if self.at.is_null() {
            return;
        }
        let mut left = self.shared.left();
        left.sides[self.side as usize] -= 1;
        let is_heard = left.sides[self.side as usize] == 0 && left.sides[1 - self.side as usize] > 0;
        drop(left);
        if is_heard {
            self.closes();
        }
        self.shared.drops(mem::replace(&mut self.at, ptr::null_mut()));
    }
}

/// The descriptor of [`End::as_fd`]; -1: the system gives none.
impl AsRawFd for End {
    fn as_raw_fd(&self) -> RawFd {
        // SAFETY: the end is this one's alone.
        unsafe { ffi::strm_end_fd(self.at) }
    }
}

impl fmt::Debug for End {
    fn fmt(&self, f: &mut fmt::Formatter<'_>) -> fmt::Result {
        f.debug_struct("End").field("pair", &self.pair()).field("side", &self.side).field("timeout", &self.timeout).finish_non_exhaustive()
    }
}

// A time as the library has it: a negative one has no end. What is above 24 days is as long as that.
fn milliseconds(timeout: Option<Duration>) -> i32 {
    timeout.map_or(-1, |time| i32::try_from((time.as_nanos() + 999_999) / 1_000_000).unwrap_or(i32::MAX))
}
