//! Turns of service procedures.
use crate::ffi;
use crate::refused::told;
use crate::{Pair, Queue, Refusal, Refused};

/// What a turn did.
#[derive(Clone, Copy, Debug, PartialEq, Eq, Hash)]
pub enum Turn {
    /// The queue was empty.
    Idle,
    /// Its first message may not go on.
    Blocked,
    /// So many bytes of the first message went on.
    Moved(u32),
}

impl Turn {
    pub(crate) fn of(went: ffi::Went) -> Turn {
        match went.kind {
            0 => Turn::Idle,
            1 => Turn::Blocked,
            _ => Turn::Moved(went.moved),
        }
    }
}

/// So many turns and more are made by one `runqueues`, before it takes them for turns that don't end.
const TURNS_MAX: usize = 1_000_000;

impl Pair {
    /// Makes a turn of a queue's service procedure. EINVAL: it isn't enabled.
    pub fn turn(&mut self, queue: Queue) -> Result<Turn, Refused> {
        let mut went = ffi::Went::default();
        // SAFETY: what is told has a place.
        self.again(|handle| unsafe { ffi::strm_turn(handle, queue as u32, &mut went) })?;
        Ok(Turn::of(went))
    }

    /// Turns, each of the queue that was enabled first, until none is: how many were made. JournalFull behind a million: they may not end, as with
    /// an `ldterm` on each side that echo each other; of a pair whose journal the library begins anew EAGAIN, behind [`RUN_MOST`](crate::RUN_MOST). What
    /// was made stays made, and another run goes on.
    pub fn runqueues(&mut self) -> Result<usize, Refused> {
        let mut made = 0;
        loop {
            let mut turns = 0;
            // SAFETY: what is told has a place.
            let refused = unsafe { ffi::strm_runqueues(&mut self.handle, &mut turns) };
            made += turns;
            match told(refused) {
                Err(Refused::Call(Refusal::JournalFull)) if !self.keeps && made < TURNS_MAX && (turns > 0 || self.has_entries()) => {
                    self.restart()?;
                }
                done => return done.map(|()| made),
            }
        }
    }

    /// The enabled queues, in the order in which they were enabled.
    pub fn enabled(&mut self) -> Vec<Queue> {
        (0..).map_while(|place| self.enabled_at(place)).collect()
    }

    /// Whether no queue is enabled: nothing happens until somebody calls.
    pub fn at_rest(&mut self) -> bool {
        self.enabled_at(0).is_none()
    }

    fn enabled_at(&mut self, place: usize) -> Option<Queue> {
        // SAFETY: no pointer but the handle goes with it.
        Queue::of(unsafe { ffi::strm_enabled(&mut self.handle, place) })
    }
}
