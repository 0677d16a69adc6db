//! Whose turn it is: a stream has one ioctl at a time.
use std::sync::{Condvar, Mutex, MutexGuard, PoisonError};
use std::time::Duration;

use crate::{Refusal, Refused};

#[derive(Default)]
struct Slot {
    is_taken: bool,
    unanswered: Option<u32>,
}

/// The ioctls of a side, by calls of its ends that wait.
#[derive(Default)]
pub(super) struct Ioctls {
    slot: Mutex<Slot>,
    is_free: Condvar,
}

/// The turn of an ioctl, till this is dropped.
pub(super) struct Turn<'a> {
    of: &'a Ioctls,
    /// The number of one that is under way, and for whose answer nobody waits any more.
    pub(super) unanswered: Option<u32>,
}

impl Ioctls {
    fn slot(&self) -> MutexGuard<'_, Slot> {
        self.slot.lock().unwrap_or_else(PoisonError::into_inner)
    }

    /// Waits for the turn. EAGAIN: the time is over.
    pub(super) fn takes(&self, timeout: Option<Duration>) -> Result<Turn<'_>, Refused> {
        let slot = self.slot();
        let mut slot = match timeout {
            Some(time) => {
                self.is_free.wait_timeout_while(slot, time, |slot| slot.is_taken).map_or_else(|held| held.into_inner().0, |told| told.0)
            }
            None => self.is_free.wait_while(slot, |slot| slot.is_taken).unwrap_or_else(PoisonError::into_inner),
        };
        if slot.is_taken {
            return Err(Refused::Call(Refusal::Eagain));
        }
        slot.is_taken = true;
        Ok(Turn { of: self, unanswered: slot.unanswered.take() })
    }
}

impl Drop for Turn<'_> {
    fn drop(&mut self) {
        let mut slot = self.of.slot();
        (slot.is_taken, slot.unanswered) = (false, self.unanswered);
        self.of.is_free.notify_one();
    }
}
