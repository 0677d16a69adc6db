//! The two ends of a pair as files.
use std::io::{self, Read, Write};
use std::ops::{Deref, DerefMut};
use std::sync::{Arc, Mutex, MutexGuard, PoisonError};

use crate::{Caller, Pair, Queue, Ready, Refusal, Refused, Side, Termios, When, Winsize};

// The pair of two halves, and for each side whether its half was dropped and its close is still to be made.
#[derive(Debug)]
struct Shared {
    pair: Pair,
    closing: [bool; 2],
}

impl Shared {
    // A close takes what stands in the modules, so the slave's waits until that has gone on; and each waits for the blocks that it wants.
    fn closes(&mut self, side: Side) {
        let stands = self.pair.sizes(Queue::SlaveLdtermWrite).map_or(false, |standing| standing.messages > 0);
        let drains = side == Side::Slave && stands && !self.pair.ready(side).is_hung_up();
        self.closing[side as usize] = drains || matches!(self.pair.close(side), Err(Refused::Call(Refusal::Enosr | Refusal::JournalFull)));
    }

    // Makes turns. What can't go on goes on behind a later call.
    fn runs(&mut self) {
        let _ = self.pair.runqueues();
        for side in [Side::Master, Side::Slave] {
            if self.closing[side as usize] {
                self.closes(side);
            }
        }
    }
}

/// The pair of two halves, locked till this is dropped: a call of a half waits till then.
#[derive(Debug)]
pub struct Locked<'a>(MutexGuard<'a, Shared>);

impl Deref for Locked<'_> {
    type Target = Pair;

    fn deref(&self) -> &Pair {
        &self.0.pair
    }
}

impl DerefMut for Locked<'_> {
    fn deref_mut(&mut self) -> &mut Pair {
        &mut self.0.pair
    }
}

#[derive(Debug)]
struct Half {
    shared: Arc<Mutex<Shared>>,
    side: Side,
    caller: Caller,
}

impl Half {
    fn locked(&self) -> MutexGuard<'_, Shared> {
        self.shared.lock().unwrap_or_else(PoisonError::into_inner)
    }

    // Makes a call of the half's caller between turns.
    fn makes<T>(&self, call: impl FnOnce(&mut Pair) -> Result<T, Refused>) -> Result<T, Refused> {
        let mut shared = self.locked();
        shared.runs();
        let before = std::mem::replace(&mut shared.pair.caller, self.caller);
        let made = call(&mut shared.pair);
        shared.pair.caller = before;
        shared.runs();
        made
    }

    fn ready(&self) -> Ready {
        let mut shared = self.locked();
        shared.runs();
        shared.pair.ready(self.side)
    }

    fn read(&self, out: &mut [u8]) -> io::Result<usize> {
        match out {
            [] => Ok(0),
            _ => Ok(self.makes(|pair| pair.read(self.side, out))?),
        }
    }

    fn write(&self, bytes: &[u8]) -> io::Result<usize> {
        match bytes {
            [] => Ok(0),
            _ => Ok(self.makes(|pair| pair.write(self.side, bytes))?),
        }
    }
}

impl Drop for Half {
    fn drop(&mut self) {
        let mut shared = self.locked();
        shared.runs();
        shared.closes(self.side);
        shared.runs();
    }
}

macro_rules! half {
    ($(#[$what:meta])* $name:ident) => {
        $(#[$what])*
        ///
        /// Reads and writes never wait: `WouldBlock` is EAGAIN. Each makes the turns that are to be made before it and behind it, so what one
        /// half wrote the other reads. A half may move to another thread; the pair is locked during each call.
        #[derive(Debug)]
        pub struct $name(Half);

        impl $name {
            /// Sets who calls, for job control: nobody, where it isn't set.
            pub fn set_caller(&mut self, caller: Caller) {
                self.0.caller = caller;
            }

            /// What the half is ready for, behind the turns that are to be made.
            pub fn ready(&self) -> Ready {
                self.0.ready()
            }

            /// The pair of both halves, locked till the guard is dropped: for all calls that a half doesn't have.
            pub fn pair(&self) -> Locked<'_> {
                Locked(self.0.locked())
            }
        }

        impl Read for $name {
            fn read(&mut self, out: &mut [u8]) -> io::Result<usize> {
                self.0.read(out)
            }
        }

        impl Write for $name {
            fn write(&mut self, bytes: &[u8]) -> io::Result<usize> {
                self.0.write(bytes)
            }

            /// Makes the turns that are to be made, and says why they stop, as reads and writes don't. What was written has reached the other half
            /// as far as flow control lets it.
            fn flush(&mut self) -> io::Result<()> {
                self.pair().runqueues()?;
                Ok(())
            }
        }
    };
}

half! {
    /// The master's end of a pair: of a terminal emulator, or of a login server.
    ///
    /// Dropped, it hangs up: the slave reads what has reached it, and then the end of input. What flow control still held back is gone, as
    /// where a line is cut.
    Master
}

half! {
    /// The slave's end of a pair: of a program. Under ICANON a read is one line, and a read of no bytes an EOF key.
    ///
    /// Dropped, it closes its side once all that it wrote has left its modules: the master reads it to its end, and then the end of input.
    Slave
}

impl Master {
    /// Sets the window: where its size changes, SIGWINCH comes to the slave.
    pub fn set_winsize(&mut self, size: Winsize) -> Result<(), Refused> {
        self.0.makes(|pair| pair.set_winsize(Side::Master, size))
    }
}

impl Slave {
    /// The modes of the terminal.
    pub fn tcgetattr(&mut self) -> Result<Termios, Refused> {
        self.0.makes(|pair| pair.tcgetattr(Side::Slave))
    }

    /// Sets the modes of the terminal.
    pub fn tcsetattr(&mut self, when: When, termios: &Termios) -> Result<(), Refused> {
        self.0.makes(|pair| pair.tcsetattr(Side::Slave, when, termios))
    }

    /// The window of the terminal.
    pub fn get_winsize(&mut self) -> Result<Winsize, Refused> {
        self.0.makes(|pair| pair.get_winsize(Side::Slave))
    }
}

impl Pair {
    /// The two ends of the pair as files, each of its own, for one thread or for two.
    ///
    /// ```
    /// use std::io::{Read, Write};
    /// # use strm::Pair;
    /// let (mut master, mut slave) = Pair::terminal()?.split();
    /// master.write_all(b"ls\r")?;
    /// let mut line = [0; 256];
    /// let n = slave.read(&mut line)?;
    /// assert_eq!(&line[..n], b"ls\n");
    /// assert_eq!(slave.read(&mut line).unwrap_err().kind(), std::io::ErrorKind::WouldBlock);
    /// drop(slave); // closes it
    /// let mut shown = String::new();
    /// master.read_to_string(&mut shown)?;
    /// assert_eq!(shown, "ls\r\n");
    /// # Ok::<(), std::io::Error>(())
    /// ```
    pub fn split(self) -> (Master, Slave) {
        let shared = Arc::new(Mutex::new(Shared { pair: self, closing: [false; 2] }));
        let half = |side| Half { shared: Arc::clone(&shared), side, caller: Caller::NOBODY };
        (Master(half(Side::Master)), Slave(half(Side::Slave)))
    }
}
