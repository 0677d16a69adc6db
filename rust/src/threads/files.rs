//! Ends as files that block.
use std::io::{self, Read, Write};
use std::os::unix::io::{AsRawFd, RawFd};
use std::time::Duration;

use super::End;

macro_rules! file {
    ($(#[$what:meta])* $name:ident) => {
        $(#[$what])*
        ///
        /// It sleeps where it has to wait; a time-out ([`
        #[doc = stringify!($name)]
        /// ::set_timeout`]) that is over is `WouldBlock`. Errors have the [`Refused`](crate::Refused) inside (`io::Error::get_ref`).
        #[derive(Debug)]
        pub struct $name(End);

        impl $name {
            /// How long each sleep lasts at most: `None` has no end, as it is at first.
            pub fn set_timeout(&mut self, timeout: Option<Duration>) {
                self.0.timeout = timeout;
            }

            /// The end, for all calls that a file doesn't have.
            pub fn end(&mut self) -> &mut End {
                &mut self.0
            }

            /// The end, which is no file any more.
            pub fn into_end(self) -> End {
                self.0
            }
        }

        impl From<End> for $name {
            fn from(end: End) -> $name {
                $name(end)
            }
        }

        impl AsRawFd for $name {
            fn as_raw_fd(&self) -> RawFd {
                self.0.as_raw_fd()
            }
        }
    };
}

file! {
    /// An end that reads: a read gives what is there, and under ICANON that is a line. 0 is the end of input: a hang-up, or an EOF key.
    Reader
}

file! {
    /// An end that writes: a write takes at least a byte. `NotConnected`: the side is hung up, or isn't open.
    Writer
}

impl Read for Reader {
    fn read(&mut self, out: &mut [u8]) -> io::Result<usize> {
        match out {
            [] => Ok(0),
            _ => Ok(self.0.read_wait(out)?),
        }
    }
}

impl Write for Writer {
    fn write(&mut self, bytes: &[u8]) -> io::Result<usize> {
        match bytes {
            [] => Ok(0),
            _ => Ok(self.0.write_wait(bytes)?),
        }
    }

    /// Nothing is kept here: what was taken is on its way.
    fn flush(&mut self) -> io::Result<()> {
        Ok(())
    }
}
