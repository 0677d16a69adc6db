//! Pairs that threads share, over libstrm_mt: a [`System`] of 1 to 65,536 pairs, [`End`]s by which threads call, workers that make turns, and waits
//! that sleep. For Linux; the feature `threads` of this crate. include/strm_mt.h is the manual of each call, and has the same names.
//!
//! A terminal of three threads: one writes keys, one reads lines, and a worker makes the turns between.
//!
//! ```
//! use std::io::{Read, Write};
//! use std::thread;
//! use strm::threads::{Reader, System, Writer, TERMINALS};
//!
//! # fn main() -> Result<(), Box<dyn std::error::Error>> {
//! let system = System::new(100, &TERMINALS)?; // 100 pairs
//! let workers = system.start_workers(1)?; // a thread that makes turns, wherever a queue is enabled
//! let (master, slave) = system.terminal()?; // a pair is claimed, both sides are open, ptem and ldterm on the slave
//!
//! let shell = thread::spawn(move || {
//!     let (mut slave, mut line) = (Reader::from(slave), [0; 256]);
//!     let n = slave.read(&mut line)?; // sleeps until a line is there
//!     assert_eq!(&line[..n], b"ls\n");
//!     Ok::<_, std::io::Error>(slave.into_end())
//! });
//! let mut master = Writer::from(master);
//! master.write_all(b"lx\x7fs\r")?;
//!
//! let slave = shell.join().expect("it doesn't panic")?;
//! let account = master.into_end().join(slave)?.settle()?; // what both were told is what the pair's books say
//! assert_eq!(account.told.written.from_master, account.ms.written);
//! assert_eq!(account.told.read.from_master, 3);
//! # drop(workers);
//! # Ok(())
//! # }
//! ```
//!
//! An end is used by one thread at a time (`Send`, and neither `Sync` nor `Clone`): [`End::split`] and [`End::into_halves`] make one for another
//! thread. A call by an end returns at once, as one of [`Pair`](crate::Pair) does; [`End::wait`], [`Reader`] and [`Writer`] sleep. A call that is
//! refused hands back what it took ([`Kept`]).
//!
//! Nothing is lost by dropping: the last end of a side closes it, and the last end of a pair gives the pair back to its system, which is there until
//! all that was made of it is gone.
mod calls;
mod end;
mod ffi;
mod files;
mod ioctls;
mod system;
mod told;

pub use end::{End, LINGER};
pub use files::{Reader, Writer};
pub use system::{Claim, System, Workers, TERMINALS};
pub use told::{Account, Each, Kept, Share, Told};
