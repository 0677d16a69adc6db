//! How large a pair is made.

/// So many blocks of each kind that bytes typed and written on a terminal are stopped by flow control, and never by its pool, whatever is read
/// or isn't. A pair costs the memory that it touches, so this costs addresses alone.
pub const TERMINAL_BLOCKS: usize = 12_900;

/// So many of [`TERMINAL_BLOCKS`] in reserve, which neither side takes from the other ([`Choices`]).
pub const TERMINAL_RESERVE: usize = 4096;

/// So many turns one run of the library makes of a pair whose journal begins anew.
pub const RUN_MOST: usize = 65_536;

/// The most bytes that one write takes; the rest is written behind them.
pub const WRITE_MOST: usize = 1024;

/// The most bytes that one read gives, and each part of a get.
pub const READ_MOST: usize = 4096;

/// The pool of blocks and the room of the journal, of [`Pair::new`](crate::Pair::new) and [`Pair::restore`](crate::Pair::restore). As a default so
/// many as a terminal wants, with a journal of 8192 entries and 256 KiB.
#[derive(Clone, Copy, Debug, PartialEq, Eq)]
pub struct Sizes {
    /// Blocks of each kind: 1 to 65,536, of which a write wants 32 free and one for each begun 256 bytes.
    pub blocks: usize,
    /// Entries of the journal.
    pub entries: usize,
    /// Bytes of the journal's calls and answers.
    pub bytes: usize,
}

impl Default for Sizes {
    fn default() -> Sizes {
        Sizes { blocks: TERMINAL_BLOCKS, entries: 8192, bytes: 262_144 }
    }
}

/// What a pair is made of, by [`Pair::new_with`](crate::Pair::new_with) and [`Pair::restore_with`](crate::Pair::restore_with). As a default a terminal
/// that goes on whatever one end does.
#[derive(Clone, Copy, Debug, PartialEq, Eq)]
pub struct Choices {
    /// Its pool, and the room of its journal.
    pub sizes: Sizes,
    /// So many blocks of each kind that neither side takes from the other: a write, a put or an ioctl is EAGAIN where fewer are free than the reserve
    /// and what it asks for, and 64 messages that its side sent wait on a queue.
    pub reserve: usize,
    /// Whether the library begins a full journal anew: no call is refused for it, and nobody is handed its entries.
    pub anew: bool,
}

impl Default for Choices {
    fn default() -> Choices {
        let sizes = Sizes { blocks: TERMINAL_BLOCKS, entries: 64, bytes: 16_384 };
        Choices { sizes, reserve: TERMINAL_RESERVE, anew: true }
    }
}
