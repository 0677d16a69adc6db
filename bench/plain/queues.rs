//! Queues with marks and bands.
use super::blocks::{Head, NONE, Pool};
use std::ops::{Index, IndexMut};

/// The queues: the heads' read queues, the drivers' write queues, and the two of the line discipline.
#[derive(Clone, Copy, PartialEq)]
pub enum Place {
    MasterHead,
    SlaveHead,
    MasterDriver,
    SlaveDriver,
    LineRead,
    LineWrite,
}

pub use Place::{LineRead, LineWrite, MasterDriver, MasterHead, SlaveDriver, SlaveHead};

pub const PLACES: [Place; 6] = [MasterHead, SlaveHead, MasterDriver, SlaveDriver, LineRead, LineWrite];
pub const HEADS: [Place; 2] = [MasterHead, SlaveHead];

impl Place {
    /// Where a queue's messages go, without a line discipline on the slave's stream or with one.
    pub fn behind(self, lined: bool) -> Place {
        match self {
            MasterDriver if lined => LineRead,
            MasterDriver | LineRead => SlaveHead,
            LineWrite => SlaveDriver,
            _ => MasterHead,
        }
    }

    pub fn is_head(self) -> bool {
        matches!(self, MasterHead | SlaveHead)
    }

    pub fn is_driver(self) -> bool {
        matches!(self, MasterDriver | SlaveDriver)
    }
}

pub struct Queue {
    pub first: u32,
    last: u32,
    high: u32,
    low: u32,
    counts: Vec<u32>,
    pub enabled: bool,
    pub link: Option<Place>,
    pub want_read: bool,
    pub waits: bool,
    pub want_write: [u64; 4],
}

impl Queue {
    pub fn new(place: Place) -> Queue {
        let (high, low) = if place.is_head() { (5120, 1024) } else { (512, 128) };
        Queue {
            first: NONE,
            last: NONE,
            high,
            low,
            counts: vec![0; 256],
            enabled: false,
            link: None,
            want_read: true,
            waits: false,
            want_write: [0; 4],
        }
    }

    pub fn is_full(&self, band: u8) -> bool {
        self.counts[band as usize] >= self.high
    }

    /// putq(9F): behind all of at least its band. Where nothing stands the last message is of no account.
    pub fn put(&mut self, pool: &mut Pool, m: u32) {
        let band = pool.head(m).band;
        let mut prev = NONE;
        if self.first != NONE && pool.head(self.last).band >= band {
            prev = self.last;
        } else if self.first != NONE {
            let mut next = self.first;
            while pool.head(next).band >= band {
                (prev, next) = (next, pool.head(next).next);
            }
        }
        self.insert(pool, prev, m);
    }

    /// Puts a message behind another, or in front of all.
    pub fn insert(&mut self, pool: &mut Pool, prev: u32, m: u32) {
        let link = if prev == NONE { &mut self.first } else { &mut pool.blocks[prev as usize].head.next };
        let next = *link;
        *link = m;
        let head = &mut pool.blocks[m as usize].head;
        head.next = next;
        self.counts[head.band as usize] += head.size as u32;
        if next == NONE {
            self.last = m;
        }
    }

    /// getq(9F) of the first message, whose first block is this.
    pub fn take(&mut self, Head { next, band, size, .. }: Head) {
        (self.first, self.want_read) = (next, false);
        self.counts[band as usize] -= size as u32;
    }

    /// Forgets the bands that a queue before waited for, and that have room; whether there were any.
    pub fn lets_go(&mut self) -> bool {
        let mut went = false;
        self.waits = false;
        for (word, waits) in self.want_write.iter_mut().enumerate().filter(|(_, waits)| **waits != 0) {
            let counts = &self.counts[word * 64..];
            let go: u64 = (0..64).filter(|bit| *waits >> bit & 1 == 1 && counts[*bit] <= self.low).map(|bit| 1 << bit).sum();
            *waits &= !go;
            went |= go != 0;
            self.waits |= *waits != 0;
        }
        went
    }
}

pub struct Queues(pub [Queue; 6]);

impl Index<Place> for Queues {
    type Output = Queue;
    fn index(&self, place: Place) -> &Queue {
        &self.0[place as usize]
    }
}

impl IndexMut<Place> for Queues {
    fn index_mut(&mut self, place: Place) -> &mut Queue {
        &mut self.0[place as usize]
    }
}
