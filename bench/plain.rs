//! A pseudoterminal in plain Rust with no proof: what rounds use of blocks, queues with marks and bands, a line discipline, refusals, books, a journal.
mod blocks;
mod ioctls;
mod ldterm;
mod queues;
use blocks::{BLOCK, Kind, NONE, Pool};
use ioctls::Module;
use ldterm::{Line, plain};
pub use queues::Place;
use queues::{HEADS, LineRead, LineWrite, MasterDriver, MasterHead, PLACES, Queue, Queues, SlaveDriver, SlaveHead};
use std::mem::take;

const BOOK_END: u64 = 1 << 62;

#[derive(Clone, Copy, Debug, PartialEq)]
pub enum Refusal {
    Again,
    BadMessage,
    Full,
    Invalid,
    NoBlocks,
    Range,
}

fn unless(holds: bool, refusal: Refusal) -> Result<(), Refusal> {
    if holds { Ok(()) } else { Err(refusal) }
}

#[derive(Clone, Copy)]
pub enum Done {
    Write,
    Read,
    Putmsg,
    Getmsg,
    Ioctl,
    Moved,
    Blocked,
}

/// An entry of the journal: what was done, by which side or queue, and its numbers.
pub type Entry = (Done, u8, [u32; 4]);

pub struct Pair {
    pool: Pool,
    queues: Queues,
    first: Option<Place>,
    last: Place,
    lined: bool,
    raw: bool,
    pub entries: Vec<Entry>,
    pub bytes: Vec<u8>,
    written: [u64; 2],
    made: [u64; 2],
    read: [u64; 2],
    ioctls: u32,
    window: [u8; 8],
    line: Line,
    modules: &'static [Module],
}

impl Pair {
    /// A pair with both sides open. On side 1 stands nothing (0), or a line discipline in its first modes (1) or in raw mode (2).
    pub fn new(blocks: usize, entries: usize, stack: usize) -> Pair {
        Pair {
            pool: Pool::new(blocks),
            queues: Queues(PLACES.map(Queue::new)),
            first: None,
            last: MasterHead,
            lined: stack > 0,
            raw: stack != 1,
            entries: Vec::with_capacity(entries),
            bytes: Vec::with_capacity(entries * 4096),
            written: [0; 2],
            made: [0; 2],
            read: [0; 2],
            ioctls: 0,
            window: [0; 8],
            line: Line::default(),
            modules: if stack > 0 { &[Module::Ldterm, Module::Ptem] } else { &[] },
        }
    }

    fn note(&mut self, done: Done, by: usize, numbers: [usize; 4]) {
        self.entries.push((done, by as u8, numbers.map(|n| n as u32)));
    }

    /// What calls and turns are refused for before all else.
    fn allows(&self, bytes: usize, blocks: usize) -> Result<(), Refusal> {
        unless(self.written[0] | self.written[1] | self.made[0] | self.made[1] < BOOK_END, Refusal::Range)?;
        unless(self.entries.len() < self.entries.capacity() && bytes <= self.bytes.capacity() - self.bytes.len(), Refusal::Full)?;
        unless(self.pool.free >= blocks, Refusal::NoBlocks)
    }

    /// The queue that was enabled first.
    pub fn enabled(&self) -> Option<Place> {
        self.first
    }

    fn enable(&mut self, place: Place) {
        let queue = &mut self.queues[place];
        if queue.enabled {
            return;
        }
        (queue.enabled, queue.link) = (true, None);
        match self.first {
            None => self.first = Some(place),
            Some(_) => self.queues[self.last].link = Some(place),
        }
        self.last = place;
    }

    /// A queue that is enabled is so no more.
    fn disable(&mut self, place: Place) {
        self.queues[place].enabled = false;
        let after = self.queues[place].link;
        if self.first == Some(place) {
            self.first = after;
            return;
        }
        for before in PLACES {
            if self.queues[before].enabled && self.queues[before].link == Some(place) {
                self.queues[before].link = after;
                self.last = if self.last == place { before } else { self.last };
            }
        }
    }

    fn put(&mut self, place: Place, m: u32) {
        let queue = &mut self.queues[place];
        queue.put(&mut self.pool, m);
        if !place.is_head() && (queue.want_read || self.pool.head(m).band > 0) {
            self.enable(place);
        }
    }

    fn send(&mut self, place: Place, bytes: &[u8]) {
        let (front, rest) = bytes.split_at(bytes.len().min(BLOCK));
        let rest = rest.rchunks(BLOCK).fold(NONE, |cont, chunk| self.pool.alloc(Kind::Data, 0, chunk, cont));
        let m = self.pool.alloc(Kind::Data, 0, front, rest);
        self.put(place, m);
    }

    /// Enables the queue before one that was taken from, where it waits for room.
    fn back_enable(&mut self, place: Place) {
        if self.queues[place].waits && self.queues[place].lets_go() {
            let before = [MasterDriver, SlaveDriver, LineRead, LineWrite].into_iter().find(|before| before.behind(self.lined) == place);
            before.into_iter().for_each(|before| self.enable(before));
        }
    }

    /// The first queue below a head.
    fn top(&self, side: usize) -> Place {
        match side {
            0 => MasterDriver,
            _ if self.lined => LineWrite,
            _ => SlaveDriver,
        }
    }

    pub fn write(&mut self, side: usize, bytes: &[u8]) -> Result<usize, Refusal> {
        self.allows(bytes.len(), 32 + bytes.len().div_ceil(BLOCK).max(1))?;
        let (top, mut taken) = (self.top(side), 0);
        for chunk in bytes.chunks(BLOCK) {
            if self.queues[top].is_full(0) {
                break;
            }
            let m = self.pool.alloc(Kind::Data, 0, chunk, NONE);
            self.put(top, m);
            taken += chunk.len();
        }
        unless(taken > 0, Refusal::Again)?;
        self.written[side] += taken as u64;
        self.note(Done::Write, side, [bytes.len(), taken, 0, 0]);
        self.bytes.extend_from_slice(bytes);
        Ok(taken)
    }

    pub fn read(&mut self, side: usize, n: usize, out: &mut Vec<u8>) -> Result<(), Refusal> {
        let n = n.min(4096);
        self.allows(n, 0)?;
        let queue = &mut self.queues[HEADS[side]];
        let mut m = queue.first;
        unless(m != NONE, Refusal::Again)?;
        let mut head = self.pool.head(m);
        unless(head.kind == Kind::Data, Refusal::BadMessage)?;
        out.clear();
        loop {
            queue.take(head);
            let rest = self.pool.draw(m, Kind::Data, n, out);
            if rest != NONE {
                queue.insert(&mut self.pool, NONE, rest);
                break;
            }
            m = queue.first;
            if out.len() == n || m == NONE || side == 1 && !self.raw {
                break;
            }
            head = self.pool.head(m);
            if head.kind != Kind::Data {
                break;
            }
        }
        self.back_enable(HEADS[side]);
        self.read[side] += out.len() as u64;
        self.note(Done::Read, side, [n, 0, 0, out.len()]);
        self.bytes.extend_from_slice(out);
        Ok(())
    }

    pub fn putmsg(&mut self, side: usize, band: u8, control: &[u8], body: &[u8]) -> Result<(), Refusal> {
        unless(control.len() <= 64 && body.len() <= BLOCK, Refusal::Range)?;
        self.allows(control.len() + body.len(), 34)?;
        let top = self.top(side);
        unless(!self.queues[top].is_full(band), Refusal::Again)?;
        let data = self.pool.alloc(Kind::Data, band, body, NONE);
        let m = self.pool.alloc(Kind::Control, band, control, data);
        self.put(top, m);
        self.written[side] += (control.len() + body.len()) as u64;
        self.note(Done::Putmsg, side, [control.len(), body.len(), 0, 0]);
        self.bytes.extend_from_slice(control);
        self.bytes.extend_from_slice(body);
        Ok(())
    }

    pub fn getmsg(&mut self, side: usize, cmax: usize, dmax: usize, out: &mut Vec<u8>) -> Result<(), Refusal> {
        self.allows(cmax.min(4096) + dmax.min(4096), 0)?;
        let queue = &mut self.queues[HEADS[side]];
        let first = queue.first;
        unless(first != NONE, Refusal::Again)?;
        queue.take(self.pool.head(first));
        out.clear();
        let behind = self.pool.draw(first, Kind::Control, cmax.min(4096), out);
        let control = out.len();
        let rest = self.pool.draw(behind, Kind::Data, control + dmax.min(4096), out);
        if rest != NONE {
            queue.insert(&mut self.pool, NONE, rest);
        }
        self.back_enable(HEADS[side]);
        self.read[side] += out.len() as u64;
        self.note(Done::Getmsg, side, [cmax, dmax, control, out.len()]);
        self.bytes.extend_from_slice(out);
        Ok(())
    }

    /// A turn of an enabled queue: its first message goes on, where there is room behind.
    pub fn turn(&mut self, place: Place) -> Result<(), Refusal> {
        unless(self.queues[place].enabled, Refusal::Invalid)?;
        self.allows(0, if place.is_driver() { 8 } else { 32 })?;
        self.disable(place);
        let m = self.queues[place].first;
        let head = self.pool.head(m);
        let behind = &mut self.queues[place.behind(self.lined)];
        if behind.is_full(head.band) {
            behind.waits = true;
            behind.want_write[head.band as usize / 64] |= 1 << (head.band % 64);
            self.queues[place].want_read = false;
            self.note(Done::Blocked, place as usize, [0; 4]);
            return Ok(());
        }
        self.queues[place].take(head);
        self.serve(place, m, head.kind);
        self.back_enable(place);
        self.queues[place].want_read = self.queues[place].first == NONE;
        if self.queues[place].first != NONE {
            self.enable(place);
        }
        self.note(Done::Moved, place as usize, [head.size as usize, 0, 0, 0]);
        Ok(())
    }

    /// What a queue's turn does with the message that it took.
    fn serve(&mut self, place: Place, m: u32, kind: Kind) {
        if place.is_driver() || self.raw || kind != Kind::Data {
            return self.put(place.behind(self.lined), m);
        }
        let [mut text, mut made] = take(&mut self.line.scratch);
        self.pool.draw(m, Kind::Data, usize::MAX, &mut text);
        match place {
            LineRead => self.types(&text, &mut made),
            _ => self.line.shows(&text, &mut made),
        }
        self.made[1] += made.len() as u64;
        self.send(if place == LineRead { LineWrite } else { SlaveDriver }, &made);
        text.clear();
        made.clear();
        self.line.scratch = [text, made];
    }

    /// What the line discipline does with bytes that are typed, and what it echoes.
    fn types(&mut self, mut text: &[u8], echo: &mut Vec<u8>) {
        while let Some(&byte) = text.first() {
            let plain = plain(&text[..text.len().min(255 - self.line.typed.len())]);
            self.line.typed.extend_from_slice(&text[..plain]);
            echo.extend_from_slice(&text[..plain]);
            if plain == 0 {
                self.strikes(byte, echo);
            }
            text = &text[plain.max(1)..];
        }
    }

    /// What a byte does that isn't plain: it ends the line (NL, CR, EOF), takes bytes away (ERASE, KILL), or is a control character.
    fn strikes(&mut self, byte: u8, echo: &mut Vec<u8>) {
        match byte {
            b'\r' | b'\n' | 0x04 => {
                let mut typed = take(&mut self.line.typed);
                if byte != 0x04 {
                    typed.push(b'\n');
                    echo.push(b'\n');
                }
                self.send(SlaveHead, &typed);
                typed.clear();
                self.line.typed = typed;
            }
            0x7f | 0x15 => {
                let keeps = if byte == 0x15 { 0 } else { self.line.typed.len().saturating_sub(1) };
                let widths = self.line.typed.drain(keeps..).map(|byte| 1 + byte.is_ascii_control() as usize);
                echo.extend(b"\x08 \x08".repeat(widths.sum()));
            }
            _ if self.line.typed.len() == 255 => echo.push(0x07),
            _ => {
                self.line.typed.push(byte);
                echo.extend_from_slice(&[b'^', byte ^ 0x40]);
            }
        }
    }
}
