//! The floor: what bytes cost that go from buffer to buffer by turns, with a journal of the calls and turns, and nothing else. There are no
//! messages, bands, books or refusals but EAGAIN, and no byte is looked at: so NL stays NL.
use crate::Peer;
use crate::plain::Refusal;

const ROOM: usize = 16384;

/// The most bytes of a turn: those of a message and of its control part.
const TURN: usize = 256 + 64;

/// Bytes in the order in which they came; where none stands they begin at the front again.
struct Buffer {
    bytes: Vec<u8>,
    from: usize,
    to: usize,
}

impl Buffer {
    fn new() -> Buffer {
        Buffer { bytes: vec![0; ROOM], from: 0, to: 0 }
    }

    fn size(&self) -> usize {
        self.to - self.from
    }

    fn put(&mut self, bytes: &[u8]) {
        if bytes.len() > ROOM - self.to {
            self.bytes.copy_within(self.from..self.to, 0);
            (self.from, self.to) = (0, self.size());
        }
        self.bytes[self.to..self.to + bytes.len()].copy_from_slice(bytes);
        self.to += bytes.len();
    }

    /// Takes the first of its bytes, so many or all.
    fn take(&mut self, n: usize) -> &[u8] {
        let (from, to) = (self.from, self.to.min(self.from + n));
        (self.from, self.to) = if to == self.to { (0, 0) } else { (to, self.to) };
        &self.bytes[from..to]
    }
}

/// Where bytes stand: to be read by the master and the slave, below the master, and below the slave and in a line discipline on its stream.
const MASTER_BELOW: usize = 2;
const SLAVE_BELOW: usize = 3;
const LINE_READ: usize = 4;
const LINE_WRITE: usize = 5;

pub struct Floor {
    buffers: [Buffer; 6],
    enabled: u8,
    entries: Vec<(u8, u8, [u32; 4])>,
    bytes: Vec<u8>,
    lined: bool,
    echoes: bool,
    line: usize,
}

impl Floor {
    fn note(&mut self, done: u8, by: usize, numbers: [usize; 2], bytes: &[u8]) {
        self.entries.push((done, by as u8, [numbers[0] as u32, numbers[1] as u32, 0, 0]));
        self.bytes.extend_from_slice(bytes);
    }

    /// Copies the first bytes of a buffer to another, which is enabled where a turn carries on what it has.
    fn copy(&mut self, from: usize, to: usize, n: usize) {
        let Ok([from, next]) = self.buffers.get_disjoint_mut([from, to]) else {
            return;
        };
        if n > ROOM - next.size() {
            next.take(ROOM / 2); // a line that nobody reads makes room for others
        }
        next.put(&from.bytes[from.from..from.from + n]);
        if to >= MASTER_BELOW {
            self.enabled |= 1 << to;
        }
    }

    /// Takes at most so many bytes that are to be read.
    fn gives(&mut self, side: usize, n: usize, out: &mut Vec<u8>) -> Result<(), Refusal> {
        let got = self.buffers[side].take(n);
        if got.is_empty() {
            return Err(Refusal::Again);
        }
        out.clear();
        out.extend_from_slice(got);
        self.entries.push((1, side as u8, [n as u32, got.len() as u32, 0, 0]));
        self.bytes.extend_from_slice(out);
        Ok(())
    }
}

impl Peer for Floor {
    type Turn = usize;

    fn new(_: usize, entries: usize, stack: usize, line: usize) -> Floor {
        Floor {
            buffers: [(); 6].map(|()| Buffer::new()),
            enabled: 0,
            entries: Vec::with_capacity(entries),
            bytes: Vec::with_capacity(entries * 4096),
            lined: stack > 0,
            echoes: stack == 1,
            line: if stack == 1 && line > 0 { line } else { ROOM },
        }
    }

    fn enabled(&self) -> Option<usize> {
        (self.enabled != 0).then(|| self.enabled.trailing_zeros() as usize)
    }

    /// Bytes of a buffer go to the next, those that are typed to their echo too.
    fn turn(&mut self, at: usize) -> Result<(), Refusal> {
        let next = match at {
            MASTER_BELOW if self.lined => LINE_READ,
            MASTER_BELOW | LINE_READ => 1,
            LINE_WRITE => SLAVE_BELOW,
            _ => 0,
        };
        let n = self.buffers[at].size().min(TURN);
        if at == LINE_READ && self.echoes {
            self.copy(at, LINE_WRITE, n);
        }
        self.copy(at, next, n);
        self.buffers[at].take(n);
        if self.buffers[at].size() == 0 {
            self.enabled &= !(1 << at);
        }
        self.note(2, at, [n, 0], &[]);
        Ok(())
    }

    fn write(&mut self, side: usize, bytes: &[u8]) -> Result<usize, Refusal> {
        let top = match side {
            0 => MASTER_BELOW,
            _ if self.lined => LINE_WRITE,
            _ => SLAVE_BELOW,
        };
        let taken = bytes.len().min(512_usize.saturating_sub(self.buffers[top].size()));
        if taken == 0 {
            return Err(Refusal::Again);
        }
        self.buffers[top].put(&bytes[..taken]);
        self.enabled |= 1 << top;
        self.note(0, side, [bytes.len(), taken], bytes);
        Ok(taken)
    }

    fn read(&mut self, side: usize, n: usize, out: &mut Vec<u8>) -> Result<(), Refusal> {
        let most = if side == 1 { self.line } else { ROOM };
        self.gives(side, n.min(4096).min(most), out)
    }

    fn putmsg(&mut self, _: u8, control: &[u8], body: &[u8]) -> Result<(), Refusal> {
        self.buffers[MASTER_BELOW].put(control);
        self.buffers[MASTER_BELOW].put(body);
        self.enabled |= 1 << MASTER_BELOW;
        self.note(3, 0, [control.len(), body.len()], control);
        self.bytes.extend_from_slice(body);
        Ok(())
    }

    fn getmsg(&mut self, cmax: usize, dmax: usize, out: &mut Vec<u8>) -> Result<(), Refusal> {
        self.gives(1, cmax + dmax, out)
    }

    fn window_size(&mut self, _: bool, out: &mut Vec<u8>) -> Result<(), Refusal> {
        out.clear();
        out.extend_from_slice(&[0; 8]);
        self.note(4, 1, [8, 0], out);
        Ok(())
    }

    fn journal(&self) -> [usize; 2] {
        [self.entries.len(), self.bytes.len()]
    }

    fn restart(&mut self) {
        self.entries.clear();
        self.bytes.clear();
    }
}
