//! TIOCGWINSZ from the slave: carried through the modules of its stream, and answered in its place.
use super::blocks::{BLOCK, Block, Kind, NONE};
use super::queues::LineWrite;
use super::{Done, Pair, Refusal, unless};

const TIOCGWINSZ: u32 = 5;

/// A module of the slave's stream, below its head.
#[derive(Clone, Copy)]
pub enum Module {
    Ldterm,
    Ptem,
}

/// What a put procedure does with a message: it goes on by putnext(9F), or comes back by qreply(9F).
enum Put {
    On,
    Back,
}

impl Pair {
    /// The next ioctl's number, and its M_IOCTL: a block with the command and the number, in front of others.
    fn make_ioctl(&mut self, cont: u32) -> u32 {
        self.ioctls += 1;
        let header = [TIOCGWINSZ, self.ioctls, 0, 0].map(u32::to_be_bytes);
        self.pool.alloc(Kind::Ioctl, 0, header.as_flattened(), cont)
    }

    /// Hands out the bytes of an answer, whose first block has the command and the number that were sent.
    fn tell_ioctl(&mut self, m: u32, kind: Kind, out: &mut Vec<u8>) -> Result<(), Refusal> {
        let sent = [TIOCGWINSZ, self.ioctls].map(u32::to_be_bytes);
        let Block { head, bytes } = &self.pool.blocks[m as usize];
        let (known, data) = (head.kind == kind && bytes[..8] == *sent.as_flattened(), head.cont);
        self.pool.release(m);
        out.clear();
        self.pool.draw(data, Kind::Data, BLOCK, out);
        unless(known, Refusal::Invalid)?;
        self.note(Done::Ioctl, 1, [TIOCGWINSZ as usize, 0, 0, out.len()]);
        self.bytes.extend_from_slice(out);
        Ok(())
    }

    /// TIOCGWINSZ, where no output stands: a message goes down from module to module, and what one of them answers comes up to the head.
    pub fn window_size(&mut self, out: &mut Vec<u8>) -> Result<(), Refusal> {
        unless(self.ioctls < u32::MAX - 1, Refusal::Range)?;
        self.allows(BLOCK, 34)?;
        unless(self.queues[LineWrite].first == NONE, Refusal::Again)?;
        let m = self.make_ioctl(NONE);
        self.carry(m);
        self.tell_ioctl(m, Kind::Ack, out)
    }

    /// The same, answered in its place.
    pub fn window_size_in_place(&mut self, out: &mut Vec<u8>) -> Result<(), Refusal> {
        unless(self.ioctls < u32::MAX - 1, Refusal::Range)?;
        self.allows(BLOCK, 34)?;
        let data = self.pool.alloc(Kind::Data, 0, &self.window, NONE);
        let m = self.make_ioctl(data);
        self.tell_ioctl(m, Kind::Ioctl, out)
    }

    /// Puts a message to the module on top of the slave's stream, and from module to module, till it comes to the head.
    fn carry(&mut self, m: u32) {
        let (mut at, mut down) = (0, true);
        loop {
            let put = match self.modules.get(at) {
                Some(Module::Ldterm) => Put::On,
                Some(Module::Ptem) => self.put_to_ptem(m),
                None => self.put_to_driver(m),
            };
            if let Put::Back = put {
                down = !down;
            }
            if !down && at == 0 {
                return;
            }
            at = if down { at + 1 } else { at - 1 };
        }
    }

    /// ptem(7M) answers with the size of the window; ldterm(7M) lets pass what isn't its own.
    fn put_to_ptem(&mut self, m: u32) -> Put {
        let head = self.pool.head(m);
        if head.kind != Kind::Ioctl || self.pool.blocks[m as usize].bytes[..4] != TIOCGWINSZ.to_be_bytes() {
            return Put::On;
        }
        let data = self.pool.alloc(Kind::Data, 0, &self.window, NONE);
        let block = &mut self.pool.blocks[m as usize];
        block.bytes[12..16].copy_from_slice(&8u32.to_be_bytes());
        (block.head.kind, block.head.cont, block.head.size) = (Kind::Ack, data, head.size + 8);
        Put::Back
    }

    /// A driver refuses an ioctl that no module above it answered.
    fn put_to_driver(&mut self, m: u32) -> Put {
        self.pool.blocks[m as usize].head.kind = Kind::Nak;
        Put::Back
    }
}
