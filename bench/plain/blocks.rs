//! Message blocks, and the pool that they come from.

pub const NONE: u32 = u32::MAX;
pub const BLOCK: usize = 256;

#[derive(Clone, Copy, PartialEq)]
pub enum Kind {
    Data,
    Control,
    Ioctl,
    Ack,
    Nak,
}

/// A message block: the message behind its own on a queue, the block behind it in its message, how many bytes it and those behind it have, and
/// where its own begin and end.
#[derive(Clone, Copy)]
pub struct Head {
    pub next: u32,
    pub cont: u32,
    pub size: u16,
    pub from: u16,
    pub to: u16,
    pub kind: Kind,
    pub band: u8,
}

pub struct Block {
    pub head: Head,
    pub bytes: [u8; BLOCK],
}

/// Blocks, made as they are first used; those that came back are a list.
pub struct Pool {
    pub blocks: Vec<Block>,
    back: u32,
    pub free: usize,
}

impl Pool {
    pub fn new(n: usize) -> Pool {
        Pool { blocks: Vec::with_capacity(n), back: NONE, free: n }
    }

    pub fn head(&self, m: u32) -> Head {
        self.blocks[m as usize].head
    }

    /// allocb(9F), where a block is free: a message of one block in front of others.
    pub fn alloc(&mut self, kind: Kind, band: u8, bytes: &[u8], cont: u32) -> u32 {
        let behind = if cont == NONE { 0 } else { self.head(cont).size };
        let head = Head { next: NONE, cont, size: behind + bytes.len() as u16, from: 0, to: bytes.len() as u16, kind, band };
        self.free = self.free.checked_sub(1).expect("every call asks for its blocks");
        let m = self.back;
        if let Some(block) = self.blocks.get_mut(m as usize) {
            self.back = block.head.next;
            block.head = head;
            block.bytes[..bytes.len()].copy_from_slice(bytes);
            return m;
        }
        let mut block = Block { head, bytes: [0; BLOCK] };
        block.bytes[..bytes.len()].copy_from_slice(bytes);
        self.blocks.push(block);
        self.blocks.len() as u32 - 1
    }

    pub fn release(&mut self, m: u32) {
        self.blocks[m as usize].head.next = self.back;
        self.back = m;
        self.free += 1;
    }

    /// Moves bytes of one kind off a message's front till a buffer has so many; the rest of it.
    pub fn draw(&mut self, mut m: u32, kind: Kind, most: usize, out: &mut Vec<u8>) -> u32 {
        while let Some(Block { head, bytes }) = self.blocks.get_mut(m as usize) {
            let room = most - out.len();
            if room == 0 || head.kind != kind {
                break;
            }
            let own = &bytes[head.from as usize..head.to as usize];
            if own.len() > room {
                out.extend_from_slice(&own[..room]);
                (head.from, head.size) = (head.from + room as u16, head.size - room as u16);
                break;
            }
            out.extend_from_slice(own);
            let cont = head.cont;
            self.release(m);
            m = cont;
        }
        m
    }
}
