//! What a pair is compared with: the pseudoterminal of `plain`, or the buffers of `floor`. It makes the plans of `strm_bench`, which stand on its
//! standard input, a line each, and answers as that does; act 10 is TIOCGWINSZ answered in its place, and
//! act 11 a message in each of as many bands as are asked for.
//!
//!     baseline [floor]
mod floor;
mod plain;
use floor::Floor;
use plain::{Pair, Refusal};

/// What makes the calls and turns of rounds. Side 0 is the master, and side 1 the slave, on whose stream stands a line discipline or nothing.
pub trait Peer {
    type Turn: Copy;

    /// As many blocks, entries of the journal, what stands on the slave's stream, and how long its lines are.
    fn new(blocks: usize, entries: usize, stack: usize, line: usize) -> Self;
    fn enabled(&self) -> Option<Self::Turn>;
    fn turn(&mut self, which: Self::Turn) -> Result<(), Refusal>;
    fn write(&mut self, side: usize, bytes: &[u8]) -> Result<usize, Refusal>;
    fn read(&mut self, side: usize, n: usize, out: &mut Vec<u8>) -> Result<(), Refusal>;
    fn putmsg(&mut self, band: u8, control: &[u8], body: &[u8]) -> Result<(), Refusal>;
    fn getmsg(&mut self, cmax: usize, dmax: usize, out: &mut Vec<u8>) -> Result<(), Refusal>;
    fn window_size(&mut self, in_place: bool, out: &mut Vec<u8>) -> Result<(), Refusal>;
    /// How many entries and bytes the journal has.
    fn journal(&self) -> [usize; 2];
    fn restart(&mut self);
}

impl Peer for Pair {
    type Turn = plain::Place;

    fn new(blocks: usize, entries: usize, stack: usize, _: usize) -> Pair {
        Pair::new(blocks, entries, stack)
    }

    fn enabled(&self) -> Option<Self::Turn> {
        self.enabled()
    }

    fn turn(&mut self, which: Self::Turn) -> Result<(), Refusal> {
        self.turn(which)
    }

    fn write(&mut self, side: usize, bytes: &[u8]) -> Result<usize, Refusal> {
        self.write(side, bytes)
    }

    fn read(&mut self, side: usize, n: usize, out: &mut Vec<u8>) -> Result<(), Refusal> {
        self.read(side, n, out)
    }

    fn putmsg(&mut self, band: u8, control: &[u8], body: &[u8]) -> Result<(), Refusal> {
        self.putmsg(0, band, control, body)
    }

    fn getmsg(&mut self, cmax: usize, dmax: usize, out: &mut Vec<u8>) -> Result<(), Refusal> {
        self.getmsg(1, cmax, dmax, out)
    }

    fn window_size(&mut self, in_place: bool, out: &mut Vec<u8>) -> Result<(), Refusal> {
        if in_place { self.window_size_in_place(out) } else { self.window_size(out) }
    }

    fn journal(&self) -> [usize; 2] {
        [self.entries.len(), self.bytes.len()]
    }

    fn restart(&mut self) {
        self.entries.clear();
        self.bytes.clear();
    }
}

/// The text that a round writes: letters, ESC, or coloured words, with a newline at the end of each of its lines.
fn text_of(text: usize, line: usize, size: usize) -> Vec<u8> {
    let unit: &[u8] = [&b"z"[..], b"\x1b", b"\x1b[01;34msrc\x1b[0m  "][text];
    let byte = |i| if line > 0 && i % line == line - 1 { b'\n' } else { unit[i % unit.len()] };
    (0..size).map(byte).collect()
}

fn turns<P: Peer>(pair: &mut P) -> Result<(), Refusal> {
    while let Some(which) = pair.enabled() {
        pair.turn(which)?;
    }
    Ok(())
}

/// A round of an act, of those that a plan counts from 0, and how many of the bytes asked for were read.
fn round<P: Peer>(pair: &mut P, act: usize, text: &[u8], asked: usize, out: &mut Vec<u8>) -> Result<usize, Refusal> {
    let (writer, reader) = match act {
        0 | 1 => (0, 1),
        2 => (0, 0),
        3 => (1, 0),
        11 => return bands(pair, text, asked, out),
        5 | 10 => return pair.window_size(act == 10, out).map(|()| out.len()),
        _ => {
            pair.putmsg(if act == 6 { 200 } else { 0 }, b"head", text)?;
            turns(pair)?;
            return pair.getmsg(64, 256, out).map(|()| out.len());
        }
    };
    let (mut rest, mut left) = (text, asked);
    while !rest.is_empty() {
        rest = &rest[pair.write(writer, rest)?..];
        turns(pair)?;
        while left > 0 && pair.read(reader, left, out).is_ok() {
            left -= out.len();
        }
        if act == 1 {
            pair.read(writer, 4096, out)?;
        }
        turns(pair)?;
    }
    Ok(asked - left)
}

/// A message in each of so many bands from the lowest on, which are then taken.
fn bands<P: Peer>(pair: &mut P, text: &[u8], count: usize, out: &mut Vec<u8>) -> Result<usize, Refusal> {
    for band in 1..=count {
        pair.putmsg(band as u8, b"head", text)?;
        turns(pair)?;
    }
    for _ in 0..count {
        pair.getmsg(64, 256, out)?;
    }
    Ok(count)
}

/// What a plan tells: how many bytes were read, and how many entries and bytes the last pair's journal has.
fn run<P: Peer>(plan: [usize; 13]) -> Result<[usize; 3], Refusal> {
    let [pairs, rounds, standing, blocks, entries, warm, _, act, stack, text, line, size, asked] = plan;
    let text = text_of(text, line, size);
    let (mut told, mut out) = ([0; 3], Vec::with_capacity(8192));
    for _ in 0..pairs {
        let mut pair = P::new(blocks, entries, stack, line);
        for _ in 0..standing {
            pair.write(0, b"z").and_then(|_| turns(&mut pair))?;
        }
        for time in 0..=warm {
            if time > 0 {
                pair.restart();
            }
            for _ in 0..rounds {
                told[0] += round(&mut pair, act, &text, asked, &mut out)?;
            }
        }
        let [entries, bytes] = pair.journal();
        told = [told[0], entries, bytes];
    }
    Ok(told)
}

fn main() {
    let run = if std::env::args().nth(1).as_deref() == Some("floor") { run::<Floor> } else { run::<Pair> };
    for line in std::io::stdin().lines().map_while(Result::ok) {
        let numbers: Vec<usize> = line.split_whitespace().filter_map(|word| word.parse().ok()).collect();
        let told = run(numbers.try_into().expect("a plan has thirteen numbers"));
        println!("{}", told.map_or_else(|refusal| format!("refused {refusal:?}"), |told| told.map(|n| n.to_string()).join(" ")));
    }
}
