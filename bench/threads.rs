//! What a system of pairs is compared with: a `Mutex` round each pseudoterminal of `plain`, or round a plain queue of bytes. It makes the
//! loads of `strm_storm`, which stand on its standard input, a line each, and answers as that does.
//!
//!     threads pair|queue
#[allow(dead_code)] // the rounds of a byte use a part of it
mod plain;
use plain::Pair;
use std::collections::VecDeque;
use std::sync::{Mutex, MutexGuard};

/// What threads share: one pair, or one queue.
enum Shared {
    Pair(Box<Mutex<Pair>>),
    Queue(Mutex<VecDeque<u8>>),
}

fn locked<T>(lock: &Mutex<T>) -> MutexGuard<'_, T> {
    lock.lock().expect("no thread panics")
}

/// Makes the turn of the queue that was enabled first, if any.
fn turns(pair: &Mutex<Pair>) -> bool {
    let mut pair = locked(pair);
    pair.enabled().is_some_and(|place| pair.turn(place).is_ok())
}

impl Shared {
    fn new(of_pairs: bool, entries: usize) -> Shared {
        match of_pairs {
            true => {
                let mut pair = Pair::new(256, 0, 0);
                (pair.entries, pair.bytes) = (Vec::with_capacity(entries), Vec::with_capacity(entries * 8));
                Shared::Pair(Box::new(Mutex::new(pair)))
            }
            false => Shared::Queue(Mutex::new(VecDeque::with_capacity(4096))),
        }
    }

    /// A round: a byte is written, carried and read, each step under the lock. Whether the write and the read were granted.
    fn round(&self, out: &mut Vec<u8>) -> (bool, bool) {
        match self {
            Shared::Pair(pair) => {
                let wrote = locked(pair).write(0, b"z").is_ok();
                while turns(pair) {}
                (wrote, locked(pair).read(1, 1, out).is_ok())
            }
            Shared::Queue(queue) => {
                locked(queue).push_back(b'z');
                (true, locked(queue).pop_front().is_some())
            }
        }
    }

    /// Empties the journal, as a pair that is settled is made as new.
    fn begin(&self) {
        if let Shared::Pair(pair) = self {
            let mut pair = locked(pair);
            pair.entries.clear();
            pair.bytes.clear();
        }
    }
}

/// The rounds of a thread: how many bytes it wrote and read.
fn rounds(shared: &Shared, count: usize) -> [usize; 2] {
    let (mut told, mut out) = ([0; 2], Vec::with_capacity(4096));
    for _ in 0..count {
        let (wrote, read) = shared.round(&mut out);
        told = [told[0] + wrote as usize, told[1] + read as usize];
    }
    told
}

/// What a plan tells: how many calls were granted, and how many bytes were written and read.
fn run([pairs, threads, count, entries, warm]: [usize; 5], of_pairs: bool) -> [usize; 3] {
    let all: Vec<Shared> = (0..pairs).map(|_| Shared::new(of_pairs, entries)).collect();
    let mut told = [0; 3];
    for _ in 0..=warm {
        all.iter().for_each(Shared::begin);
        std::thread::scope(|scope| {
            let started: Vec<_> = all.iter().flat_map(|one| (0..threads).map(move |_| scope.spawn(move || rounds(one, count)))).collect();
            for thread in started {
                let [wrote, read] = thread.join().expect("no thread panics");
                told = [told[0] + wrote + read, told[1] + wrote, told[2] + read];
            }
        });
    }
    told
}

fn main() {
    let of_pairs = std::env::args().nth(1).as_deref() != Some("queue");
    for line in std::io::stdin().lines().map_while(Result::ok) {
        let numbers: Vec<usize> = line.split_whitespace().filter_map(|word| word.parse().ok()).collect();
        let told = run(numbers.try_into().expect("a plan has five numbers"), of_pairs);
        println!("{}", told.map(|n| n.to_string()).join(" "));
    }
}
