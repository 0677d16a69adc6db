//! Sessions of any calls: the books balance, the journal is made again answer by answer, and the image makes the same pair.
use strm::{Call, Caller, Command, Event, Flush, Mode, Module, Pair, Priority, Queue, Side, Sizes, Wanted, When, Winsize};

const KEYS: &[u8] = b"ab \r\n\t\x7f\x15\x17\x03\x04\x11\x13\x12\x16\x1a\xc3";

/// Numbers by a rule of Knuth's.
struct Chance(u64);

impl Chance {
    fn below(&mut self, n: usize) -> usize {
        self.0 = self.0.wrapping_mul(6_364_136_223_846_793_005).wrapping_add(1_442_695_040_888_963_407);
        (self.0 >> 33) as usize % n
    }

    fn of<T: Clone>(&mut self, all: &[T]) -> T {
        all[self.below(all.len())].clone()
    }

    fn keys(&mut self, most: usize) -> Vec<u8> {
        (0..self.below(most + 1)).map(|_| self.of(KEYS)).collect()
    }

    fn caller(&mut self) -> Caller {
        match self.below(4) {
            0 => Caller { group: self.below(3) as u32, ignores: self.below(2) == 1, orphaned: self.below(2) == 1 },
            _ => Caller::NOBODY,
        }
    }

    fn part(&mut self, most: usize) -> Option<Vec<u8>> {
        (self.below(3) > 0).then(|| self.keys(most))
    }

    fn event(&mut self) -> Event {
        match self.below(22) {
            0..=5 => Event::Write(self.keys(40)),
            6..=9 => Event::Read(self.of(&[1, 7, 4096])),
            10 => Event::Put(self.of(&[Priority::Band(0), Priority::Band(3), Priority::High]), self.part(5), self.part(60)),
            11 => Event::Get(self.of(&[Wanted::Any, Wanted::High, Wanted::Band(2)]), self.below(9) as u32, self.below(99) as u32),
            12 => Event::Flush(self.of(&[Flush::Read, Flush::Write, Flush::Both]), self.of(&[None, Some(0), Some(3)])),
            13 => Event::Mode(self.of(&[Mode::Norm, Mode::Msgd, Mode::Msgn, Mode::ProtNorm, Mode::ProtDat, Mode::ProtDis])),
            14 => Event::Signals,
            15 => Event::Nread,
            16 => Event::Look,
            17 => Event::Push(self.of(&[Module::Ldterm, Module::Ptem, Module::Pckt])),
            18 => Event::Pop,
            19 => Event::Ioctl(Command(self.below(11) as u32), self.of(&[vec![], vec![0, 0, 0, 1], Winsize::new(3, 4).to_wire().to_vec()])),
            20 => Event::IoctlResult(self.below(9) as u32),
            _ => self.of(&[Event::Close, Event::OpenSlave, Event::Nread, Event::Look, Event::Signals]),
        }
    }

    /// Makes some call, turn, or all turns. Refusals are of interest to nobody.
    fn makes(&mut self, pair: &mut Pair) {
        let side = self.of(&[Side::Master, Side::Slave]);
        match self.below(8) {
            0 => drop(pair.turn(self.of(&Queue::ALL))),
            1 | 2 => drop(pair.runqueues()),
            3 => {
                if let Ok(modes) = pair.tcgetattr(side) {
                    let modes = self.of(&[modes, modes.raw()]);
                    let _ = pair.tcsetattr(side, self.of(&[When::Now, When::Drain, When::Flush]), &modes);
                }
            }
            _ => drop(pair.call(&Call { side, caller: self.caller(), event: self.event() })),
        }
    }
}

#[test]
fn any_session_balances_replays_and_goes_on() -> Result<(), strm::Refused> {
    for seed in 1..=100 {
        let mut chance = Chance(seed);
        let sizes = Sizes { blocks: chance.of(&[40, 64, 256]), entries: 1 << 16, bytes: 1 << 20 };
        let (mut pair, mut again) = (Pair::new(sizes)?, Pair::new(sizes)?);
        pair.keeps = true;
        pair.open_terminal()?;
        for _ in 0..150 {
            chance.makes(&mut pair);
        }
        assert!(pair.ledger(Side::Master)?.balance() && pair.ledger(Side::Slave)?.balance(), "seed {seed}");
        for entry in pair.entries()? {
            assert_eq!(again.repeat(&entry), Ok(entry), "seed {seed}");
        }
        let image = pair.image()?;
        assert_eq!((again.image()?, again.enabled()), (image.clone(), pair.enabled()), "seed {seed}");
        assert_eq!(Pair::restore(Sizes::default(), &image)?.image()?, image, "seed {seed}");
    }
    Ok(())
}
