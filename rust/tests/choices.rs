//! Pairs of chosen reserves and journals: one that begins anew, and blocks that neither side takes from the other.
use strm::{Choices, Cursor, Module, Pair, Refusal, Refused, Side, Signal, Sizes, RUN_MOST};

const SMALL: Choices = Choices { sizes: Sizes { blocks: 1024, entries: 1, bytes: 8192 }, reserve: 256, anew: true };

fn name<T>(made: Result<T, Refused>) -> String {
    made.err().map_or_else(String::new, |refused| refused.to_string())
}

fn is_einval<T>(made: Result<T, Refused>) -> bool {
    matches!(made, Err(Refused::Call(Refusal::Einval)))
}

#[test]
fn choices_fit() {
    let small = |change: fn(&mut Choices)| {
        let mut choices = SMALL;
        change(&mut choices);
        Pair::new_with(choices).map(drop)
    };
    assert_eq!(name(small(|_| ())), "");
    assert!(is_einval(small(|choices| choices.reserve = 1025)));
    assert!(is_einval(small(|choices| choices.sizes.entries = 0)));
    assert!(is_einval(small(|choices| choices.sizes.bytes = 8191)));
    assert_eq!(name(small(|choices| (choices.anew, choices.sizes.entries) = (false, 0))), "");
}

#[test]
fn a_journal_begins_anew_for_each_call() -> Result<(), Refused> {
    let (mut pair, mut room) = (Pair::new_with(SMALL)?, [0; 64]);
    pair.open_terminal()?;
    for _ in 0..100 {
        assert_eq!(pair.write(Side::Master, b"ab\r")?, 3);
        pair.runqueues()?;
        assert_eq!(pair.read(Side::Slave, &mut room)?, 3);
        assert_eq!(pair.read(Side::Master, &mut room)?, 4);
    }
    assert!(is_einval(pair.next_entry(&mut Cursor::default())));
    let image = pair.image()?;
    assert_eq!(Pair::restore_with(SMALL, &image)?.image()?, image);
    Ok(())
}

#[test]
fn turns_that_never_end_are_told() -> Result<(), Refused> {
    let mut pair = Pair::new_with(Choices::default())?;
    pair.open_terminal()?;
    pair.push(Side::Master, Module::Ldterm)?;
    pair.write(Side::Master, b"x")?;
    assert!(pair.runqueues().unwrap_err().would_wait());
    pair.close(Side::Master)?;
    assert!(pair.runqueues()? < RUN_MOST);
    Ok(())
}

#[test]
fn neither_side_takes_the_reserve() -> Result<(), Refused> {
    for side in [Side::Master, Side::Slave] {
        let (mut pair, other) = (Pair::new_with(SMALL)?, if side == Side::Master { Side::Slave } else { Side::Master });
        pair.open_terminal()?;
        let flood: &[u8] = if side == Side::Master { b"\x04" } else { b"" };
        let held = loop {
            match pair.write(side, flood) {
                Ok(_) => pair.runqueues()?,
                Err(refused) => break refused,
            };
        };
        assert!(held.would_wait());
        assert!(pair.room()?.blocks >= 256);
        assert!(!pair.ready(side).can_write() && pair.ready(other).can_write());
        assert_eq!(pair.write(other, b"x")?, 1);
        pair.runqueues()?;
        for _ in 0..if side == Side::Master { 2 } else { 0 } {
            assert_eq!(pair.read(Side::Slave, &mut [0; 64])?, 0);
        }
        assert_eq!(pair.write(Side::Master, b"\x03")?, 1);
        pair.runqueues()?;
        assert_eq!(pair.signals(Side::Slave)?, [Signal::INT]);
    }
    Ok(())
}
