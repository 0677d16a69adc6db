//! 10 MB go through a small pair, whose journal has one entry, by a loop of writes, turns and reads that knows one refusal alone: that a call would
//! have to wait.
use strm::termios::ECHO;
use strm::{Pair, Refused, Side, Sizes, When};

const SMALL: Sizes = Sizes { blocks: 64, entries: 1, bytes: 8192 };
const TEN_MEGABYTES: usize = 10_000_000;

/// What a call gave, or 0 where it would have to wait.
fn now(made: Result<usize, Refused>) -> Result<usize, Refused> {
    match made {
        Err(refused) if refused.would_wait() => Ok(0),
        made => made,
    }
}

fn moved(pair: &mut Pair, from: Side, to: Side, text: &[u8]) -> Result<Vec<u8>, Refused> {
    let (mut rest, mut got, mut room) = (text, Vec::with_capacity(text.len()), [0; 4096]);
    loop {
        let taken = if rest.is_empty() { 0 } else { now(pair.write(from, rest))? };
        rest = &rest[taken..];
        let turns = pair.runqueues()?;
        let before = got.len();
        loop {
            match now(pair.read(to, &mut room))? {
                0 => break,
                came => got.extend_from_slice(&room[..came]),
            }
        }
        if taken + turns == 0 && got.len() == before {
            return Ok(got);
        }
    }
}

#[test]
fn ten_megabytes_go_through_a_small_pair() -> Result<(), Refused> {
    let mut pair = Pair::new(SMALL)?;
    pair.open_master()?;
    pair.unlock()?;
    pair.open_slave()?;
    let text: Vec<u8> = (0..TEN_MEGABYTES).map(|number| (number % 251) as u8).collect();
    assert!(moved(&mut pair, Side::Slave, Side::Master, &text)? == text);
    assert!(pair.ledger(Side::Slave)?.balance());
    Ok(())
}

#[test]
fn ten_megabytes_of_lines_are_shown_on_a_small_terminal() -> Result<(), Refused> {
    let mut pair = Pair::new(SMALL)?;
    pair.open_terminal()?;
    let text: Vec<u8> = (0..TEN_MEGABYTES).map(|number| if number % 80 == 79 { b'\n' } else { b'x' }).collect();
    let got = moved(&mut pair, Side::Slave, Side::Master, &text)?;
    assert_eq!(got.len(), text.len() + text.len() / 80);
    assert!(got.into_iter().filter(|byte| *byte != b'\r').eq(text));
    Ok(())
}

#[test]
fn lines_are_typed_on_a_small_terminal() -> Result<(), Refused> {
    let mut pair = Pair::new(SMALL)?;
    pair.open_terminal()?;
    let mut modes = pair.tcgetattr(Side::Slave)?;
    modes.lflag &= !ECHO;
    pair.tcsetattr(Side::Slave, When::Now, &modes)?;
    let text: Vec<u8> = (0..1_000_000).map(|number| if number % 100 == 99 { b'\r' } else { b'y' }).collect();
    let got = moved(&mut pair, Side::Master, Side::Slave, &text)?;
    assert!(got.into_iter().map(|byte| if byte == b'\n' { b'\r' } else { byte }).eq(text));
    Ok(())
}
