//! A first session on a terminal, in Rust: the same as first.c, and the same output.
//!
//!     cd rust && STRM_LIB_DIR=PREFIX/lib cargo run --example first
use std::io;

use strm::{Pair, Refused, Side, Sizes, Winsize, RULES};

fn show(what: &str, read: Result<usize, Refused>, out: &[u8]) {
    match read {
        Ok(n) => {
            let text: String = out[..n]
                .iter()
                .map(|byte| {
                    if (32..127).contains(byte) {
                        char::from(*byte).to_string()
                    } else {
                        format!("\\x{byte:02x}")
                    }
                })
                .collect();
            println!("{what:<20}{n} \"{text}\"");
        }
        Err(refused) => println!("{what:<20}{}", refused.name()),
    }
}

/// The README's session.
fn session(pair: &mut Pair, out: &mut [u8]) -> Result<(), Refused> {
    println!(
        "{:<20}{}",
        "the user types",
        pair.write(Side::Master, b"lx\x7fs\r")?
    );
    pair.runqueues()?;
    show("the program reads", pair.read(Side::Slave, out), out);
    show("the user sees", pair.read(Side::Master, out), out);
    show("nothing more", pair.read(Side::Slave, out), out);
    Ok(())
}

/// A resize and an interrupt, as signals of the slave.
fn signals(pair: &mut Pair) -> Result<(), Refused> {
    pair.set_winsize(Side::Master, Winsize::new(24, 80))?;
    let told = pair.get_winsize(Side::Slave)?;
    println!("{:<20}{} x {}", "window", told.rows, told.columns);
    pair.write(Side::Master, b"abc\x03")?;
    pair.runqueues()?;
    let names: String = pair
        .signals(Side::Slave)?
        .iter()
        .map(|signal| format!("{} ", signal.name()))
        .collect();
    println!("{:<20}{names}", "signals");
    Ok(())
}

/// Every byte that the master wrote has one place.
fn books(pair: &mut Pair) -> Result<(), Refused> {
    let told = pair.ledger(Side::Master)?;
    for (rule, gone) in RULES.iter().zip(told.gone).filter(|(_, gone)| *gone > 0) {
        println!("  {rule:<18}{gone}");
    }
    println!("{:<20}{}", "balance", u32::from(told.balance()));
    Ok(())
}

fn main() -> Result<(), Refused> {
    let mut out = [0; 4096];
    let mut closed = Pair::new(Sizes {
        blocks: 1,
        entries: 1,
        bytes: 1,
    })?;
    closed.free();
    show("closed", closed.read(Side::Slave, &mut out), &out);
    let none = Pair::new(Sizes {
        blocks: 0,
        entries: 1,
        bytes: 1,
    })
    .map(drop);
    println!(
        "{:<20}{}",
        "no blocks",
        none.expect_err("no pair has no block").name()
    );
    let mut pair = Pair::terminal()?;
    let waits = pair
        .read(Side::Slave, &mut out)
        .map_err(io::Error::from)
        .map_err(|error| error.kind());
    println!(
        "{:<20}{}",
        "would have to wait",
        u32::from(waits == Err(io::ErrorKind::WouldBlock))
    );
    session(&mut pair, &mut out)?;
    signals(&mut pair)?;
    books(&mut pair)?;
    let image = pair.image()?;
    assert_eq!(Pair::restore(Sizes::default(), &image)?.image()?, image);
    pair.free();
    println!("{:<20}{}", "open", u32::from(pair.is_open()));
    Ok(())
}
