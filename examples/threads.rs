//! A server with threads, in Rust: the same as threads.c, and the same output.
//!
//!     cd rust && STRM_LIB_DIR=PREFIX/lib cargo run --features threads --example threads
use std::io::{self, Read, Write};
use std::thread::{self, JoinHandle};

use strm::threads::{Account, End, Reader, System, Writer, TERMINALS};

const COUNT: usize = 30;
const LINES: usize = 40;

/// Types lines, and an EOF key behind the last.
fn types(master: End) -> io::Result<End> {
    let mut keys = Writer::from(master);
    for _ in 0..LINES {
        keys.write_all(b"make tests\x7f\r")?;
    }
    keys.write_all(b"\x04")?;
    Ok(keys.into_end())
}

/// Reads lines, and answers each, up to the end of input: how many were as they should be.
fn shell(slave: End) -> io::Result<(End, usize)> {
    let (mut reader, mut writer) = slave.into_halves()?;
    let (mut line, mut lines) = ([0; 256], 0);
    loop {
        let n = reader.read(&mut line)?;
        if n == 0 {
            break;
        }
        lines += usize::from(&line[..n] == b"make test\n");
        writer.write_all(b"ok\n")?;
    }
    writer.write_all(b"bye!")?;
    Ok((writer.into_end().join(reader.into_end())?, lines))
}

/// Takes the echo and the answers, until the shell has said goodbye: how many bytes.
fn shows(master: End) -> io::Result<(End, usize)> {
    let (mut screen, mut text, mut shown) = (Reader::from(master), [0; 4096], 0);
    loop {
        let n = screen.read(&mut text)?;
        shown += n;
        if text[n - 1] == b'!' {
            return Ok((screen.into_end(), shown));
        }
    }
}

fn agrees(account: &Account) -> bool {
    let (told, ms, sm) = (&account.told, &account.ms, &account.sm);
    (told.written.from_master, told.written.from_slave) == (ms.written, sm.written)
        && (told.read.from_master, told.read.from_slave) == (ms.gone[0], sm.gone[0])
}

fn ended<T>(thread: JoinHandle<io::Result<T>>) -> io::Result<T> {
    thread.join().expect("a thread doesn't panic")
}

fn main() -> io::Result<()> {
    let system = System::new(COUNT, &TERMINALS)?;
    let _workers = system.start_workers(2)?;
    let mut threads = Vec::new();
    for _ in 0..COUNT {
        let (mut master, slave) = system.terminal()?;
        let second = master.split()?;
        threads.push((
            thread::spawn(|| types(master)),
            thread::spawn(|| shows(second)),
            thread::spawn(|| shell(slave)),
        ));
    }
    let (mut lines, mut shown, mut agree) = (0, 0, 0);
    for (typing, showing, working) in threads {
        let (master, (second, bytes), (slave, read)) =
            (ended(typing)?, ended(showing)?, ended(working)?);
        agree += usize::from(agrees(&master.join(second)?.join(slave)?.settle()?));
        lines += read;
        shown += bytes;
    }
    println!("{COUNT} terminals: the shells read {lines} lines, {shown} bytes were shown");
    println!("{agree} pairs settled, as their books say");
    Ok(())
}
