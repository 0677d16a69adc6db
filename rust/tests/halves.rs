//! The two ends of a pair as files.
use std::error::Error;
use std::io::{self, ErrorKind, Read, Write};
use std::thread;

use strm::{termios, Caller, Module, Pair, Refusal, Refused, Side, Sizes, When, Winsize};

type Outcome = Result<(), Box<dyn Error>>;

#[test]
fn what_one_half_writes_the_other_reads() -> Outcome {
    let (mut master, mut slave) = Pair::terminal()?.split();
    let mut line = [0; 256];
    assert_eq!(slave.read(&mut line).unwrap_err().kind(), ErrorKind::WouldBlock);
    writeln!(slave, "login: ")?;
    master.write_all(b"anna\r")?;
    assert_eq!(slave.read(&mut line)?, 5);
    assert_eq!(&line[..5], b"anna\n");
    let n = master.read(&mut line)?;
    assert_eq!(&line[..n], b"login: \r\nanna\r\n");
    assert_eq!((slave.read(&mut [])?, slave.write(&[])?), (0, 0));
    assert_eq!(master.read(&mut line).unwrap_err().kind(), ErrorKind::WouldBlock);
    slave.flush()?;
    Ok(())
}

#[test]
fn a_half_says_what_it_is_ready_for() -> Outcome {
    let (mut master, mut slave) = Pair::terminal()?.split();
    assert!(slave.ready().can_write() && !slave.ready().can_read());
    master.pair().write(Side::Master, b"x\r\x04")?;
    assert!(slave.ready().can_read() && master.ready().can_read());
    let mut line = [0; 9];
    assert_eq!((slave.read(&mut line)?, slave.read(&mut line)?), (2, 0)); // the EOF key
    assert!(!slave.ready().can_read());
    drop(slave);
    assert_eq!(master.read(&mut line)?, 3);
    assert!(master.ready().can_read() && master.read(&mut line)? == 0);
    Ok(())
}

#[test]
fn a_half_that_is_dropped_closes_its_side() -> Outcome {
    let (mut master, mut slave) = Pair::terminal()?.split();
    slave.write_all(b"bye\n")?;
    drop(slave);
    let mut shown = String::new();
    assert_eq!((master.read_to_string(&mut shown)?, &*shown), (5, "bye\r\n"));
    let (master, mut slave) = Pair::terminal()?.split();
    drop(master);
    assert_eq!(slave.read(&mut [0; 9])?, 0);
    assert!(slave.pair().ready(Side::Slave).is_hung_up());
    assert_eq!(slave.write(b"x").unwrap_err().kind(), ErrorKind::NotConnected);
    Ok(())
}

#[test]
fn what_a_dropped_slave_wrote_is_read_to_its_end() -> Outcome {
    let (mut master, mut slave) = Pair::terminal()?.split();
    let mut written = 0;
    while let Ok(taken) = slave.write(&[b'x'; 1000]) {
        written += taken;
    }
    drop(slave);
    assert!(written > 5120);
    let mut shown = Vec::new();
    assert_eq!((master.read_to_end(&mut shown)?, shown.iter().all(|byte| *byte == b'x')), (written, true));
    Ok(())
}

#[test]
fn a_close_waits_for_its_blocks() -> Outcome {
    let mut pair = Pair::new(Sizes { blocks: 33, entries: 64, bytes: 8192 })?;
    pair.open_master()?;
    pair.unlock()?;
    pair.open_slave()?;
    pair.keeps = true;
    let (mut master, slave) = pair.split();
    assert_eq!(master.write(b"x")?, 1);
    while master.pair().signals(Side::Master).is_ok() {} // till the journal is full
    drop(slave);
    assert_eq!(master.read(&mut [0; 9]).unwrap_err().to_string(), "the journal has no room for the call (JournalFull)");
    master.pair().restart()?;
    assert_eq!(master.read(&mut [0; 9])?, 0);
    Ok(())
}

#[test]
fn errors_are_those_of_files_with_the_refusal_inside() -> Outcome {
    let (mut master, mut slave) = Pair::terminal()?.split();
    let error: io::Error = master.read(&mut [0; 9]).unwrap_err();
    let inside = error.get_ref().and_then(|inside| inside.downcast_ref::<Refused>());
    assert!(inside.map_or(false, |refused| refused.would_wait() && refused.name() == "EAGAIN"));
    assert_eq!(error.to_string(), "the call would have to wait (EAGAIN)");
    slave.pair().tcsetpgrp(Side::Slave, 7)?;
    slave.set_caller(Caller { group: 8, ..Caller::NOBODY });
    let error = slave.read(&mut [0; 9]).unwrap_err();
    assert_eq!(error.to_string(), "the caller is in the background, and stopped by SIGTTIN");
    assert_eq!(slave.pair().caller, Caller::NOBODY);
    Ok(())
}

#[test]
fn modes_and_windows_of_a_half() -> Outcome {
    let (mut master, mut slave) = Pair::terminal()?.split();
    let mut modes = slave.tcgetattr()?;
    modes.lflag &= !termios::ECHO;
    slave.tcsetattr(When::Drain, &modes)?;
    master.set_winsize(Winsize::new(5, 7))?;
    assert_eq!(slave.get_winsize()?, Winsize::new(5, 7));
    master.write_all(b"secret\r")?;
    assert_eq!(slave.read(&mut [0; 256])?, 7);
    assert_eq!(master.read(&mut [0; 256]).unwrap_err().kind(), ErrorKind::WouldBlock);
    Ok(())
}

#[test]
fn turns_that_do_not_end_are_an_error() -> Outcome {
    let mut pair = Pair::new(Sizes { blocks: 256, entries: 64, bytes: 8192 })?;
    pair.open_terminal()?;
    pair.push(Side::Master, Module::Ldterm)?;
    let (mut master, _slave) = pair.split();
    assert_eq!(master.write(b"x")?, 1);
    assert_eq!(master.flush().unwrap_err().to_string(), Refused::Call(Refusal::JournalFull).to_string());
    Ok(())
}

/// Writes all, waits by yielding, and closes.
fn writes(mut half: impl Write, bytes: &[u8]) -> io::Result<()> {
    let mut rest = bytes;
    while !rest.is_empty() {
        match half.write(rest) {
            Ok(taken) => rest = &rest[taken..],
            Err(error) if error.kind() == ErrorKind::WouldBlock => thread::yield_now(),
            Err(error) => return Err(error),
        }
    }
    Ok(())
}

/// Reads up to the end of input, and waits by yielding.
fn reads(mut half: impl Read) -> io::Result<Vec<u8>> {
    let (mut got, mut room) = (Vec::new(), [0; 4096]);
    loop {
        match half.read(&mut room) {
            Ok(0) => return Ok(got),
            Ok(n) => got.extend_from_slice(&room[..n]),
            Err(error) if error.kind() == ErrorKind::WouldBlock => thread::yield_now(),
            Err(error) => return Err(error),
        }
    }
}

#[test]
fn two_threads_move_a_megabyte() -> Outcome {
    for has_modules in [false, true] {
        let mut pair = Pair::new(Sizes { blocks: 64, entries: 64, bytes: 8192 })?;
        pair.open_master()?;
        pair.unlock()?;
        pair.open_slave()?;
        if has_modules {
            pair.push(Side::Slave, Module::Ldterm)?;
        }
        let (master, slave) = pair.split();
        let text: Vec<u8> = (0..1_000_000_u32).map(|number| b'0' + (number % 10) as u8).collect();
        let sent = text.clone();
        let writer = thread::spawn(move || writes(slave, &sent));
        let got = reads(master)?;
        assert!(writer.join().map_or(false, |written| written.is_ok()) && got == text);
    }
    Ok(())
}
