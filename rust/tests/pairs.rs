//! Calls of a pair, by name.
use strm::{termios, Termios};
use strm::{
    Answer, Call, Caller, Command, Entry, Event, Flush, Message, Mode, Module, Pair, Priority, Queue, Refusal, Refused, Side, Signal,
    Sizes, Standing, Turn, Wanted, When, Winsize, WRITE_MOST,
};
use Side::{Master, Slave};

fn read(pair: &mut Pair, side: Side) -> Result<Vec<u8>, Refused> {
    let mut out = [0; 4096];
    pair.read(side, &mut out).map(|n| out[..n].to_vec())
}

fn refused<T: std::fmt::Debug>(made: Result<T, Refused>) -> &'static str {
    made.expect_err("it is refused").name()
}

fn typed(pair: &mut Pair, keys: &[u8]) -> Result<(), Refused> {
    assert_eq!(pair.write(Master, keys)?, keys.len());
    pair.runqueues().map(drop)
}

/// Both sides open, without modules.
fn plain() -> Result<Pair, Refused> {
    let mut pair = Pair::new(Sizes::default())?;
    pair.open_master()?;
    pair.unlock()?;
    pair.open_slave()?;
    Ok(pair)
}

#[test]
fn a_line_is_edited_echoed_and_read() -> Result<(), Refused> {
    let mut pair = Pair::terminal()?;
    typed(&mut pair, b"lx\x7fs\r")?;
    assert_eq!(read(&mut pair, Slave)?, b"ls\n");
    assert_eq!(read(&mut pair, Master)?, b"lx\x08 \x08s\r\n");
    assert!(read(&mut pair, Slave).unwrap_err().would_wait());
    Ok(())
}

#[test]
fn refusals_have_names() -> Result<(), Refused> {
    let mut pair = Pair::terminal()?;
    assert_eq!(refused(pair.push(Slave, Module::Ldterm)), "EINVAL");
    assert_eq!(refused(pair.open_master()), "EINVAL");
    assert_eq!(refused(pair.turn(Queue::MasterDriver)), "EINVAL");
    assert_eq!(refused(pair.put(Master, Priority::Band(0), Some(&[0; 65]), None)), "ERANGE");
    pair.close(Slave)?;
    assert_eq!(refused(pair.write(Slave, b"x")), "ENXIO");
    for blocks in [0, 65_537] {
        assert_eq!(refused(Pair::new(Sizes { blocks, ..Sizes::default() }).map(drop)), "EINVAL");
    }
    let mut poor = Pair::new(Sizes { blocks: 32, ..Sizes::default() })?;
    poor.open_master()?;
    assert_eq!(refused(poor.write(Master, b"x")), "ENOSR");
    Ok(())
}

#[test]
fn a_freed_pair_refuses() -> Result<(), Refused> {
    let mut pair = Pair::terminal()?;
    pair.free();
    assert!(!pair.is_open() && pair.at_rest() && pair.enabled().is_empty());
    assert_eq!(refused(pair.write(Master, b"x")), "EINVAL");
    assert_eq!(refused(read(&mut pair, Slave)), "EINVAL");
    assert_eq!(refused(pair.runqueues()), "EINVAL");
    assert_eq!(refused(pair.image()), "EINVAL");
    assert_eq!(refused(pair.entries()), "EINVAL");
    assert_eq!(refused(pair.room()), "EINVAL");
    assert_eq!(pair.ready(Slave), strm::Ready::default());
    pair.free();
    Ok(())
}

#[test]
fn messages_have_parts_and_priorities() -> Result<(), Refused> {
    let mut pair = plain()?;
    pair.put(Master, Priority::High, Some(b"c"), None)?;
    pair.put(Master, Priority::Band(0), None, Some(&[b'd'; 256]))?;
    pair.put(Master, Priority::Band(7), Some(b""), Some(b""))?;
    pair.runqueues()?;
    assert_eq!(pair.nread(Slave)?, (3, 0));
    let got = |priority, control: Option<&[u8]>, data: Option<&[u8]>, more_data| Message {
        priority,
        control: control.map(<[u8]>::to_vec),
        data: data.map(<[u8]>::to_vec),
        more_control: false,
        more_data,
    };
    assert_eq!(pair.get(Slave, Wanted::High, 9, 9)?, got(Priority::High, Some(b"c"), None, false));
    assert_eq!(refused(pair.get(Slave, Wanted::Band(8), 9, 9)), "EAGAIN");
    assert_eq!(pair.get(Slave, Wanted::Band(7), 9, 9)?, got(Priority::Band(7), Some(b""), Some(b""), false));
    assert_eq!(pair.get(Slave, Wanted::Any, 9, 200)?, got(Priority::Band(0), None, Some(&[b'd'; 200]), true));
    assert_eq!(pair.get(Slave, Wanted::Any, 9, 200)?, got(Priority::Band(0), None, Some(&[b'd'; 56]), false));
    pair.put(Master, Priority::High, Some(b"control"), Some(b"data"))?;
    pair.runqueues()?;
    assert_eq!(refused(read(&mut pair, Slave)), "EBADMSG");
    assert_eq!(pair.get(Slave, Wanted::High, 4096, 4096)?, got(Priority::High, Some(b"control"), Some(b"data"), false));
    Ok(())
}

#[test]
fn heads_read_by_their_modes() -> Result<(), Refused> {
    let mut pair = plain()?;
    pair.srdopt(Slave, Mode::Msgd)?;
    pair.srdopt(Slave, Mode::ProtDat)?;
    pair.write(Master, b"abcd")?;
    pair.put(Master, Priority::Band(0), Some(b"c"), Some(b"d"))?;
    pair.runqueues()?;
    let mut two = [0; 2];
    assert_eq!((pair.read(Slave, &mut two)?, &two), (2, b"ab"));
    assert_eq!(read(&mut pair, Slave)?, b"cd");
    Ok(())
}

#[test]
fn modules_come_and_go() -> Result<(), Refused> {
    let mut pair = Pair::terminal()?;
    assert_eq!(pair.look(Slave)?.name(), "ldterm");
    pair.pop(Slave)?;
    assert_eq!(pair.look(Slave)?, Module::Ptem);
    pair.pop(Slave)?;
    assert_eq!(refused(pair.look(Slave)), "EINVAL");
    assert_eq!(pair.tcgetattr(Slave), Err(Refused::Nak(Refusal::Einval)));
    pair.push(Master, Module::Pckt)?;
    pair.write(Slave, b"out")?;
    pair.flush(Slave, Flush::Write, None)?;
    pair.runqueues()?;
    let packet = pair.get(Master, Wanted::Any, 9, 9)?;
    assert_eq!(packet.control.map(|control| control.len()), Some(1));
    Ok(())
}

#[test]
fn flushes_take_what_stands() -> Result<(), Refused> {
    let mut pair = plain()?;
    for (what, band) in [(Flush::Read, None), (Flush::Both, Some(0))] {
        pair.write(Master, b"abc")?;
        pair.runqueues()?;
        pair.flush(Slave, what, band)?;
        assert_eq!(refused(read(&mut pair, Slave)), "EAGAIN");
    }
    pair.write(Master, b"abc")?;
    pair.runqueues()?;
    pair.flush(Slave, Flush::Read, Some(3))?;
    assert_eq!(read(&mut pair, Slave)?, b"abc");
    assert!(pair.ledger(Master)?.balance());
    Ok(())
}

#[test]
fn signals_and_windows() -> Result<(), Refused> {
    let mut pair = Pair::terminal()?;
    pair.set_winsize(Master, Winsize::new(24, 80))?;
    assert_eq!(pair.get_winsize(Slave)?, Winsize { rows: 24, columns: 80, width: 0, height: 0 });
    typed(&mut pair, b"abc\x03")?;
    assert!(pair.ready(Slave).has_signals());
    let names: Vec<_> = pair.signals(Slave)?.into_iter().map(Signal::name).collect();
    assert_eq!(names, ["WINCH", "INT"]);
    assert_eq!(pair.signals(Slave)?, []);
    assert!(!pair.ready(Slave).has_signals());
    Ok(())
}

#[test]
fn modes_of_a_terminal() -> Result<(), Refused> {
    let mut pair = Pair::terminal()?;
    let mut modes = pair.tcgetattr(Slave)?;
    assert_eq!(modes.lflag & (termios::ICANON | termios::ECHO | termios::TOSTOP), termios::ICANON | termios::ECHO);
    assert_eq!(modes.cc[termios::VINTR], 3);
    modes.lflag &= !termios::ECHO;
    modes.cc[termios::VERASE] = b'#';
    for when in [When::Now, When::Drain, When::Flush] {
        pair.tcsetattr(Slave, when, &modes)?;
        assert_eq!(pair.tcgetattr(Slave)?, modes);
    }
    typed(&mut pair, b"ab#c\r")?;
    assert_eq!(read(&mut pair, Slave)?, b"ac\n");
    pair.tcsetattr(Slave, When::Now, &modes.raw())?;
    typed(&mut pair, b"\x7f\x03")?;
    assert_eq!(read(&mut pair, Slave)?, b"\x7f\x03");
    assert_eq!(Termios::of_wire(&modes.to_wire()), modes);
    Ok(())
}

#[test]
fn job_control_asks_the_caller() -> Result<(), Refused> {
    let mut pair = Pair::terminal()?;
    pair.caller = Caller { group: 7, ..Caller::NOBODY };
    pair.tcsetpgrp(Slave, 7)?;
    assert_eq!(pair.tcgetpgrp(Slave)?, 7);
    pair.caller.group = 8;
    assert_eq!(read(&mut pair, Slave), Err(Refused::Stopped(Signal::TTIN)));
    pair.caller.ignores = true;
    assert_eq!(refused(read(&mut pair, Slave)), "EIO");
    pair.caller = Caller { group: 7, ..Caller::NOBODY };
    typed(&mut pair, b"x\r")?;
    assert_eq!(read(&mut pair, Slave)?, b"x\n");
    let mut modes = pair.tcgetattr(Slave)?;
    modes.lflag |= termios::TOSTOP;
    pair.tcsetattr(Slave, When::Now, &modes)?;
    pair.caller.group = 8;
    assert_eq!(pair.write(Slave, b"x"), Err(Refused::Stopped(Signal::TTOU)));
    let nobody = pair.call(&Call::new(Slave, Event::Write(b"x".to_vec())))?;
    assert_eq!(nobody, Answer::Count(1));
    Ok(())
}

#[test]
fn an_ioctl_waits_for_its_answer() -> Result<(), Refused> {
    let mut pair = Pair::terminal()?;
    let event = Event::Ioctl(Command::TIOCSWINSZ, Winsize::new(3, 4).to_wire().to_vec());
    let number = match pair.call(&Call::new(Master, event))? {
        Answer::Pending(number) => number,
        other => panic!("the slave's ptem answers, and not {other:?}"),
    };
    assert_eq!(refused(pair.ioctl_result(Master, number)), "EAGAIN");
    pair.runqueues()?;
    assert!(pair.ready(Master).has_answer());
    assert_eq!(pair.ioctl_result(Master, number)?, b"");
    assert_eq!(pair.get_winsize(Slave)?, Winsize::new(3, 4));
    assert!(!pair.ready(Master).has_answer());
    assert_eq!(refused(pair.ioctl_result(Master, number)), "EINVAL");
    Ok(())
}

#[test]
fn turns_one_by_one() -> Result<(), Refused> {
    let mut pair = Pair::terminal()?;
    pair.write(Master, b"x")?;
    assert_eq!(pair.enabled(), [Queue::MasterDriver]);
    assert_eq!(pair.sizes(Queue::MasterDriver)?, Standing { messages: 1, bytes: 1 });
    assert_eq!(pair.turn(Queue::MasterDriver)?, Turn::Moved(1));
    assert_eq!(pair.first_size(Queue::SlaveLdtermRead)?, 1);
    assert_eq!(pair.runqueues()?, 3);
    assert!(pair.at_rest());
    Ok(())
}

#[test]
fn the_books_balance() -> Result<(), Refused> {
    let mut pair = Pair::terminal()?;
    typed(&mut pair, b"ab\x7fc\r")?;
    read(&mut pair, Slave)?;
    let told = pair.ledger(Master)?;
    let gone: Vec<_> = strm::RULES.iter().zip(told.gone).filter(|(_, gone)| *gone > 0).collect();
    assert_eq!((told.written, gone), (5, vec![(&"read", 3), (&"erase-key", 1), (&"erased", 1)]));
    assert!(told.balance() && pair.ledger(Slave)?.balance());
    Ok(())
}

#[test]
fn a_write_brings_its_first_bytes() -> Result<(), Refused> {
    let mut pair = plain()?;
    assert_eq!(pair.write(Master, &[b'x'; 60_000])?, 512);
    let call = Call::new(Master, Event::Write(vec![b'x'; WRITE_MOST]));
    assert_eq!(pair.entries()?.pop(), Some(Entry::Call(call, Answer::Count(512))));
    assert_eq!(refused(pair.write(Master, &[b'x'; 60_000])), "EAGAIN");
    Ok(())
}

#[test]
fn readiness_is_what_a_call_would_meet() -> Result<(), Refused> {
    let mut pair = Pair::terminal()?;
    assert!(pair.ready(Master).can_write() && pair.ready(Slave).can_write());
    assert!(!pair.ready(Master).can_read() && !pair.ready(Slave).can_read() && !pair.ready(Slave).can_get());
    typed(&mut pair, b"half a line")?;
    assert!(pair.ready(Master).can_read() && !pair.ready(Slave).can_read());
    typed(&mut pair, b"\r")?;
    assert!(pair.ready(Slave).can_read() && pair.ready(Slave).can_get());
    while pair.ready(Slave).can_write() {
        pair.write(Slave, &[b'x'; WRITE_MOST])?;
        pair.runqueues()?;
    }
    assert_eq!(refused(pair.write(Slave, b"x")), "EAGAIN");
    pair.close(Master)?;
    assert!(pair.ready(Slave).is_hung_up() && pair.ready(Slave).can_read() && !pair.ready(Slave).can_write());
    assert_eq!(pair.ready(Master), strm::Ready::default());
    Ok(())
}
