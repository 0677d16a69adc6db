//! Pairs that threads share: writers, readers and workers, and what becomes of their ends.
#![cfg(feature = "threads")]
use std::error::Error;
use std::io::{self, ErrorKind, Read, Write};
use std::os::unix::io::AsRawFd;
use std::thread;
use std::time::{Duration, Instant};

use strm::threads::{Account, End, Reader, System, Writer, TERMINALS};
use strm::{
    termios, Answer, Caller, Choices, Event, Module, Pair, Priority, Ready, Refusal, Refused, Side, Signal, Sizes, Wanted, When, Winsize,
};

type Outcome = Result<(), Box<dyn Error>>;

const SHORT: Option<Duration> = Some(Duration::from_millis(20));

fn refusal<T>(made: Result<T, impl Into<Refused>>) -> Option<Refusal> {
    match made.err().map(Into::into) {
        Some(Refused::Call(why)) => Some(why),
        _ => None,
    }
}

// Written and read are what the pair's books say.
fn agrees(account: &Account) {
    let (told, ms, sm) = (&account.told, &account.ms, &account.sm);
    assert_eq!((told.written.from_master, told.written.from_slave), (ms.written, sm.written));
    assert_eq!((told.read.from_master, told.read.from_slave), (ms.gone[0], sm.gone[0]));
    assert!(ms.balance() && sm.balance());
}

// Writes until nothing goes on, as nobody reads: how many bytes were taken.
fn floods(end: &mut End) -> Result<usize, Refused> {
    let mut written = 0;
    loop {
        match end.write(&[b'x'; 1000]) {
            Ok(taken) => written += taken,
            Err(refused) if refused.would_wait() && end.run()? == 0 => return Ok(written),
            Err(refused) if refused.would_wait() => {}
            Err(refused) => return Err(refused),
        }
    }
}

fn pattern(length: u32) -> Vec<u8> {
    (0..length).map(|number| b'0' + (number % 10) as u8).collect()
}

#[test]
fn three_threads_at_a_terminal() -> Outcome {
    let system = System::new(3, &TERMINALS)?;
    let _workers = system.start_workers(1)?;
    let (mut master, slave) = system.terminal()?;
    let second = master.split()?;
    let types = thread::spawn(move || {
        let mut keys = Writer::from(master);
        for number in 0..500 {
            write!(keys, "line {number}\r")?;
        }
        Ok::<_, io::Error>(keys.into_end())
    });
    let sees = thread::spawn(move || {
        let (mut screen, mut shown, mut room) = (Reader::from(second), Vec::new(), [0; 999]);
        while !shown.ends_with(b"line 499\r\n") {
            let n = screen.read(&mut room)?;
            shown.extend_from_slice(&room[..n]);
        }
        Ok::<_, io::Error>((screen.into_end(), shown))
    });
    let (mut slave, mut line) = (Reader::from(slave), [0; 256]);
    for number in 0..500 {
        let n = slave.read(&mut line)?;
        assert_eq!(&line[..n], format!("line {number}\n").as_bytes());
    }
    let (screen, shown) = sees.join().expect("it ends")?;
    assert_eq!(shown, (0..500).flat_map(|number| format!("line {number}\r\n").into_bytes()).collect::<Vec<u8>>());
    let master = types.join().expect("it ends")?;
    let account = master.join(screen)?.join(slave.into_end())?.settle()?;
    agrees(&account);
    assert_eq!((account.told.read.from_master, account.told.written.from_slave), (10 * 7 + 90 * 8 + 400 * 9, 0));
    assert!(account.told.calls > 1000);
    Ok(())
}

#[test]
fn a_wait_has_a_time_out() -> Outcome {
    let system = System::new(1, &TERMINALS)?;
    let (mut master, mut slave) = system.terminal()?;
    let began = Instant::now();
    assert_eq!(refusal(slave.wait(Ready(Ready::CAN_READ), SHORT)), Some(Refusal::Eagain));
    assert!(began.elapsed() >= Duration::from_millis(20));
    assert_eq!(refusal(slave.wait(Ready(Ready::CAN_READ), Some(Duration::ZERO))), Some(Refusal::Eagain));
    assert!(slave.wait(Ready(Ready::CAN_WRITE), SHORT)?.can_write());
    slave.timeout = SHORT;
    assert_eq!(refusal(slave.read_wait(&mut [0; 9])), Some(Refusal::Eagain));
    let mut slave = Reader::from(slave);
    let error = slave.read(&mut [0; 9]).unwrap_err();
    assert_eq!(error.kind(), ErrorKind::WouldBlock);
    let inside = error.get_ref().and_then(|inside| inside.downcast_ref::<Refused>());
    assert_eq!(inside, Some(&Refused::Call(Refusal::Eagain)));
    assert_eq!(master.write(b"x\r")?, 2);
    assert!(master.run()? > 0 && system.run(master.pair())? == 0);
    assert_eq!(slave.read(&mut [0; 9])?, 2);
    assert_eq!((slave.read(&mut [])?, Writer::from(master).write(&[])?), (0, 0));
    Ok(())
}

#[test]
fn who_sleeps_is_woken() -> Outcome {
    let system = System::new(2, &TERMINALS)?;
    let (mut master, mut slave) = system.terminal()?;
    let _workers = system.start_workers(2)?;
    let sleeper = thread::spawn(move || {
        let ready = slave.wait(Ready(Ready::HAS_SIGNALS), None)?;
        assert!(ready.has_signals());
        Ok::<_, Refused>((slave.signals()?, slave))
    });
    thread::sleep(Duration::from_millis(20));
    assert_eq!(master.write(b"\x03")?, 1);
    let (signals, slave) = sleeper.join().expect("it ends")?;
    assert_eq!(signals, [Signal::INT]);
    agrees(&master.join(slave)?.settle()?);
    Ok(())
}

#[test]
fn flow_control_holds_a_writer_back() -> Outcome {
    for with_modules in [false, true] {
        let system = System::new(1, &Choices { sizes: Sizes { blocks: 128, entries: 64, bytes: 16_384 }, ..TERMINALS })?;
        let _workers = system.start_workers(1)?;
        let mut master = system.claim()?.open()?;
        master.unlock()?;
        let mut slave = master.open_slave()?;
        if with_modules {
            slave.push(Module::Ldterm)?;
        }
        let text = pattern(200_000);
        let sent = text.clone();
        let writes = thread::spawn(move || Writer::from(slave).write_all(&sent)); // and closes
        let (mut master, mut got) = (Reader::from(master), Vec::new());
        assert_eq!(master.read_to_end(&mut got)?, 200_000);
        assert!(got == text);
        writes.join().expect("it ends")?;
        let account = master.into_end().settle()?;
        agrees(&account);
        assert_eq!(account.told.read.from_slave, 200_000);
    }
    Ok(())
}

#[test]
fn a_split_and_a_join() -> Outcome {
    let system = System::new(1, &TERMINALS)?;
    let (mut master, slave) = system.terminal()?;
    let whole = master.told().parts;
    let second = master.split()?;
    assert_eq!((second.told().told.calls, second.side(), second.pair()), (0, Side::Master, master.pair()));
    assert_eq!((master.told().parts + second.told().parts, slave.told().parts), (whole, whole));
    let mut master = master.join(second)?;
    assert_eq!(master.told().parts, whole);
    assert_eq!(master.write(b"a\r")?, 2);
    system.run(0)?;
    let (mut reader, writer) = slave.into_halves()?;
    assert_eq!(reader.read(&mut [0; 9])?, 2);
    let slave = writer.into_end().join(reader.into_end())?;
    assert_eq!((slave.side(), slave.told().told.read.from_master), (Side::Slave, 2));
    let all = slave.join(master)?; // it calls as the one that opened the pair
    assert_eq!((all.side(), all.told().side, all.told().parts), (Side::Master, Side::Master, 1 << 63));
    agrees(&all.settle()?);
    Ok(())
}

// The calls of both ends and the turns between, on a pair of one thread that begins where the journal did.
#[test]
fn a_cut_of_an_end_is_made_again() -> Outcome {
    let system = System::new(1, &Choices { anew: false, ..TERMINALS })?;
    let (mut master, mut slave) = system.terminal()?;
    let opened = slave.cut()?;
    assert_eq!(opened.entries.len(), 5);
    let (before, mut line) = (slave.told().told, [0; 9]);
    assert_eq!(master.write(b"pwd\r")?, 4);
    let turns = slave.run()?;
    let taken = slave.read(&mut line)?;
    let typed = master.cut()?;
    assert_eq!(typed.entries.len(), turns + 2);
    assert_eq!((taken, slave.told().told.calls), (4, before.calls + 1));
    let mut again = Pair::restore(Sizes::default(), &opened.base)?;
    for (trace, behind) in [(&opened, &typed), (&typed, &slave.cut()?)] {
        for entry in &trace.entries {
            assert_eq!(again.repeat(entry)?, *entry);
        }
        assert_eq!(again.image()?, behind.base);
    }
    agrees(&master.join(slave)?.settle()?);
    Ok(())
}

#[test]
fn ends_of_two_systems_come_back() -> Outcome {
    let (one, other) = (System::new(2, &TERMINALS)?, System::new(2, &TERMINALS)?);
    let ((a, b), (c, d)) = (one.terminal()?, other.terminal()?);
    let kept = a.join(c).expect_err("they are of two systems");
    assert_eq!(kept.refused(), Refused::Call(Refusal::Einval));
    let (a, c) = kept.into_inner();
    let (e, f) = one.terminal()?;
    let (a, e) = a.join(e).expect_err("they are of two pairs").into_inner();
    assert_eq!([a.pair(), c.pair(), e.pair()], [0, 0, 1]);
    for (master, slave) in [(a, b), (c, d), (e, f)] {
        agrees(&master.join(slave)?.settle()?);
    }
    Ok(())
}

#[test]
fn an_end_that_is_no_whole_pair_comes_back() -> Outcome {
    let system = System::new(1, &TERMINALS)?;
    let (master, slave) = system.terminal()?;
    let kept = master.settle().expect_err("the slave's is there");
    assert_eq!((kept.refused().name(), kept.to_string()), ("StillShared", "another end has a part of the pair (StillShared)".into()));
    let mut master = kept.into_inner();
    assert_eq!(master.write(b"x\r")?, 2);
    let account = master.join(slave)?.settle()?;
    assert_eq!(account.told.written.from_master, 2);
    Ok(())
}

#[test]
fn dropped_ends_are_settled_with_the_rest() -> Outcome {
    let system = System::new(1, &TERMINALS)?;
    let (mut master, mut slave) = system.terminal()?;
    assert_eq!(master.write(b"x\r")?, 2);
    system.run(0)?;
    assert_eq!((slave.read(&mut [0; 9])?, slave.write(b"y\n")?), (2, 2));
    let second = slave.split()?;
    drop(slave);
    system.run(0)?;
    let mut shown = [0; 9];
    assert_eq!(master.read(&mut shown)?, 6);
    assert_eq!(&shown[..6], b"x\r\ny\r\n");
    assert_eq!(refusal(master.read(&mut shown)), Some(Refusal::Eagain));
    drop(second);
    let mut master = Reader::from(master);
    assert_eq!((master.read(&mut shown)?, refusal(master.end().open_slave())), (0, None)); // and it may be opened again
    let account = master.into_end().settle()?;
    agrees(&account);
    assert_eq!((account.told.read.from_master, account.told.written.from_slave), (2, 2));
    Ok(())
}

#[test]
fn a_pair_of_dropped_ends_is_free_again() -> Outcome {
    let system = System::new(1, &TERMINALS)?;
    for order in 0..3 {
        let (mut master, slave) = system.terminal()?;
        assert_eq!(refusal(system.terminal()), Some(Refusal::NoMinor));
        let second = master.split()?;
        match order {
            0 => drop((slave, master, second)),
            1 => drop((second, master, slave)),
            _ => drop((master, second.join(slave)?)),
        }
    }
    let claim = system.claim()?;
    assert_eq!((claim.pair(), refusal(system.claim())), (0, Some(Refusal::NoMinor)));
    claim.release();
    drop(system.claim()?);
    agrees(&system.claim()?.open()?.settle()?);
    Ok(())
}

#[test]
fn ends_that_threads_drop_at_once() -> Outcome {
    let system = System::new(2, &TERMINALS)?;
    let _workers = system.start_workers(1)?;
    for round in 0..200 {
        let (mut master, mut slave) = system.terminal()?;
        assert_eq!(master.write(b"x\r")?, 2);
        let mut ends = vec![master.split()?, slave.split()?, master, slave];
        ends.rotate_left(round % 4);
        let drops: Vec<_> = ends.into_iter().map(|end| thread::spawn(move || drop(end))).collect();
        assert!(drops.into_iter().all(|each| each.join().is_ok()));
    }
    let claims = [system.claim()?, system.claim()?];
    assert_eq!(claims.map(|claim| claim.pair()), [0, 1]);
    Ok(())
}

#[test]
fn a_hang_up_is_the_end_of_input() -> Outcome {
    let system = System::new(1, &TERMINALS)?;
    let (mut master, slave) = system.terminal()?;
    let _workers = system.start_workers(1)?;
    let (mut reader, mut writer) = slave.into_halves()?;
    assert_eq!(master.write(b"last\r")?, 5);
    let reads = thread::spawn(move || {
        let mut got = String::new();
        reader.read_to_string(&mut got).map(|_| got)
    });
    thread::sleep(Duration::from_millis(20));
    drop(master);
    assert_eq!(reads.join().expect("it ends")?, "last\n");
    assert_eq!(writer.write(b"x").unwrap_err().kind(), ErrorKind::NotConnected);
    assert!(writer.end().ready()?.is_hung_up());
    Ok(())
}

#[test]
fn a_system_outlives_its_name() -> Outcome {
    let (mut master, mut slave) = {
        let system = System::new(1, &TERMINALS)?;
        let ends = system.terminal()?;
        let workers = system.start_workers(1)?;
        assert_eq!((system.pairs(), refusal(system.start_workers(1))), (1, Some(Refusal::Einval)));
        drop(workers);
        drop(system.start_workers(2)?);
        assert_eq!(refusal(system.start_workers(0)), Some(Refusal::Einval));
        ends
    };
    assert_eq!(master.write(b"x\r")?, 2);
    assert_eq!(refusal(slave.read(&mut [0; 9])), Some(Refusal::Eagain));
    agrees(&master.join(slave)?.settle()?);
    Ok(())
}

#[test]
fn modes_windows_and_groups_of_an_end() -> Outcome {
    let system = System::new(1, &TERMINALS)?;
    let (mut master, mut slave) = system.terminal()?;
    let _workers = system.start_workers(1)?;
    let mut modes = slave.tcgetattr()?;
    modes.lflag &= !termios::ECHO;
    slave.tcsetattr(When::Drain, &modes)?;
    assert_eq!(slave.tcgetattr()?, modes);
    master.set_winsize(Winsize::new(5, 7))?;
    assert_eq!((slave.get_winsize()?, slave.signals()?), (Winsize::new(5, 7), vec![Signal::WINCH]));
    slave.tcsetpgrp(7)?;
    assert_eq!(slave.tcgetpgrp()?, 7);
    slave.set_caller(Caller { group: 8, ..Caller::NOBODY });
    assert_eq!(slave.told().caller.group, 8);
    let error = Reader::from(slave).read(&mut [0; 9]).unwrap_err();
    assert_eq!(error.to_string(), "the caller is in the background, and stopped by SIGTTIN");
    Ok(())
}

#[test]
fn one_ioctl_at_a_time() -> Outcome {
    let system = System::new(1, &TERMINALS)?;
    let (master, mut slave) = system.terminal()?;
    let size = Winsize::new(3, 4);
    slave.set_winsize(size)?;
    slave.timeout = SHORT;
    assert_eq!(slave.write(b"x")?, 1);
    // no worker carries the output on, before which the first one isn't answered, and the second one waits for it
    assert_eq!((refusal(slave.drain()), refusal(slave.get_winsize())), (Some(Refusal::Eagain), Some(Refusal::Eagain)));
    let _workers = system.start_workers(1)?;
    slave.timeout = None;
    assert_eq!(slave.get_winsize()?, size);
    let asks: Vec<_> = (0..4)
        .map(|_| {
            let mut end = slave.split()?;
            Ok(thread::spawn(move || (0..100).all(|_| end.get_winsize() == Ok(size))))
        })
        .collect::<Result<_, Refused>>()?;
    assert!(asks.into_iter().all(|each| each.join().unwrap_or(false)));
    agrees(&master.join(slave)?.settle()?);
    Ok(())
}

#[test]
fn messages_and_modules_of_an_end() -> Outcome {
    let system = System::new(1, &TERMINALS)?;
    let mut master = system.claim()?.open()?;
    assert_eq!(refusal(master.open_slave()), Some(Refusal::Eagain));
    master.unlock()?;
    let mut slave = master.open_slave()?;
    assert_eq!((refusal(slave.look()), refusal(slave.pop())), (Some(Refusal::Einval), Some(Refusal::Einval)));
    slave.push(Module::Ptem)?;
    assert_eq!((slave.look()?, slave.pop()?), (Module::Ptem, ()));
    master.put(Priority::Band(3), Some(b"control"), Some(b"data"))?;
    system.run(0)?;
    assert_eq!(slave.nread()?, (1, 4));
    assert_eq!(refusal(slave.read(&mut [0; 9])), Some(Refusal::Ebadmsg));
    assert_eq!(Reader::from(slave.split()?).read(&mut [0; 9]).unwrap_err().kind(), ErrorKind::InvalidData);
    let message = slave.get(Wanted::Any, 64, 256)?;
    assert_eq!((message.control.as_deref(), message.data.as_deref()), (Some(&b"control"[..]), Some(&b"data"[..])));
    assert_eq!(refusal(slave.call(Event::OpenMaster)), Some(Refusal::Einval));
    assert_eq!(slave.call(Event::Write(b"abc".to_vec()))?, Answer::Count(3));
    assert!(system.turn(0)?.is_some());
    assert_eq!((system.turn(0)?, refusal(system.turn(1)), refusal(system.run(1))), (None, Some(Refusal::Einval), Some(Refusal::Einval)));
    let seen = system.audit(0)?;
    assert_eq!((seen.told.written.from_slave, seen.sm.queued), (3, 3));
    let account = master.join(slave)?.settle()?;
    agrees(&account);
    assert_eq!((account.told.written.from_master, account.told.read.from_master), (11, 11));
    Ok(())
}

#[test]
fn a_slave_that_is_dropped_waits_for_its_output() -> Outcome {
    let system = System::new(1, &TERMINALS)?;
    let (master, mut slave) = system.terminal()?;
    let written = floods(&mut slave)?;
    let _workers = system.start_workers(1)?;
    slave.timeout = SHORT;
    assert_eq!((refusal(slave.write_all(b"x")), refusal(slave.drain())), (Some(Refusal::Eagain), Some(Refusal::Eagain)));
    let reads = thread::spawn(move || {
        thread::sleep(Duration::from_millis(50));
        let mut got = Vec::new();
        Reader::from(master).read_to_end(&mut got)
    });
    drop(slave);
    assert_eq!(reads.join().expect("it ends")?, written);
    Ok(())
}

#[test]
fn who_closes_does_not_linger() -> Outcome {
    let system = System::new(1, &TERMINALS)?;
    let (master, mut slave) = system.terminal()?;
    slave.timeout = SHORT;
    assert!((1..20_000).contains(&slave.write_all(&[b'x'; 20_000])?)); // no more behind the time
    let written = slave.told().told.written.from_slave as usize + floods(&mut slave)?;
    let began = Instant::now();
    slave.close()?;
    drop(slave);
    assert!(began.elapsed() < Duration::from_secs(5));
    let _workers = system.start_workers(1)?;
    let mut got = Vec::new();
    let mut master = Reader::from(master);
    assert!(master.read_to_end(&mut got)? < written); // what stood in the modules is gone
    let account = master.into_end().settle()?;
    agrees(&account);
    assert!(account.sm.gone[17] > 0); // end-closed
    Ok(())
}

extern "C" {
    fn poll(fds: *mut [i32; 2], n: u64, timeout: i32) -> i32;
}

fn is_readable(end: &impl AsRawFd) -> bool {
    // struct pollfd: the descriptor, and POLLIN in the first half of the second word
    let mut asked = [end.as_raw_fd(), 1];
    // SAFETY: it is one struct pollfd.
    unsafe { poll(&mut asked, 1, 0) == 1 }
}

#[test]
fn a_descriptor_tells_of_changes() -> Outcome {
    let system = System::new(1, &TERMINALS)?;
    let (mut master, mut slave) = system.terminal()?;
    assert!(slave.as_fd()?.as_raw_fd() > 2 && is_readable(&slave));
    assert!(!slave.ready()?.can_read() && !is_readable(&slave));
    assert_eq!(master.write(b"x\r")?, 2);
    system.run(0)?;
    assert!(is_readable(&slave) && slave.ready()?.can_read() && !is_readable(&slave));
    Ok(())
}

fn is_send<T: Send>(it: T) -> T {
    it
}

#[test]
fn what_may_go_to_another_thread() -> Outcome {
    fn is_shared<T: Send + Sync>(it: T) -> T {
        it
    }
    let system = is_shared(System::new(8, &TERMINALS)?);
    let _workers = is_shared(system.start_workers(2)?);
    let sessions: Vec<_> = (0..8_u8)
        .map(|number| {
            let system = system.clone();
            thread::spawn(move || {
                let (master, slave) = is_send(system.terminal()?);
                let (mut master, mut slave) = (Writer::from(master), Reader::from(slave));
                for _ in 0..50 {
                    master.write_all(&[b'a' + number, b'\r'])?;
                    let mut line = [0; 9];
                    assert_eq!((slave.read(&mut line)?, line[0]), (2, b'a' + number));
                }
                Ok::<End, io::Error>(master.into_end().join(slave.into_end())?)
            })
        })
        .collect();
    for session in sessions {
        agrees(&session.join().expect("it ends")?.settle()?);
    }
    Ok(())
}
