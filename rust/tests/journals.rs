//! Journals and images: entries, those that are made again, full journals, and pairs that go on.
use strm::{
    Answer, Call, Caller, Cursor, Entry, Event, Flush, Mode, Module, Pair, Priority, Queue, Refused, Side, Sizes, Trace, Wanted, Winsize,
};
use Side::{Master, Slave};

fn read(pair: &mut Pair, side: Side) -> Result<Vec<u8>, Refused> {
    let mut out = [0; 4096];
    pair.read(side, &mut out).map(|n| out[..n].to_vec())
}

fn name(entry: &Entry) -> String {
    let text = match entry {
        Entry::Call(call, _) => format!("{:?}", call.event),
        Entry::Turn(queue, _) => format!("{queue:?}"),
    };
    text.split(['(', ' ']).next().unwrap_or_default().to_string()
}

/// A session with each kind of call.
fn session(pair: &mut Pair) -> Result<(), Refused> {
    pair.open_master()?;
    pair.unlock()?;
    pair.open_slave()?;
    pair.push(Master, Module::Pckt)?;
    pair.put(Slave, Priority::High, Some(b"\xff\0"), Some(b"\"\n"))?;
    pair.put(Slave, Priority::Band(3), None, Some(b""))?;
    pair.put(Master, Priority::Band(3), Some(b"c"), None)?;
    pair.flush(Master, Flush::Both, Some(4))?;
    pair.flush(Slave, Flush::Read, None)?;
    pair.srdopt(Master, Mode::ProtDat)?;
    pair.runqueues()?;
    pair.nread(Master)?;
    pair.get(Master, Wanted::Any, 1, 4096)?;
    pair.look(Master)?;
    pair.pop(Master)?;
    pair.push(Slave, Module::Ptem)?;
    pair.push(Slave, Module::Ldterm)?;
    pair.caller = Caller { group: 7, ignores: true, orphaned: false };
    pair.tcsetpgrp(Slave, 7)?;
    pair.set_winsize(Master, Winsize::new(2, 3))?;
    pair.write(Master, b"ab\r\x03")?;
    pair.runqueues()?;
    pair.signals(Slave)?;
    pair.caller = Caller { group: 8, ignores: false, orphaned: false };
    assert!(matches!(read(pair, Slave), Err(Refused::Stopped(_))));
    pair.caller = Caller::NOBODY;
    pair.close(Master)?;
    pair.runqueues()?;
    assert_eq!(read(pair, Slave)?, b"");
    pair.close(Slave)
}

#[test]
fn entries_are_calls_and_turns_in_order() -> Result<(), Refused> {
    let mut pair = Pair::new(Sizes::default())?;
    pair.open_master()?;
    pair.write(Master, b"x\0y")?;
    assert!(read(&mut pair, Master).is_err());
    pair.unlock()?;
    pair.open_slave()?;
    pair.runqueues()?;
    pair.read(Slave, &mut [0; 2])?;
    let told = pair.entries()?;
    let names: Vec<_> = told.iter().map(name).collect();
    assert_eq!(names, ["OpenMaster", "Write", "Unlock", "OpenSlave", "MasterDriver", "Read"]);
    let call = |side, event, answer| Entry::Call(Call::new(side, event), answer);
    assert_eq!(told[1], call(Master, Event::Write(b"x\0y".to_vec()), Answer::Count(3)));
    assert_eq!(told[5], call(Slave, Event::Read(2), Answer::Bytes(b"x\0".to_vec())));
    Ok(())
}

#[test]
fn a_journal_is_made_again_answer_by_answer() -> Result<(), Refused> {
    let (mut pair, mut again) = (Pair::new(Sizes::default())?, Pair::new(Sizes::default())?);
    session(&mut pair)?;
    let told = pair.entries()?;
    assert!(told.len() > 30, "{}", told.len());
    for entry in &told {
        assert_eq!(again.repeat(entry)?, *entry);
    }
    assert_eq!(again.entries()?, told);
    assert_eq!(again.image()?, pair.image()?);
    Ok(())
}

#[test]
fn a_cut_is_made_again() -> Result<(), Refused> {
    let mut pair = Pair::new(Sizes::default())?;
    pair.open_terminal()?;
    pair.write(Master, b"pwd\r")?;
    pair.restart()?;
    let base = pair.image()?;
    pair.runqueues()?;
    assert_eq!(read(&mut pair, Slave)?, b"pwd\n");
    let (entries, image) = (pair.entries()?, pair.image()?);
    let mut at = Cursor::default();
    assert!(pair.next_entry(&mut at)?.is_some());
    let trace = pair.cut()?;
    assert_eq!(trace, Trace { base, entries });
    assert!(trace.entries.len() > 2, "{}", trace.entries.len());
    assert_eq!((pair.image()?, pair.entries()?, pair.next_entry(&mut at)?), (image.clone(), vec![], None));
    let mut again = Pair::restore(Sizes::default(), &trace.base)?;
    for entry in &trace.entries {
        assert_eq!(again.repeat(entry)?, *entry);
    }
    assert_eq!(again.image()?, image);
    pair.free();
    assert_eq!(pair.cut().err().map(|refused| refused.name()), Some("EINVAL"));
    Ok(())
}

#[test]
fn a_full_journal_begins_anew() -> Result<(), Refused> {
    let mut pair = Pair::new(Sizes { blocks: 256, entries: 64, bytes: 8192 })?;
    pair.open_terminal()?;
    for _ in 0..300 {
        pair.write(Master, b"line\r")?;
        pair.runqueues()?;
        assert_eq!(read(&mut pair, Slave)?, b"line\n");
        assert_eq!(read(&mut pair, Master)?, b"line\r\n");
    }
    assert!(pair.room()?.entries < 64);
    Ok(())
}

#[test]
fn a_recorder_takes_every_entry_of_a_kept_journal() -> Result<(), Refused> {
    let (mut pair, mut at, mut entries) = (Pair::new(Sizes { blocks: 256, entries: 16, bytes: 8192 })?, Cursor::default(), Vec::new());
    pair.keeps = true;
    let mut drained = |pair: &mut Pair, made: Result<usize, Refused>| -> Result<bool, Refused> {
        while let Some(entry) = pair.next_entry(&mut at)? {
            entries.push(entry);
        }
        match made {
            Err(refused) if refused.name() == "JournalFull" => pair.restart().map(|()| false),
            done => done.map(|_| true),
        }
    };
    pair.open_terminal()?;
    for number in 0..100 {
        let line = format!("{number}\r");
        loop {
            let made = pair.write(Master, line.as_bytes());
            if drained(&mut pair, made)? {
                break;
            }
        }
        loop {
            let made = pair.runqueues();
            if drained(&mut pair, made)? {
                break;
            }
        }
        for side in [Slave, Master] {
            loop {
                let made = pair.read(side, &mut [0; 256]);
                if drained(&mut pair, made)? {
                    break;
                }
            }
        }
    }
    let writes = entries.iter().filter(|entry| matches!(entry, Entry::Call(call, _) if matches!(call.event, Event::Write(_))));
    assert_eq!(writes.count(), 100);
    let mut again = Pair::new(Sizes::default())?;
    for entry in &entries {
        assert_eq!(again.repeat(entry)?, *entry);
    }
    assert_eq!(again.image()?, pair.image()?);
    Ok(())
}

#[test]
fn a_journal_without_room_refuses_and_nothing_hangs() -> Result<(), Refused> {
    let mut none = Pair::new(Sizes { blocks: 64, entries: 0, bytes: 0 })?;
    assert_eq!(none.open_master().unwrap_err().name(), "JournalFull");
    let mut one = Pair::new(Sizes { blocks: 64, entries: 1, bytes: 1 })?;
    one.open_master()?;
    one.unlock()?;
    one.open_slave()?;
    assert_eq!(one.write(Master, b"xy").unwrap_err().name(), "JournalFull");
    one.write(Master, b"x")?;
    one.runqueues()?;
    Ok(())
}

#[test]
fn turns_that_do_not_end_are_told() -> Result<(), Refused> {
    let mut pair = Pair::new(Sizes { blocks: 256, entries: 500, bytes: 8192 })?;
    pair.open_terminal()?;
    pair.push(Master, Module::Ldterm)?;
    pair.write(Master, b"x")?;
    assert_eq!(pair.runqueues().unwrap_err().name(), "JournalFull");
    assert!(pair.ledger(Slave)?.balance() && !pair.at_rest());
    Ok(())
}

#[test]
fn a_pair_goes_on_where_its_image_was_made() -> Result<(), Refused> {
    let mut pair = Pair::terminal()?;
    pair.set_winsize(Master, Winsize::new(10, 40))?;
    pair.write(Master, b"half a l")?;
    pair.turn(Queue::MasterDriver)?;
    let (image, books) = (pair.image()?, pair.ledger(Master)?);
    for mut again in [Pair::restore(Sizes { blocks: 256, entries: 64, bytes: 8192 }, &image)?, Pair::restore(Sizes::default(), &image)?] {
        assert_eq!((again.image()?, again.enabled()), (image.clone(), pair.enabled()));
        assert_eq!((again.ledger(Master)?, again.get_winsize(Slave)?), (books.clone(), Winsize::new(10, 40)));
        again.write(Master, b"ine\r")?;
        again.runqueues()?;
        assert_eq!(read(&mut again, Slave)?, b"half a line\n");
        assert_eq!(read(&mut again, Master)?, b"half a line\r\n");
    }
    Ok(())
}

#[test]
fn what_is_no_image_is_refused() -> Result<(), Refused> {
    let image = Pair::terminal()?.image()?;
    let longer = [&image[..], b"x"].concat();
    for wrong in [&[][..], &image[1..], &image[..image.len() - 1], &longer] {
        assert_eq!(Pair::restore(Sizes::default(), wrong).map(drop).unwrap_err().name(), "EINVAL");
    }
    let mut full = Pair::new(Sizes::default())?;
    full.open_master()?;
    for _ in 0..512 {
        full.write(Master, b"x")?;
    }
    let few = Sizes { blocks: 100, ..Sizes::default() };
    assert_eq!(Pair::restore(few, &full.image()?).map(drop).unwrap_err().name(), "ENOSR");
    Ok(())
}
