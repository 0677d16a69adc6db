//! Calls by ends: those of `Pair`, without a side.
use std::sync::Arc;

use super::{ffi, End};
use crate::call::parts_of;
use crate::ffi::{Ask, Reply};
use crate::pair::{given, not_stopped, unmeant};
use crate::refused::told;
use crate::{
    Answer, Call, Caller, Command, Event, Flush, Message, Mode, Module, Priority, Ready, Refusal, Refused, Signal, Termios, Wanted, When,
    Winsize, READ_MOST, WRITE_MOST,
};

fn ask(op: u32, a: u32) -> Ask {
    Ask { op, a, ..Ask::default() }
}

/// Calls return at once, and are refused with EAGAIN where they would have to wait. Those that wait say so.
impl End {
    fn reply(&mut self, ask: &Ask, bytes: &[u8], out: &mut [u8]) -> Result<Reply, Refused> {
        let (mut reply, (at, length), (to, room)) = (Reply::default(), (bytes.as_ptr(), bytes.len()), (out.as_mut_ptr(), out.len()));
        // SAFETY: the end is this one's alone, each pointer leads to as much as its length says, and none overlaps another.
        told(unsafe { ffi::strm_end_call(self.at, ask, at, length, to, room, &mut reply) })?;
        Ok(reply)
    }

    /// Makes any call as the end's side, by its caller. EINVAL: `OpenMaster` and `OpenSlave`, which make ends.
    pub fn call(&mut self, event: Event) -> Result<Answer, Refused> {
        let call = Call { side: self.side(), caller: Caller::NOBODY, event };
        let (ask, bytes, room) = call.ask();
        let mut out = vec![0; room];
        let reply = self.reply(&ask, &bytes, &mut out)?;
        Answer::of(&reply, &out[..reply.bytes.min(room)]).ok_or(Refused::Call(Refusal::Other(reply.kind)))
    }

    // Makes a call. What job control stops isn't done.
    fn asks(&mut self, event: Event) -> Result<Answer, Refused> {
        match self.call(event)? {
            Answer::Stopped(signal) => Err(Refused::Stopped(signal)),
            answer => Ok(answer),
        }
    }

    /// unlockpt(3C), by an end of the master.
    pub fn unlock(&mut self) -> Result<(), Refused> {
        self.asks(Event::Unlock).map(drop)
    }

    /// close(2) of the side, for all of its ends, at once: what stands in its modules is gone.
    pub fn close(&mut self) -> Result<(), Refused> {
        self.asks(Event::Close).map(drop)
    }

    /// I_PUSH. EINVAL: it stands there.
    pub fn push(&mut self, module: Module) -> Result<(), Refused> {
        self.asks(Event::Push(module)).map(drop)
    }

    /// I_POP. EINVAL: there is none.
    pub fn pop(&mut self) -> Result<(), Refused> {
        self.asks(Event::Pop).map(drop)
    }

    /// I_LOOK: the top module. EINVAL: there is none.
    pub fn look(&mut self) -> Result<Module, Refused> {
        match self.asks(Event::Look)? {
            Answer::Name(module) => Ok(module),
            other => Err(unmeant(&other)),
        }
    }

    /// I_FLUSH, or I_FLUSHBAND of one band.
    pub fn flush(&mut self, what: Flush, band: Option<u8>) -> Result<(), Refused> {
        self.asks(Event::Flush(what, band)).map(drop)
    }

    /// I_SRDOPT.
    pub fn srdopt(&mut self, mode: Mode) -> Result<(), Refused> {
        self.asks(Event::Mode(mode)).map(drop)
    }

    /// I_NREAD: how many messages stand at the head, and how many bytes of data the first one has.
    pub fn nread(&mut self) -> Result<(usize, usize), Refused> {
        match self.asks(Event::Nread)? {
            Answer::Sizes(messages, bytes) => Ok((messages as usize, bytes as usize)),
            other => Err(unmeant(&other)),
        }
    }

    /// write(2) of at most the first [`WRITE_MOST`] bytes: how many were taken. EAGAIN: flow control takes none.
    pub fn write(&mut self, bytes: &[u8]) -> Result<usize, Refused> {
        let reply = self.reply(&ask(8, 0), &bytes[..bytes.len().min(WRITE_MOST)], &mut [])?;
        not_stopped(&reply)?;
        Ok(reply.value as usize)
    }

    /// read(2) of as many bytes as the buffer has room for, and [`READ_MOST`]: how many came. 0: the end of input, which is a hang-up, or an
    /// EOF key where `ldterm` stands. EAGAIN: nothing stands there. EBADMSG: the first message has a control part, which a get takes.
    pub fn read(&mut self, out: &mut [u8]) -> Result<usize, Refused> {
        let reply = self.reply(&ask(9, out.len().min(READ_MOST) as u32), &[], out)?;
        not_stopped(&reply)?;
        Ok(reply.bytes)
    }

    /// write(2) that sleeps until a byte or more was taken: how many. EAGAIN: the time of [`End::timeout`] is over.
    pub fn write_wait(&mut self, bytes: &[u8]) -> Result<usize, Refused> {
        loop {
            match self.write(bytes) {
                Err(Refused::Call(Refusal::Eagain | Refusal::Enosr)) => self.wait(Ready(Ready::CAN_WRITE), self.timeout)?,
                done => return done,
            };
        }
    }

    /// write(2) of all bytes, which sleeps where there is no room: how many were taken, which are fewer where the time of [`End::timeout`] is over
    /// behind some of them.
    pub fn write_all(&mut self, bytes: &[u8]) -> Result<usize, Refused> {
        let mut taken = 0;
        while taken < bytes.len() {
            match self.write_wait(&bytes[taken..]) {
                Ok(more) => taken += more,
                Err(refused) if refused.would_wait() && taken > 0 => break,
                Err(refused) => return Err(refused),
            }
        }
        Ok(taken)
    }

    /// read(2) that sleeps until a byte, the end of input or a message that no read gives is there. EAGAIN: the time of [`End::timeout`] is over.
    pub fn read_wait(&mut self, out: &mut [u8]) -> Result<usize, Refused> {
        let mut ready = Ready(Ready::CAN_READ);
        loop {
            match self.read(out) {
                Err(refused) if refused.would_wait() && ready.can_read() => ready = self.wait(Ready(Ready::CAN_READ), self.timeout)?,
                // Hung up, and nothing is to come.
                Err(refused) if refused.would_wait() => return Ok(0),
                done => return done,
            }
        }
    }

    /// tcdrain(3C): sleeps until all that the slave wrote has left its modules, and the master can read it. EAGAIN: the time of [`End::timeout`] is
    /// over.
    pub fn drain(&mut self) -> Result<(), Refused> {
        // A command that sets modes goes behind the output. It brings none, so it sets none, and is answered with M_IOCNAK.
        match self.ioctl(Command::TCSETSW, &[]) {
            Ok(_) | Err(Refused::Nak(_)) => Ok(()),
            Err(refused) => Err(refused),
        }
    }

    /// putpmsg(2): a control part of at most 64 bytes, and data of at most 256, else ERANGE. EAGAIN: flow control holds that band back.
    pub fn put(&mut self, priority: Priority, control: Option<&[u8]>, data: Option<&[u8]>) -> Result<(), Refused> {
        let (b, c) = parts_of(control, data);
        let bytes = [control.unwrap_or_default(), data.unwrap_or_default()].concat();
        let reply = self.reply(&Ask { b, c, ..ask(10, priority.number()) }, &bytes, &mut [])?;
        not_stopped(&reply)
    }

    /// getpmsg(2): the first message, if it is the wanted one, or its front of at most so many bytes of the control part and of the data.
    pub fn get(&mut self, wanted: Wanted, control: usize, data: usize) -> Result<Message, Refused> {
        let most = |bytes: usize| bytes.min(READ_MOST) as u32;
        match self.asks(Event::Get(wanted, most(control), most(data)))? {
            Answer::Message(message) => Ok(message),
            other => Err(unmeant(&other)),
        }
    }

    /// The signals that came up, each once, in order.
    pub fn signals(&mut self) -> Result<Vec<Signal>, Refused> {
        match self.asks(Event::Signals)? {
            Answer::Signals(signals) => Ok(signals),
            other => Err(unmeant(&other)),
        }
    }

    /// I_STR, which sleeps until it is answered, as workers make the turns: the bytes of its answer. An ioctl of another end of the side is waited
    /// for first. `Nak`: it was answered so. EAGAIN: the time of [`End::timeout`] is over, and its answer is nobody's; who wants that later asks by
    /// `call` with `Event::Ioctl`, and takes it by `ioctl_result`. ENXIO: the side was closed meanwhile.
    pub fn ioctl(&mut self, command: Command, body: &[u8]) -> Result<Vec<u8>, Refused> {
        let shared = Arc::clone(&self.shared);
        let mut turn = shared.ioctls[self.side() as usize].takes(self.timeout)?;
        if let Some(before) = turn.unanswered {
            match self.answered(before) {
                Err(refused) if refused.would_wait() => return Err(refused),
                _ => turn.unanswered = None,
            }
        }
        let number = match self.asks(Event::Ioctl(command, body.to_vec()))? {
            Answer::Pending(number) => number,
            answer => return given(answer),
        };
        let answer = self.answered(number);
        turn.unanswered = answer.as_ref().err().filter(|refused| refused.would_wait()).map(|_| number);
        answer
    }

    // Sleeps until a pending ioctl is answered.
    fn answered(&mut self, number: u32) -> Result<Vec<u8>, Refused> {
        loop {
            self.runs();
            match self.ioctl_result(number) {
                Err(refused) if refused.would_wait() => {}
                done => return done,
            }
            if !self.wait(Ready(Ready::HAS_ANSWER), self.timeout)?.has_answer() {
                return Err(Refused::Call(Refusal::Enxio)); // hung up, and no answer is to come
            }
        }
    }

    /// The bytes that answer the ioctl of a number, given once. EAGAIN: it isn't answered.
    pub fn ioctl_result(&mut self, number: u32) -> Result<Vec<u8>, Refused> {
        self.asks(Event::IoctlResult(number)).and_then(given)
    }

    /// TCGETS, which waits as an ioctl does. Nak where no `ptem` stands.
    pub fn tcgetattr(&mut self) -> Result<Termios, Refused> {
        self.wire(Command::TCGETS).map(|wire| Termios::of_wire(&wire))
    }

    /// Sets the modes of a terminal, and waits as an ioctl does.
    pub fn tcsetattr(&mut self, when: When, termios: &Termios) -> Result<(), Refused> {
        self.ioctl(when.command(), &termios.to_wire()).map(drop)
    }

    /// TIOCGWINSZ, which waits as an ioctl does.
    pub fn get_winsize(&mut self) -> Result<Winsize, Refused> {
        self.wire(Command::TIOCGWINSZ).map(|wire| Winsize::of_wire(&wire))
    }

    /// TIOCSWINSZ, which waits as an ioctl does: where the size changes, SIGWINCH comes to the slave.
    pub fn set_winsize(&mut self, size: Winsize) -> Result<(), Refused> {
        self.ioctl(Command::TIOCSWINSZ, &size.to_wire()).map(drop)
    }

    /// TIOCGPGRP, which waits as an ioctl does: the foreground group; 0 where there is none.
    pub fn tcgetpgrp(&mut self) -> Result<u32, Refused> {
        self.wire(Command::TIOCGPGRP).map(u32::from_be_bytes)
    }

    /// TIOCSPGRP, which waits as an ioctl does: sets the foreground group.
    pub fn tcsetpgrp(&mut self, group: u32) -> Result<(), Refused> {
        self.ioctl(Command::TIOCSPGRP, &group.to_be_bytes()).map(drop)
    }

    // What an ioctl gives of which an answer has so many bytes.
    fn wire<const SIZE: usize>(&mut self, command: Command) -> Result<[u8; SIZE], Refused> {
        let given = self.ioctl(command, &[])?;
        given.try_into().map_err(|_| Refused::Call(Refusal::Einval))
    }
}
