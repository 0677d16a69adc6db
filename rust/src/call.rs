//! Calls, and what they come to.
use std::borrow::Cow;

use crate::ffi::{Ask, Reply};
use crate::names::{Flush, Mode, Module, Priority, Side, Signal, Wanted, ANY};
use crate::termios::Command;
use crate::Refusal;

/// Who calls, for job control.
#[derive(Clone, Copy, Debug, Default, PartialEq, Eq, Hash)]
pub struct Caller {
    /// The caller's process group; 0: none, and job control asks nothing of it.
    pub group: u32,
    /// Whether it ignores or blocks SIGTTIN and SIGTTOU.
    pub ignores: bool,
    /// Whether its group is orphaned.
    pub orphaned: bool,
}

impl Caller {
    /// A caller of no group.
    pub const NOBODY: Caller = Caller { group: 0, ignores: false, orphaned: false };
}

/// What is asked for.
#[derive(Clone, Debug, PartialEq, Eq)]
pub enum Event {
    /// open(2) of the master.
    OpenMaster,
    /// unlockpt(3C).
    Unlock,
    /// open(2) of the slave.
    OpenSlave,
    /// close(2).
    Close,
    /// I_PUSH.
    Push(Module),
    /// I_POP.
    Pop,
    /// I_LOOK.
    Look,
    /// I_FLUSH, or I_FLUSHBAND of a band.
    Flush(Flush, Option<u8>),
    /// write(2).
    Write(Vec<u8>),
    /// read(2) of at most so many bytes, and 4096.
    Read(u32),
    /// putpmsg(2): a control part of at most 64 bytes, and data of at most 256; `None`: absent.
    Put(Priority, Option<Vec<u8>>, Option<Vec<u8>>),
    /// getpmsg(2), with the most bytes of the control part and of the data part, each at most 4096.
    Get(Wanted, u32, u32),
    /// I_SRDOPT.
    Mode(Mode),
    /// I_NREAD.
    Nread,
    /// I_STR.
    Ioctl(Command, Vec<u8>),
    /// What a pending ioctl was answered, by the number that it was given.
    IoctlResult(u32),
    /// The signals that came up.
    Signals,
}

/// A call of a side's stream, by a caller.
#[derive(Clone, Debug, PartialEq, Eq)]
pub struct Call {
    /// On which stream.
    pub side: Side,
    /// By whom.
    pub caller: Caller,
    /// What is asked for.
    pub event: Event,
}

/// What a call came to that wasn't refused.
#[derive(Clone, Debug, PartialEq, Eq)]
pub enum Answer {
    /// It is done.
    Done,
    /// The top module.
    Name(Module),
    /// So many bytes were taken.
    Count(u32),
    /// Bytes that a read or an ioctl gives.
    Bytes(Vec<u8>),
    /// A message, or the front of one.
    Message(Message),
    /// How many messages stand at the head, and how many bytes of data the first one has.
    Sizes(u32, u32),
    /// The ioctl waits for its answer under this number.
    Pending(u32),
    /// The ioctl was answered with M_IOCNAK.
    Nak(Refusal),
    /// The signals that came up, each once, in order.
    Signals(Vec<Signal>),
    /// Job control would stop the caller.
    Stopped(Signal),
}

/// What a get gives.
#[derive(Clone, Debug, PartialEq, Eq)]
pub struct Message {
    /// Its band, or high priority.
    pub priority: Priority,
    /// The control part; `None`: it has none.
    pub control: Option<Vec<u8>>,
    /// The data part; `None`: it has none.
    pub data: Option<Vec<u8>>,
    /// Whether more of the control part waits: MORECTL.
    pub more_control: bool,
    /// Whether more of the data part waits: MOREDATA.
    pub more_data: bool,
}

const CONTROL: u32 = 1;
const DATA: u32 = 2;
const BOTH: u32 = 3;

impl Call {
    /// A call of nobody.
    pub fn new(side: Side, event: Event) -> Call {
        Call { side, caller: Caller::NOBODY, event }
    }

    // The numbers of the call, the bytes that it brings, and the room that its answer may take.
    pub(crate) fn ask(&self) -> (Ask, Cow<'_, [u8]>, usize) {
        let none = Cow::Borrowed(&[][..]);
        let (op, [a, b, c], bytes, room) = match &self.event {
            Event::OpenMaster => (0, [0; 3], none, 0),
            Event::Unlock => (1, [0; 3], none, 0),
            Event::OpenSlave => (2, [0; 3], none, 0),
            Event::Close => (3, [0; 3], none, 0),
            Event::Push(module) => (4, [*module as u32, 0, 0], none, 0),
            Event::Pop => (5, [0; 3], none, 0),
            Event::Look => (6, [0; 3], none, 0),
            Event::Flush(what, band) => (7, [*what as u32, band.map_or(ANY, u32::from), 0], none, 0),
            Event::Write(bytes) => (8, [0; 3], bytes.into(), 0),
            Event::Read(most) => (9, [*most, 0, 0], none, (*most).min(4096) as usize),
            Event::Put(priority, control, data) => {
                let (parts, split) = parts_of(control.as_deref(), data.as_deref());
                let bytes = [control.as_deref().unwrap_or_default(), data.as_deref().unwrap_or_default()].concat();
                (10, [priority.number(), parts, split], bytes.into(), 0)
            }
            Event::Get(wanted, control, data) => {
                let room = (*control).min(4096) + (*data).min(4096);
                (11, [wanted.number(), *control, *data], none, room as usize)
            }
            Event::Mode(mode) => (12, [*mode as u32, 0, 0], none, 0),
            Event::Nread => (13, [0; 3], none, 0),
            Event::Ioctl(command, body) => (14, [command.0, 0, 0], body.into(), 256),
            Event::IoctlResult(number) => (15, [*number, 0, 0], none, 256),
            Event::Signals => (16, [0; 3], none, 32),
        };
        let Caller { group, ignores, orphaned } = self.caller;
        (Ask { op, side: self.side as u32, a, b, c, group, ignores, orphaned }, bytes, room)
    }

    // The call of numbers and bytes, as a journal has them. None: no call has such numbers.
    pub(crate) fn of(ask: &Ask, bytes: &[u8]) -> Option<Call> {
        let event = match ask.op {
            0 => Event::OpenMaster,
            1 => Event::Unlock,
            2 => Event::OpenSlave,
            3 => Event::Close,
            4 => Event::Push(Module::of(ask.a)?),
            5 => Event::Pop,
            6 => Event::Look,
            7 => Event::Flush(Flush::of(ask.a)?, u8::try_from(ask.b).ok()),
            8 => Event::Write(bytes.to_vec()),
            9 => Event::Read(ask.a),
            10 => put_of(ask, bytes)?,
            11 => Event::Get(Wanted::of(ask.a)?, ask.b, ask.c),
            12 => Event::Mode(Mode::of(ask.a)?),
            13 => Event::Nread,
            14 => Event::Ioctl(Command(ask.a), bytes.to_vec()),
            15 => Event::IoctlResult(ask.a),
            16 => Event::Signals,
            _ => return None,
        };
        let caller = Caller { group: ask.group, ignores: ask.ignores, orphaned: ask.orphaned };
        Some(Call { side: Side::of(ask.side)?, caller, event })
    }
}

// Which parts a put has, and how many bytes in front are the control part where there are both.
pub(crate) fn parts_of(control: Option<&[u8]>, data: Option<&[u8]>) -> (u32, u32) {
    match (control, data) {
        (None, None) => (0, 0),
        (Some(_), None) => (CONTROL, 0),
        (None, Some(_)) => (DATA, 0),
        (Some(control), Some(_)) => (BOTH, u32::try_from(control.len()).unwrap_or(u32::MAX)),
    }
}

fn put_of(ask: &Ask, bytes: &[u8]) -> Option<Event> {
    let (control, data) = split(ask.b, ask.c, bytes)?;
    Some(Event::Put(Priority::of(ask.a)?, control, data))
}

type Part = Option<Vec<u8>>;

// The parts of bytes of which, where there are both, so many in front are the control part.
fn split(parts: u32, size: u32, bytes: &[u8]) -> Option<(Part, Part)> {
    let at = match parts {
        0 | DATA => 0,
        CONTROL => bytes.len(),
        BOTH => usize::try_from(size).ok().filter(|size| *size <= bytes.len())?,
        _ => return None,
    };
    let (control, data) = bytes.split_at(at);
    Some(((parts & CONTROL != 0).then(|| control.to_vec()), (parts & DATA != 0).then(|| data.to_vec())))
}

impl Answer {
    // The answer of a reply and the bytes that it gives. None: no answer has such numbers.
    pub(crate) fn of(reply: &Reply, bytes: &[u8]) -> Option<Answer> {
        Some(match reply.kind {
            0 => Answer::Done,
            1 => Answer::Name(Module::of(reply.value)?),
            2 => Answer::Count(reply.value),
            3 => Answer::Bytes(bytes.to_vec()),
            4 => Answer::Message(Message::of(reply, bytes)?),
            5 => Answer::Sizes(reply.value, reply.size),
            6 => Answer::Pending(reply.value),
            7 => Answer::Nak(Refusal::of(reply.value)),
            8 => Answer::Signals(bytes.iter().map(|number| Signal(*number)).collect()),
            9 => Answer::Stopped(Signal(u8::try_from(reply.value).ok()?)),
            _ => return None,
        })
    }
}

impl Message {
    fn of(reply: &Reply, bytes: &[u8]) -> Option<Message> {
        let (control, data) = split(reply.parts, reply.size, bytes)?;
        let priority = Priority::of(reply.prio)?;
        Some(Message { priority, control, data, more_control: reply.more_control, more_data: reply.more_data })
    }
}
