//! Sides, modules, queues, and the other words of the calls.

/// A side, and the direction of what it writes.
#[derive(Clone, Copy, Debug, PartialEq, Eq, Hash)]
pub enum Side {
    /// The end that a terminal emulator or a login server holds.
    Master = 0,
    /// The end that a program holds.
    Slave = 1,
}

impl Side {
    pub(crate) fn of(number: u32) -> Option<Side> {
        [Side::Master, Side::Slave].into_iter().find(|side| *side as u32 == number)
    }
}

/// A module.
#[derive(Clone, Copy, Debug, PartialEq, Eq, Hash)]
pub enum Module {
    /// The line discipline.
    Ldterm = 1,
    /// Modes and window of a terminal.
    Ptem = 2,
    /// Packets for the master.
    Pckt = 3,
}

impl Module {
    pub(crate) fn of(number: u32) -> Option<Module> {
        [Module::Ldterm, Module::Ptem, Module::Pckt].into_iter().find(|module| *module as u32 == number)
    }

    /// Its name, as scripts have it.
    pub fn name(self) -> &'static str {
        ["ldterm", "ptem", "pckt"][self as usize - 1]
    }
}

/// A queue with messages: of a head, of `ldterm`, or of a driver; `Read` goes up to the reader, `Write` down.
#[derive(Clone, Copy, Debug, PartialEq, Eq, Hash)]
pub enum Queue {
    /// Where the master reads.
    MasterHead = 0,
    /// Up to the master's head, of an `ldterm` there.
    MasterLdtermRead = 2,
    /// Down to the master's driver, of an `ldterm` there.
    MasterLdtermWrite = 3,
    /// Down from the master, over to the slave's side.
    MasterDriver = 5,
    /// Where the slave reads.
    SlaveHead = 6,
    /// Up to the slave's head.
    SlaveLdtermRead = 8,
    /// Down to the slave's driver.
    SlaveLdtermWrite = 9,
    /// Down from the slave, over to the master's side.
    SlaveDriver = 11,
}

impl Queue {
    /// All queues.
    pub const ALL: [Queue; 8] = [
        Queue::MasterHead,
        Queue::MasterLdtermRead,
        Queue::MasterLdtermWrite,
        Queue::MasterDriver,
        Queue::SlaveHead,
        Queue::SlaveLdtermRead,
        Queue::SlaveLdtermWrite,
        Queue::SlaveDriver,
    ];

    pub(crate) fn of(number: u32) -> Option<Queue> {
        Queue::ALL.into_iter().find(|queue| *queue as u32 == number)
    }
}

/// Which queues a flush empties: I_FLUSH.
#[derive(Clone, Copy, Debug, PartialEq, Eq, Hash)]
pub enum Flush {
    /// What comes up to the side's reader: FLUSHR.
    Read = 1,
    /// What goes down from it: FLUSHW.
    Write = 2,
    /// Both: FLUSHRW.
    Both = 3,
}

impl Flush {
    pub(crate) fn of(number: u32) -> Option<Flush> {
        [Flush::Read, Flush::Write, Flush::Both].into_iter().find(|what| *what as u32 == number)
    }
}

/// How a head reads: I_SRDOPT. The first three say what becomes of the rest of a message, the others of control parts.
#[derive(Clone, Copy, Debug, PartialEq, Eq, Hash)]
pub enum Mode {
    /// Bytes, whatever messages they stand in.
    Norm = 0,
    /// A message at a time; what a read leaves of it stays.
    Msgn = 1,
    /// A message at a time; what a read leaves of it is discarded.
    Msgd = 2,
    /// A read of a message with a control part is EBADMSG.
    ProtNorm = 3,
    /// A control part is read as data.
    ProtDat = 4,
    /// A control part is discarded.
    ProtDis = 5,
}

impl Mode {
    const ALL: [Mode; 6] = [Mode::Norm, Mode::Msgn, Mode::Msgd, Mode::ProtNorm, Mode::ProtDat, Mode::ProtDis];

    pub(crate) fn of(number: u32) -> Option<Mode> {
        Mode::ALL.into_iter().find(|mode| *mode as u32 == number)
    }
}

pub(crate) const HIPRI: u32 = 256;
pub(crate) const ANY: u32 = 257;

/// The priority of a message.
#[derive(Clone, Copy, Debug, PartialEq, Eq, Hash)]
pub enum Priority {
    /// A band; 0 is that of what is written.
    Band(u8),
    /// High priority, which flow control doesn't hold back: RS_HIPRI.
    High,
}

impl Priority {
    pub(crate) fn number(self) -> u32 {
        match self {
            Priority::Band(band) => band.into(),
            Priority::High => HIPRI,
        }
    }

    pub(crate) fn of(number: u32) -> Option<Priority> {
        match number {
            HIPRI => Some(Priority::High),
            _ => u8::try_from(number).ok().map(Priority::Band),
        }
    }
}

/// Which message a get takes.
#[derive(Clone, Copy, Debug, PartialEq, Eq, Hash)]
pub enum Wanted {
    /// The first one: MSG_ANY.
    Any,
    /// One of high priority: MSG_HIPRI.
    High,
    /// One of high priority, or of at least this band: MSG_BAND.
    Band(u8),
}

impl Wanted {
    pub(crate) fn number(self) -> u32 {
        match self {
            Wanted::Any => ANY,
            Wanted::High => HIPRI,
            Wanted::Band(band) => band.into(),
        }
    }

    pub(crate) fn of(number: u32) -> Option<Wanted> {
        match number {
            ANY => Some(Wanted::Any),
            HIPRI => Some(Wanted::High),
            _ => u8::try_from(number).ok().map(Wanted::Band),
        }
    }
}

/// A signal, by System V's number: WINCH and TSTP have others on Linux and BSD.
#[derive(Clone, Copy, Debug, PartialEq, Eq, Hash)]
pub struct Signal(pub u8);

impl Signal {
    /// A hang-up.
    pub const HUP: Signal = Signal(1);
    /// The INTR key.
    pub const INT: Signal = Signal(2);
    /// The QUIT key.
    pub const QUIT: Signal = Signal(3);
    /// The window has another size.
    pub const WINCH: Signal = Signal(20);
    /// The SUSP key.
    pub const TSTP: Signal = Signal(24);
    /// A read of a process in the background.
    pub const TTIN: Signal = Signal(26);
    /// Output of a process in the background.
    pub const TTOU: Signal = Signal(27);

    /// Its name without SIG; "?" where it has none here.
    pub fn name(self) -> &'static str {
        match self {
            Signal::HUP => "HUP",
            Signal::INT => "INT",
            Signal::QUIT => "QUIT",
            Signal::WINCH => "WINCH",
            Signal::TSTP => "TSTP",
            Signal::TTIN => "TTIN",
            Signal::TTOU => "TTOU",
            _ => "?",
        }
    }
}
