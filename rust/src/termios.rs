//! ioctls of a terminal: its modes and its window.
use crate::{Pair, Refusal, Refused, Side};

/// A command of an ioctl.
#[derive(Clone, Copy, Debug, PartialEq, Eq, Hash)]
pub struct Command(pub u32);

impl Command {
    /// Gives the modes.
    pub const TCGETS: Command = Command(1);
    /// Sets the modes, at once.
    pub const TCSETS: Command = Command(2);
    /// Sets the modes behind the output.
    pub const TCSETSW: Command = Command(3);
    /// Sets the modes behind the output, and flushes the input.
    pub const TCSETSF: Command = Command(4);
    /// Gives the window.
    pub const TIOCGWINSZ: Command = Command(5);
    /// Sets the window.
    pub const TIOCSWINSZ: Command = Command(6);
    /// Sends a signal to the slave.
    pub const TIOCSIGNAL: Command = Command(7);
    /// Gives the foreground group: 4 bytes, the most significant one first.
    pub const TIOCGPGRP: Command = Command(8);
    /// Sets the foreground group: 4 bytes, the most significant one first.
    pub const TIOCSPGRP: Command = Command(9);
}

/// When a `tcsetattr` sets the modes.
#[derive(Clone, Copy, Debug, PartialEq, Eq, Hash)]
pub enum When {
    /// At once: TCSETS, TCSANOW.
    Now,
    /// Behind the output: TCSETSW, TCSADRAIN.
    Drain,
    /// Behind the output, with the input flushed too: TCSETSF, TCSAFLUSH.
    Flush,
}

impl When {
    pub(crate) fn command(self) -> Command {
        match self {
            When::Now => Command::TCSETS,
            When::Drain => Command::TCSETSW,
            When::Flush => Command::TCSETSF,
        }
    }
}

macro_rules! numbers {
    ($($(#[$what:meta])* $kind:ty { $($name:ident = $value:literal: $says:literal,)* })*) => {
        $($(#[doc = $says] pub const $name: $kind = $value;)*)*
    };
}

numbers! {
    u32 {
        ISTRIP = 0x20: "iflag: the eighth bit of input is taken off.",
        INLCR = 0x40: "iflag: NL comes in as CR.",
        IGNCR = 0x80: "iflag: CR is ignored.",
        ICRNL = 0x100: "iflag: CR comes in as NL.",
        IUCLC = 0x200: "iflag: capital letters come in as small ones.",
        IXON = 0x400: "iflag: STOP and START keys hold output.",
        IXANY = 0x800: "iflag: any key starts output.",
        IMAXBEL = 0x2000: "iflag: a full line rings, and stays.",
        OPOST = 1: "oflag: output is processed.",
        OLCUC = 2: "oflag: small letters go out as capital ones.",
        ONLCR = 4: "oflag: NL goes out as CR NL.",
        OCRNL = 8: "oflag: CR goes out as NL.",
        ONOCR = 0x10: "oflag: no CR at column 0.",
        ONLRET = 0x20: "oflag: NL does what CR does.",
        XTABS = 0x1800: "oflag: a TAB goes out as spaces.",
        ISIG = 1: "lflag: INTR, QUIT and SUSP keys send signals.",
        ICANON = 2: "lflag: input is edited, and read line by line.",
        ECHO = 8: "lflag: input is shown.",
        ECHOE = 0x10: "lflag: ERASE rubs out what was shown.",
        ECHOK = 0x20: "lflag: NL is shown behind KILL.",
        ECHONL = 0x40: "lflag: NL is shown, with ECHO off too.",
        NOFLSH = 0x80: "lflag: signal keys flush nothing.",
        TOSTOP = 0x100: "lflag: output of the background is stopped.",
        ECHOCTL = 0x200: "lflag: control characters are shown as ^X.",
        ECHOKE = 0x800: "lflag: KILL rubs out the line.",
        IEXTEN = 0x8000: "lflag: WERASE, REPRINT and LNEXT keys have their meaning.",
    }
    usize {
        VINTR = 0: "cc: the key that sends SIGINT.",
        VQUIT = 1: "cc: the key that sends SIGQUIT.",
        VERASE = 2: "cc: the key that erases a character.",
        VKILL = 3: "cc: the key that erases the line.",
        VEOF = 4: "cc: the key that ends a line, or the input.",
        VEOL = 5: "cc: a key that ends a line too.",
        VEOL2 = 6: "cc: another such key.",
        VSTART = 8: "cc: the key that starts output.",
        VSTOP = 9: "cc: the key that stops output.",
        VSUSP = 10: "cc: the key that sends SIGTSTP.",
        VREPRINT = 12: "cc: the key that shows the line again.",
        VWERASE = 14: "cc: the key that erases a word.",
        VLNEXT = 15: "cc: the key that takes the next one as it is.",
    }
}

/// The modes of a terminal, termio(7I), by System V's bits and places, which are the constants of this module.
///
/// ```
/// use strm::termios::{Termios, ECHO, VERASE};
/// # use strm::{Pair, Side, When};
/// # let mut pair = Pair::terminal()?;
/// let mut modes: Termios = pair.tcgetattr(Side::Slave)?;
/// modes.lflag &= !ECHO;
/// modes.cc[VERASE] = b'#';
/// pair.tcsetattr(Side::Slave, When::Now, &modes)?;
/// assert_eq!(pair.tcgetattr(Side::Slave)?, modes);
/// # Ok::<(), strm::Refused>(())
/// ```
#[derive(Clone, Copy, Debug, Default, PartialEq, Eq, Hash)]
pub struct Termios {
    /// Modes of input.
    pub iflag: u32,
    /// Modes of output.
    pub oflag: u32,
    /// Modes of the line, which are kept, and mean nothing.
    pub cflag: u32,
    /// Modes of the line discipline.
    pub lflag: u32,
    /// The keys; 0 is none.
    pub cc: [u8; 19],
}

impl Termios {
    /// How many bytes the wire form has.
    pub const SIZE: usize = 35;

    /// These modes with those of input, output and the line discipline all off, and the same keys: each byte goes as it is.
    pub fn raw(self) -> Termios {
        Termios { iflag: 0, oflag: 0, lflag: 0, ..self }
    }

    /// The bytes that TCSETS takes: four words, the most significant byte first, and the keys.
    pub fn to_wire(&self) -> [u8; Termios::SIZE] {
        let mut wire = [0; Termios::SIZE];
        for (at, word) in [self.iflag, self.oflag, self.cflag, self.lflag].into_iter().enumerate() {
            wire[4 * at..4 * at + 4].copy_from_slice(&word.to_be_bytes());
        }
        wire[16..].copy_from_slice(&self.cc);
        wire
    }

    /// The modes that TCGETS gives as these bytes.
    pub fn of_wire(wire: &[u8; Termios::SIZE]) -> Termios {
        let word = |at: usize| u32::from_be_bytes([wire[at], wire[at + 1], wire[at + 2], wire[at + 3]]);
        let mut cc = [0; 19];
        cc.copy_from_slice(&wire[16..]);
        Termios { iflag: word(0), oflag: word(4), cflag: word(8), lflag: word(12), cc }
    }
}

/// A window: characters, and pixels.
#[derive(Clone, Copy, Debug, Default, PartialEq, Eq, Hash)]
pub struct Winsize {
    /// Lines of characters.
    pub rows: u16,
    /// Characters of a line.
    pub columns: u16,
    /// Pixels from left to right.
    pub width: u16,
    /// Pixels from top to bottom.
    pub height: u16,
}

impl Winsize {
    /// How many bytes the wire form has.
    pub const SIZE: usize = 8;

    /// A window of characters.
    pub fn new(rows: u16, columns: u16) -> Winsize {
        Winsize { rows, columns, ..Winsize::default() }
    }

    /// The bytes that TIOCSWINSZ takes: four half words, the most significant byte first.
    pub fn to_wire(&self) -> [u8; Winsize::SIZE] {
        let mut wire = [0; Winsize::SIZE];
        for (at, word) in [self.rows, self.columns, self.width, self.height].into_iter().enumerate() {
            wire[2 * at..2 * at + 2].copy_from_slice(&word.to_be_bytes());
        }
        wire
    }

    /// The window that TIOCGWINSZ gives as these bytes.
    pub fn of_wire(wire: &[u8; Winsize::SIZE]) -> Winsize {
        let word = |at: usize| u16::from_be_bytes([wire[at], wire[at + 1]]);
        Winsize { rows: word(0), columns: word(2), width: word(4), height: word(6) }
    }
}

impl Pair {
    /// TCGETS. Nak where no `ptem` stands.
    pub fn tcgetattr(&mut self, side: Side) -> Result<Termios, Refused> {
        self.wire(side, Command::TCGETS).map(|wire| Termios::of_wire(&wire))
    }

    /// Sets the modes of a terminal.
    pub fn tcsetattr(&mut self, side: Side, when: When, termios: &Termios) -> Result<(), Refused> {
        self.ioctl(side, when.command(), &termios.to_wire()).map(drop)
    }

    /// TIOCGWINSZ.
    pub fn get_winsize(&mut self, side: Side) -> Result<Winsize, Refused> {
        self.wire(side, Command::TIOCGWINSZ).map(|wire| Winsize::of_wire(&wire))
    }

    /// TIOCSWINSZ: where the size changes, SIGWINCH comes to the slave.
    pub fn set_winsize(&mut self, side: Side, size: Winsize) -> Result<(), Refused> {
        self.ioctl(side, Command::TIOCSWINSZ, &size.to_wire()).map(drop)
    }

    /// TIOCGPGRP: the foreground group; 0 where there is none.
    pub fn tcgetpgrp(&mut self, side: Side) -> Result<u32, Refused> {
        self.wire(side, Command::TIOCGPGRP).map(u32::from_be_bytes)
    }

    /// TIOCSPGRP: sets the foreground group.
    pub fn tcsetpgrp(&mut self, side: Side, group: u32) -> Result<(), Refused> {
        self.ioctl(side, Command::TIOCSPGRP, &group.to_be_bytes()).map(drop)
    }

    // What an ioctl gives of which an answer has so many bytes.
    fn wire<const SIZE: usize>(&mut self, side: Side, command: Command) -> Result<[u8; SIZE], Refused> {
        let given = self.ioctl(side, command, &[])?;
        given.try_into().map_err(|_| Refused::Call(Refusal::Einval))
    }
}
