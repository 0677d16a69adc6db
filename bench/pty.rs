//! The system's own pseudoterminal. It makes the plans of `strm_bench`, which stand on its standard input, a line each, and tells how many bytes
//! were read. A stream without modules is raw mode here; it has no messages, and makes no turns. What is typed goes in parts of at most 512 bytes.
use std::ffi::{c_char, c_int, c_ulong, c_void};

unsafe extern "C" {
    fn posix_openpt(flags: c_int) -> c_int;
    fn grantpt(fd: c_int) -> c_int;
    fn unlockpt(fd: c_int) -> c_int;
    fn ptsname(fd: c_int) -> *const c_char;
    fn open(path: *const c_char, flags: c_int) -> c_int;
    fn close(fd: c_int) -> c_int;
    fn tcgetattr(fd: c_int, termios: *mut c_void) -> c_int;
    fn cfmakeraw(termios: *mut c_void);
    fn tcsetattr(fd: c_int, when: c_int, termios: *const c_void) -> c_int;
    fn ioctl(fd: c_int, command: c_ulong, at: *mut c_void) -> c_int;
    fn write(fd: c_int, bytes: *const c_void, count: usize) -> isize;
    fn read(fd: c_int, bytes: *mut c_void, count: usize) -> isize;
}

const O_RDWR_NOCTTY: c_int = 0o2 | 0o400;
const TIOCGWINSZ: c_ulong = 0x5413;
const PART: usize = 512;

struct Pty {
    master: c_int,
    slave: c_int,
    raw: bool,
}

impl Pty {
    fn new(raw: bool) -> Pty {
        let mut termios = [0u64; 16];
        // SAFETY: the path is the system's, and a termios has fewer bytes than the room for it.
        unsafe {
            let master = posix_openpt(O_RDWR_NOCTTY);
            assert!(master >= 0 && grantpt(master) == 0 && unlockpt(master) == 0, "no pseudoterminal");
            let slave = open(ptsname(master), O_RDWR_NOCTTY);
            assert!(slave >= 0 && tcgetattr(slave, termios.as_mut_ptr().cast()) == 0, "no slave");
            if raw {
                cfmakeraw(termios.as_mut_ptr().cast());
                assert!(tcsetattr(slave, 0, termios.as_ptr().cast()) == 0);
            }
            Pty { master, slave, raw }
        }
    }

    /// Reads so many bytes, which are to come.
    fn reads(&self, fd: c_int, mut n: usize, out: &mut [u8]) {
        while n > 0 {
            // SAFETY: the buffer has as many bytes as are asked for.
            let got = unsafe { read(fd, out.as_mut_ptr().cast(), out.len()) };
            assert!(got > 0 && got as usize <= n, "other bytes came");
            n -= got as usize;
        }
    }

    fn writes(&self, fd: c_int, mut bytes: &[u8]) {
        while !bytes.is_empty() {
            // SAFETY: the bytes are as many as are said.
            let took = unsafe { write(fd, bytes.as_ptr().cast(), bytes.len()) };
            assert!(took > 0, "nothing was taken");
            bytes = &bytes[took as usize..];
        }
    }

    /// TIOCGWINSZ on the slave: how many bytes a size has.
    fn window_size(&self) -> usize {
        let mut size = [0u16; 4];
        // SAFETY: the ioctl writes a winsize, which is four numbers of 16 bits.
        assert!(unsafe { ioctl(self.slave, TIOCGWINSZ, size.as_mut_ptr().cast()) } == 0);
        size_of_val(&size)
    }

    /// A round of an act, as a plan counts them, whose text has lines of so many bytes, or none; and how many bytes were read.
    fn round(&self, act: usize, text: &[u8], lines: usize, out: &mut [u8]) -> usize {
        if act == 5 {
            return self.window_size();
        }
        let lines = if self.raw { 0 } else { lines };
        let (mut read, mut line, mut at) = (0, 0, 0);
        for part in text.chunks(PART) {
            let newlines = (at + part.len()).checked_div(lines).unwrap_or(0) - at.checked_div(lines).unwrap_or(0);
            at += part.len();
            if act == 3 {
                self.writes(self.slave, part);
                self.reads(self.master, part.len() + newlines, out);
                read += part.len() + newlines;
                continue;
            }
            self.writes(self.master, part);
            if act != 0 {
                self.reads(self.master, part.len() + newlines, out);
            }
            line += part.len();
            let rest = if newlines > 0 { at % lines } else { part.len() * !self.raw as usize };
            if act != 2 && rest < part.len() {
                self.reads(self.slave, line - rest, out);
                (read, line) = (read + line - rest, rest);
            }
        }
        if act == 2 { text.len() } else { read }
    }
}

impl Drop for Pty {
    fn drop(&mut self) {
        // SAFETY: both are open, and nobody else has them.
        let _ = unsafe { (close(self.slave), close(self.master)) };
    }
}

/// The text that a round writes: letters, ESC, or coloured words, with a newline at the end of each of its lines.
fn text_of(text: usize, line: usize, size: usize) -> Vec<u8> {
    let unit: &[u8] = [&b"z"[..], b"\x1b", b"\x1b[01;34msrc\x1b[0m  "][text];
    let byte = |i| if line > 0 && i % line == line - 1 { b'\n' } else { unit[i % unit.len()] };
    (0..size).map(byte).collect()
}

fn run([pairs, rounds, _, _, _, warm, _, act, stack, text, line, size, _]: [usize; 13]) -> usize {
    let (text, mut out, mut read) = (text_of(text, line, size), vec![0; 8192], 0);
    for _ in 0..pairs {
        let pty = Pty::new(stack != 1);
        for _ in 0..(1 + warm) * rounds {
            read += pty.round(act, &text, line, &mut out);
        }
    }
    read
}

fn main() {
    for line in std::io::stdin().lines().map_while(Result::ok) {
        let numbers: Vec<usize> = line.split_whitespace().filter_map(|word| word.parse().ok()).collect();
        println!("{}", run(numbers.try_into().expect("a plan has thirteen numbers")));
    }
}
