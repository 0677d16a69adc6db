//! Tests of rust/strm_host.rs: programs on pairs. The last line is 'N passed, M failed, K skipped'.
extern crate strm;
#[path = "../../rust/strm_host.rs"]
mod strm_host;

use std::io::ErrorKind;
use std::os::unix::process::ExitStatusExt;
use std::time::{Duration, Instant};

use strm::{Pair, Side, Sizes};
use strm_host::{Host, Size};

/// Carries on till the program waits or has ended: what was shown.
fn rests(host: &mut Host) -> Vec<u8> {
    let (mut shown, mut room, end) = (Vec::new(), [0; 4096], Instant::now() + Duration::from_secs(120));
    while Instant::now() < end {
        let seen = host.pump().expect("a pump");
        while let Ok(n) = host.pair().read(Side::Master, &mut room) {
            shown.extend_from_slice(&room[..n]);
            if n == 0 {
                break;
            }
        }
        if !seen.moved && !seen.shows {
            if host.waits() {
                break;
            }
            std::thread::sleep(Duration::from_millis(1));
        }
    }
    shown
}

fn types(host: &mut Host, keys: &str) -> Vec<u8> {
    host.pair().write(Side::Master, keys.as_bytes()).expect("keys");
    rests(host)
}

const USUAL: Sizes = Sizes { blocks: 256, entries: 8192, bytes: 262_144 };
const SMALL: Sizes = Sizes { blocks: 64, entries: 64, bytes: 65536 };

fn terminal(sizes: Sizes) -> Pair {
    let mut pair = Pair::new(sizes).expect("a pair");
    pair.open_terminal().expect("a terminal");
    pair
}

type Check = (&'static str, fn() -> bool);

const CHECKS: [Check; 6] = [
    ("a dialogue", || {
        let mut host =
            Host::spawn(terminal(USUAL), &["sh", "-c", "read a; echo [$a]; stty size"], None, Some(Size::of(30, 90))).expect("sh");
        let (asked, told) = (rests(&mut host), types(&mut host, "wrods\x7f\x7fds\r"));
        let status = host.try_wait().expect("its end");
        asked.is_empty() && told == b"wrods\x08 \x08\x08 \x08ds\r\n[wrods]\r\n30 90\r\n" && status.success() && host.has_ended()
    }),
    ("a small pool, and a journal that begins anew", || {
        let mut host = Host::spawn(terminal(SMALL), &["seq", "500"], None, None).expect("seq");
        let shown = rests(&mut host);
        shown == (1..=500).map(|n| format!("{n}\r\n")).collect::<String>().into_bytes()
    }),
    ("windows and modes", || {
        let mut host = Host::spawn(terminal(USUAL), &["sh"], None, Some(Size::of(24, 80))).expect("sh");
        rests(&mut host);
        host.resize(Size::of(7, 70)).expect("a size");
        let mut modes = host.tcgetattr();
        modes.lflag &= !8; // ECHO
        host.tcsetattr(&modes).expect("modes");
        types(&mut host, "stty size; stty -a | grep -o -- '-echo '\r").starts_with(b"7 70\r\n-echo \r\n")
    }),
    ("signals", || {
        let mut host = Host::spawn(terminal(USUAL), &["cat"], None, None).expect("cat");
        rests(&mut host);
        let is_leader = host.group() == Some(host.id());
        host.kill(15).expect("a signal");
        rests(&mut host);
        is_leader && host.try_wait().and_then(|status| status.signal()) == Some(15)
    }),
    ("an environment, and what is closed", || {
        let environment = [("PATH".into(), "/usr/bin:/bin".into()), ("WORD".into(), "hush".into())];
        let mut host = Host::spawn(terminal(USUAL), &["sh", "-c", "echo $WORD; cat"], Some(&environment), None).expect("sh");
        let shown = rests(&mut host);
        let (status, mut pair) = host.close();
        shown == b"hush\r\n" && status.signal() == Some(1) && pair.write(Side::Master, b"x").is_ok()
    }),
    ("refusals", || {
        let missing = Host::spawn(terminal(USUAL), &["/no/such/program"], None, None).err().map(|why| why.kind());
        let closed = Host::spawn(Pair::new(USUAL).expect("a pair"), &["cat"], None, None).is_err();
        let nothing = Host::spawn(terminal(USUAL), &[] as &[&str], None, None).err().map(|why| why.kind());
        missing == Some(ErrorKind::NotFound) && closed && nothing == Some(ErrorKind::InvalidInput)
    }),
];

fn main() {
    let failed = CHECKS.iter().filter(|(name, check)| {
        let holds = check();
        println!("{} Rust: {name}", if holds { "ok    " } else { "FAILED" });
        !holds
    });
    let failed = failed.count();
    println!("{} passed, {failed} failed, 0 skipped", CHECKS.len() - failed);
    std::process::exit(i32::from(failed > 0));
}
