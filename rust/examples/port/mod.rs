//! A serial port, a clock, and lines of standard input, by `std` and three calls of the system: `stty` sets the port. One thread waits for both, takes the moment, and
//! then reads all that is there.
pub mod device;
pub mod door;
pub mod ledger;
mod sqlite;
pub mod stand;
pub mod store;

use osdp::{Moment, Unsent};
use std::error::Error;
use std::ffi::{c_int, c_short, c_ulong};
use std::fmt::Display;
use std::fs::{File, OpenOptions, TryLockError};
use std::io::{self, BufRead, ErrorKind, Read, Write};
use std::os::fd::AsRawFd;
use std::os::unix::fs::{MetadataExt, OpenOptionsExt};
use std::process::{Command, ExitCode, Stdio};
use std::time::Duration;

use store::Store;

/// A file that is waited for, as `poll` takes it.
#[repr(C)]
struct Waited {
    file: c_int,
    events: c_short,
    found: c_short,
}

unsafe extern "C" {
    // Of the C library.
    fn ioctl(file: c_int, request: c_ulong, ...) -> c_int;
    fn clock_gettime(clock: c_int, time: &mut [i64; 2]) -> c_int;
    fn poll(files: *mut Waited, count: c_ulong, wait: c_int) -> c_int;
}

// Numbers of Linux: neither to wait at a read nor at the opening, nor to take the port as the terminal of the program; to let no other program open the port; and to
// wait for bytes, or until bytes can be written.
const O_NONBLOCK_NOCTTY: i32 = 0o4400;
const TIOCEXCL: c_ulong = 0x540C;
const POLLIN: c_short = 1;
const POLLOUT: c_short = 4;
/// The clock that goes on while the computer sleeps, so that a card from before is seen as old. That of `Instant` stands still then.
const CLOCK_BOOTTIME: c_int = 7;

/// After so long a port that takes nothing has failed.
const FULL: Duration = Duration::from_secs(5);
/// How late the program may be, where its words don't say otherwise.
const LATE: Duration = Duration::from_secs(5);
/// How long it waits at once.
const LONGEST: Duration = Duration::from_secs(60);

/// Rates of lines, which a port has.
pub const RATES: [u32; 6] = [9600, 19200, 38400, 57600, 115200, 230400];

/// What has come by a moment.
pub struct Came {
    /// When the wait ended: what has come was read after it.
    pub now: Moment,
    pub bytes: Vec<u8>,
    pub lines: Vec<String>,
    /// When standard input was last seen empty: the lines were typed after that.
    #[allow(dead_code)] // a device's program has no use for it
    pub typed: Moment,
    /// Whether the program stood still for longer than it may be late: it was stopped, or the computer has slept, or what it did before took so long.
    pub stood_still: bool,
}

/// What the words of a program say beside its port and the rate.
#[derive(Default)]
pub struct Options {
    /// The program's store, whether `--new` makes it, and how many ended orders and handled events stay there.
    pub kept: Option<String>,
    pub is_new: bool,
    pub retain: Option<i64>,
    late: Option<Duration>,
}

pub struct Port {
    file: File,
    started: Duration,
    /// When the last wait ended.
    last: Option<Moment>,
    /// When standard input was last seen empty.
    empty: Moment,
    /// A line that isn't whole yet; none once standard input has ended.
    line: Option<Vec<u8>>,
    /// The rate that the words of the program have, and what else they say.
    pub rate: u32,
    pub options: Options,
    /// Of a device: its store, by which name that has it, where it is, and whether it has refused a COMSET.
    store: Option<Store>,
    name: u8,
    address: u8,
    has_refused: bool,
}

impl Port {
    /// Opens a port raw, at a rate: 8 bits, no parity, 1 stop bit. No other program may open it then. An error where another one has it.
    pub fn open(path: &str, rate: u32, options: Options) -> io::Result<Port> {
        let opens = OpenOptions::new()
            .read(true)
            .write(true)
            .custom_flags(O_NONBLOCK_NOCTTY)
            .clone();
        let file = match opens.open(path) {
            Err(error) if error.kind() == ErrorKind::ResourceBusy => return Err(taken(path)),
            file => file.map_err(|error| named(&format!("{path} can't be opened"), error))?,
        };
        match file.try_lock() {
            Err(TryLockError::WouldBlock) => return Err(taken(path)),
            Err(TryLockError::Error(error)) => return Err(error),
            Ok(()) => {}
        }
        set(&file, rate).map_err(|_| {
            let why = "it is no serial port, or hasn't that rate";
            io::Error::other(format!("{path} can't be set to {rate}: {why}"))
        })?;
        // SAFETY: the call gets an open file. Where it fails the port stays as it was.
        let _ = unsafe { ioctl(file.as_raw_fd(), TIOCEXCL) };
        Ok(Port {
            file,
            started: boot_time(),
            last: None,
            empty: Moment::from_millis(0),
            line: Some(Vec::new()),
            rate,
            options,
            store: None,
            name: 0,
            address: 0,
            has_refused: false,
        })
    }

    /// Sets another rate, once what was written has gone out.
    pub fn set_rate(&mut self, rate: u32) -> io::Result<()> {
        if rate != self.rate {
            set(&self.file, rate)?;
            self.rate = rate;
        }
        Ok(())
    }

    pub fn now(&self) -> Moment {
        Moment::after(boot_time().saturating_sub(self.started))
    }

    /// Whether more time has passed since a moment than the program may be late.
    pub fn is_late(&self, since: Moment) -> bool {
        self.now().since(since) > self.late()
    }

    /// How late the program may be.
    pub fn late(&self) -> Duration {
        self.options.late.unwrap_or(LATE)
    }

    /// Waits for bytes or lines, up to a moment. Then it takes the moment, and reads all that is there. An error where the port is gone.
    pub fn wait(&mut self, until: Moment) -> io::Result<Came> {
        let late = self.late();
        let began = self.now();
        let last = self.last.unwrap_or(began);
        let wait = until.since(began).min(LONGEST);
        let [has_bytes, has_lines] = self.ready(POLLIN, wait);
        let now = self.now();
        let typed = self.empty;
        self.last = Some(now);
        self.empty = if has_lines { typed } else { began };
        let lines = if has_lines {
            self.read_lines()?
        } else {
            Vec::new()
        };
        let mut bytes = if has_bytes {
            self.read_bytes()?
        } else {
            Vec::new()
        };
        let stood_still =
            began.since(last) > late || now.since(last) > wait + late || self.is_late(now);
        if stood_still {
            bytes.extend(self.read_bytes()?); // what came since the wait is of that time too
        }
        Ok(Came {
            now,
            bytes,
            lines,
            typed,
            stood_still,
        })
    }

    /// Waits so long at most. Whether the port is ready, and whether standard input has something.
    fn ready(&self, events: c_short, wait: Duration) -> [bool; 2] {
        let waits = |file, events| Waited {
            file,
            events,
            found: 0,
        };
        let lines = match self.line {
            Some(_) if events == POLLIN => 0,
            _ => -1,
        };
        let mut files = [waits(self.file.as_raw_fd(), events), waits(lines, POLLIN)];
        // SAFETY: there are two files. Where the call fails, as by a signal, nothing was found.
        let _ = unsafe { poll(files.as_mut_ptr(), 2, wait.as_millis() as c_int) };
        files.map(|file| file.found != 0)
    }

    /// All bytes that are there; none where another program has taken them away.
    fn read_bytes(&mut self) -> io::Result<Vec<u8>> {
        let (mut bytes, mut piece) = (Vec::new(), [0; 4096]);
        loop {
            match self.file.read(&mut piece) {
                Ok(0) if bytes.is_empty() => return Err(io::Error::other("the port is gone")),
                Ok(0) => return Ok(bytes),
                Ok(count) => bytes.extend_from_slice(&piece[..count]),
                Err(error) if error.kind() == ErrorKind::Interrupted => {}
                Err(error) if error.kind() == ErrorKind::WouldBlock => return Ok(bytes),
                Err(_) if !bytes.is_empty() => return Ok(bytes),
                Err(error) => return Err(error),
            }
        }
    }

    /// The lines that are whole by one read. A line that isn't UTF-8 is refused as others are, and isn't the end of all lines.
    fn read_lines(&mut self) -> io::Result<Vec<String>> {
        let mut input = io::stdin().lock();
        let Some(held) = &mut self.line else {
            return Ok(Vec::new());
        };
        let count = match input.fill_buf() {
            Ok(bytes) => {
                held.extend_from_slice(bytes);
                bytes.len()
            }
            Err(error)
                if matches!(error.kind(), ErrorKind::WouldBlock | ErrorKind::Interrupted) =>
            {
                return Ok(Vec::new());
            }
            Err(_) => 0,
        };
        input.consume(count);
        let mut pieces: Vec<&[u8]> = held.split(|byte| *byte == b'\n').collect();
        let rest = pieces.pop().unwrap_or_default().to_vec();
        let text = |line: &[u8]| String::from_utf8_lossy(line).trim_end().into();
        let mut lines: Vec<String> = pieces.into_iter().map(text).collect();
        self.line = match count {
            0 => None,
            _ => Some(rest.clone()),
        };
        if count == 0 && !rest.is_empty() {
            lines.push(text(&rest)); // the last one needs no line feed
        }
        Ok(lines)
    }

    /// Writes bytes, all of them. An error where the port takes nothing for five seconds.
    fn write(&mut self, mut bytes: &[u8]) -> io::Result<()> {
        let began = self.now();
        while !bytes.is_empty() {
            match self.file.write(bytes) {
                Ok(count) => bytes = &bytes[count..],
                Err(error) if error.kind() == ErrorKind::Interrupted => {}
                Err(error) if error.kind() == ErrorKind::WouldBlock => {
                    if self.now().since(began) > FULL {
                        return Err(io::Error::other("the port can't be written"));
                    }
                    self.ready(POLLOUT, Duration::from_secs(1));
                }
                Err(error) => return Err(error),
            }
        }
        Ok(())
    }
}

/// What a panel needs beside it, and a device doesn't.
#[allow(dead_code)]
impl Port {
    /// Writes what a panel has to send. The moment is taken here: a program that stood still since the tick sends no order that has become too old.
    pub fn write_unsent(&mut self, unsent: Unsent<'_>) -> io::Result<()> {
        match unsent.write(self.now()) {
            Ok(burst) => self.write(&burst),
            Err(_) => Ok(()), // the moment lies more than a day ahead: the burst is lost, and the next turn sets the moment
        }
    }
}

/// Prints a line. An error where nobody reads it any more, which ends the program.
pub fn tell(line: impl Display) -> io::Result<()> {
    writeln!(io::stdout(), "{line}")
}

/// Prints a line on standard error. Where nobody reads it the program goes on: `eprintln!` would panic there.
fn note(line: impl Display) {
    let _ = writeln!(io::stderr(), "{line}");
}

/// How long the computer has been on.
fn boot_time() -> Duration {
    let mut time = [0; 2];
    // SAFETY: it writes seconds and nanoseconds into what it is lent, each of 64 bits on each target that the crate has. Linux has this clock.
    unsafe { clock_gettime(CLOCK_BOOTTIME, &mut time) };
    Duration::new(time[0] as u64, time[1] as u32)
}

/// Sets an open port: `stty` waits until what was written has gone out.
fn set(file: &File, rate: u32) -> io::Result<()> {
    let set = "raw -echo cs8 -parenb -cstopb -crtscts clocal";
    let done = Command::new("stty")
        .stdin(file.try_clone()?)
        .arg(rate.to_string())
        .args(set.split(' '))
        .stderr(Stdio::null()) // what it says names no port
        .status()?;
    match done.success() {
        true => Ok(()),
        false => Err(io::Error::other("the port can't be set")),
    }
}

/// An error, after what it is about.
pub fn named(what: &str, error: impl Display) -> io::Error {
    io::Error::other(format!("{what}: {error}"))
}

/// Another program has the port: which one, as far as /proc tells who has locked it.
fn taken(path: &str) -> io::Error {
    let owner = std::fs::metadata(path).ok().and_then(|port| {
        let inode = format!(":{}", port.ino());
        let locks = std::fs::read_to_string("/proc/locks").ok()?;
        let words = |line: &str| {
            line.split_whitespace()
                .map(String::from)
                .collect::<Vec<_>>()
        };
        let found = locks.lines().map(words).find(|words| {
            words.get(5).is_some_and(|file| {
                file.ends_with(&inode) && file.starts_with(&device_of(port.dev()))
            })
        })?;
        let name = std::fs::read_to_string(format!("/proc/{}/comm", found[4])).unwrap_or_default();
        Some(format!(": {}, process {}", name.trim(), found[4]))
    });
    let owner = owner.unwrap_or_default();
    io::Error::other(format!("another program has the port {path}{owner}"))
}

/// A device's two numbers, as /proc/locks has them.
fn device_of(number: u64) -> String {
    format!("{:02x}:{:02x}:", number >> 8 & 0xFFF, number & 0xFF)
}

/// Whether a program has a store, and how its words name that. `--new` makes it.
#[derive(Clone, Copy, PartialEq, Eq)]
#[allow(dead_code)] // each program names one
pub enum Keeps {
    Nothing,
    /// Where devices are, in the file of `--keep`.
    Places,
    /// All, in a file that the first word names. `--retain` says how many ended orders and handled events stay.
    All,
}

/// Takes the options off the words. None where one is bad.
fn take_options(keeps: Keeps, mut words: &[String]) -> Option<(Options, &[String])> {
    let mut options = Options::default();
    loop {
        words = match words {
            [option, file, rest @ ..] if keeps == Keeps::Places && option == "--keep" => {
                options.kept = Some(file.clone());
                rest
            }
            [option, rest @ ..] if keeps != Keeps::Nothing && option == "--new" => {
                options.is_new = true;
                rest
            }
            [option, count, rest @ ..] if keeps == Keeps::All && option == "--retain" => {
                let count = count.parse().ok().filter(|count| *count >= 1);
                options.retain = Some(count?);
                rest
            }
            [option, late, rest @ ..] if option == "--late" => {
                let late = late
                    .parse()
                    .ok()
                    .filter(|late| (100..=60000).contains(late));
                options.late = Some(Duration::from_millis(late?));
                rest
            }
            [file, rest @ ..] if keeps == Keeps::All => {
                options.kept = Some(file.clone());
                return Some((options, rest));
            }
            _ if options.is_new && options.kept.is_none() => return None,
            rest => return Some((options, rest)),
        }
    }
}

/// Runs a program on the port that its words name, at their rate. An error is told, with status 1, but not that nobody reads what it prints; other words have status 2.
pub fn run_on_port(
    name: &str,
    keeps: Keeps,
    run: impl FnOnce(Port) -> Result<(), Box<dyn Error>>,
) -> ExitCode {
    let (keep, store) = match keeps {
        Keeps::Nothing => ("", ""),
        Keeps::Places => ("[--keep FILE [--new]] ", ""),
        Keeps::All => ("[--new] [--retain N] ", "STORE "),
    };
    let usage = format!("usage: {name} {keep}[--late MS] {store}PORT RATE");
    let words: Vec<String> = std::env::args().skip(1).collect();
    if matches!(&words[..], [word] if word == "--help" || word == "-h") {
        return match tell(usage) {
            Ok(()) => ExitCode::SUCCESS,
            Err(_) => ExitCode::FAILURE,
        };
    }
    let Some((options, [path, rate])) = take_options(keeps, &words) else {
        note(&usage);
        return ExitCode::from(2);
    };
    let Ok(rate) = rate.parse() else {
        note(format_args!("{name}: bad rate: {rate}"));
        return ExitCode::from(2);
    };
    match Port::open(path, rate, options)
        .map_err(Into::into)
        .and_then(run)
    {
        Ok(()) => ExitCode::SUCCESS,
        Err(error) => {
            let is_unread = |error: &io::Error| error.kind() == ErrorKind::BrokenPipe;
            if !error.downcast_ref().is_some_and(is_unread) {
                note(format_args!("{name}: {error}"));
            }
            ExitCode::FAILURE
        }
    }
}
