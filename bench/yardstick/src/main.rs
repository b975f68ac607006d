//! The yardstick: `show` and `check` as a plain streaming program, with std alone. It reads 64 KiB at a time,
//! computes the CRC and reads digits by tables, and allocates nothing for a line. It knows the messages that the inputs of the
//! bench hold, and reads one byte on after a refusal the plain way: each check is computed anew.

use std::io::{self, Read, Write};
use std::process::exit;
use yardstick::packets::{first, First};
use yardstick::{script, work};

const PIECE: usize = 64 * 1024;
const LIMIT: u64 = 67_108_864;

struct Printer<W: Write> {
    output: W,
    text: Vec<u8>,
    full: bool,
    run: u64,
    place: u64,
    packets: u64,
    skipped: u64,
    refused: u64,
}

const DIGITS: &[u8; 16] = b"0123456789ABCDEF";

impl<W: Write> Printer<W> {
    fn number(&mut self, mut number: u64) {
        let mut digits = [0u8; 20];
        let mut from = 20;
        loop {
            from -= 1;
            digits[from] = b'0' + (number % 10) as u8;
            number /= 10;
            if number == 0 {
                break;
            }
        }
        self.text.extend_from_slice(&digits[from..]);
    }

    fn hex(&mut self, bytes: &[u8]) {
        for byte in bytes {
            self.text.push(DIGITS[usize::from(byte >> 4)]);
            self.text.push(DIGITS[usize::from(byte & 15)]);
        }
    }

    fn place(&mut self) {
        self.number(self.run + 1);
        self.text.push(b':');
        self.number(self.place);
        self.text.push(b' ');
    }

    fn write(&mut self) {
        if self.output.write_all(&self.text).is_err() {
            eprintln!("osdp: write failed");
            exit(3);
        }
        self.text.clear();
    }

    fn end_line(&mut self) {
        self.text.push(b'\n');
        if self.text.len() >= PIECE / 2 {
            self.write();
        }
    }

    /// Whether a code and data are a message with no data, and its name.
    fn name(reply: bool, code: u8) -> Option<&'static [u8]> {
        match (reply, code) {
            (false, 0x60) => Some(b"POLL"),
            (true, 0x40) => Some(b"ACK"),
            _ => None,
        }
    }

    fn packet(&mut self, bytes: &[u8]) {
        self.packets += 1;
        let reply = bytes[1] & 0x80 != 0;
        let size = if bytes[4] & 4 != 0 { 2 } else { 1 };
        let body = &bytes[5..bytes.len() - size];
        let name = Self::name(reply, body[0]);
        let block = bytes[4] & 8 != 0;
        let refused = !block && name.is_some() && body.len() > 1;
        self.refused += u64::from(refused);
        if !self.full && !refused {
            return;
        }
        self.place();
        self.text.extend_from_slice(if reply { b"reply " } else { b"cmd " });
        self.number(u64::from(bytes[1] & 0x7f));
        self.text.extend_from_slice(b" seq ");
        self.number(u64::from(bytes[4] & 3));
        self.text.extend_from_slice(if size == 2 { b" crc " } else { b" sum " });
        if bytes[4] >> 4 != 0 {
            self.text.extend_from_slice(b"bits ");
            self.number(u64::from(bytes[4] >> 4));
            self.text.push(b' ');
        }
        match name {
            _ if block => {
                self.text.extend_from_slice(b"block ");
                self.hex(body);
            }
            Some(name) if !refused => self.text.extend_from_slice(name),
            _ => {
                if refused {
                    self.text.extend_from_slice(b"refused M2 ");
                }
                self.text.extend_from_slice(b"code ");
                self.hex(&body[..1]);
                if body.len() > 1 {
                    self.text.push(b' ');
                    self.hex(&body[1..]);
                }
            }
        }
        self.end_line();
    }

    fn item(&mut self, first: First, rest: &[u8]) -> usize {
        let size = match first {
            First::Packet(length) => {
                self.packet(&rest[..length]);
                length
            }
            First::Skipped(byte) => {
                self.skipped += 1;
                if self.full {
                    self.place();
                    self.text.extend_from_slice(b"skip ");
                    self.hex(&[byte]);
                    self.end_line();
                }
                1
            }
            First::Refused(fault) => {
                self.refused += 1;
                self.place();
                self.text.extend_from_slice(b"refused F");
                self.text.push(b'0' + fault);
                self.end_line();
                1
            }
        };
        self.place += size as u64;
        size
    }

    /// Prints the items that the bytes decide, and tells how many bytes they take.
    fn items(&mut self, bytes: &[u8], ended: bool) -> usize {
        let mut at = 0;
        while let Some(first) = first(&bytes[at..], ended) {
            at += self.item(first, &bytes[at..]);
        }
        at
    }

    fn end_run(&mut self) {
        if self.place > 0 {
            self.run += 1;
            self.place = 0;
        }
    }

    fn finish(&mut self) {
        if !self.full {
            for (name, count) in [("runs ", self.run), (" packets ", self.packets), (" skipped ", self.skipped), (" refused ", self.refused)] {
                self.text.extend_from_slice(name.as_bytes());
                self.number(count);
            }
            self.text.push(b'\n');
        }
        self.write();
    }
}

/// What a character is that is no digit.
const NO_DIGIT: u8 = 255;

const fn digit_table() -> [u8; 256] {
    let mut table = [NO_DIGIT; 256];
    let mut value = 0;
    while value < 16 {
        let upper = DIGITS[value as usize];
        table[upper as usize] = value;
        table[upper.to_ascii_lowercase() as usize] = value;
        value += 1;
    }
    table
}

static DIGIT_TABLE: [u8; 256] = digit_table();

/// The bytes of a line, after those that `run` holds. False where the line is bad.
fn line_bytes(line: &[u8], run: &mut Vec<u8>) -> bool {
    let mut high = None;
    let mut first = true;
    for byte in line {
        match byte {
            b' ' | b'\t' | b'\r' => continue,
            b'#' if first => return true,
            _ => first = false,
        }
        let digit = DIGIT_TABLE[usize::from(*byte)];
        if digit == NO_DIGIT {
            return false;
        }
        match high.take() {
            None => high = Some(digit),
            Some(front) => run.push(front << 4 | digit),
        }
    }
    high.is_none()
}

fn main() {
    let words: Vec<String> = std::env::args().skip(1).collect();
    if let [first, kind, count] = &words[..] {
        if first == "machines" {
            let done = count.parse().ok().and_then(|count| work::done(kind, count));
            println!("{}", done.map_or(String::from("bad words"), |done| done.to_string()));
            return;
        }
    }
    if words == ["account"] {
        let script = io::read_to_string(io::stdin()).unwrap_or_default();
        print!("{}", script::told(&script).unwrap_or_else(|| String::from("bad script\n")));
        return;
    }
    let raw = words.iter().any(|word| word == "--raw");
    let join = words.iter().any(|word| word == "--join");
    let full = words.first().is_some_and(|word| word == "show");
    let mut printer = Printer {
        output: io::stdout().lock(),
        text: Vec::with_capacity(PIECE),
        full,
        run: 0,
        place: 0,
        packets: 0,
        skipped: 0,
        refused: 0,
    };
    let mut input = io::stdin().lock();
    let mut piece = vec![0u8; PIECE];
    let mut line = Vec::new();
    let mut held = Vec::new();
    let mut read = 0u64;
    let mut number = 1u64;
    loop {
        let count = match input.read(&mut piece) {
            Ok(0) => break,
            Ok(count) => count,
            Err(_) => {
                printer.write();
                eprintln!("osdp: read failed");
                exit(3);
            }
        };
        read += count as u64;
        if read > LIMIT {
            printer.write();
            eprintln!("osdp: input too long");
            exit(2);
        }
        if raw {
            held.extend_from_slice(&piece[..count]);
            let taken = printer.items(&held, false);
            held.drain(..taken);
            continue;
        }
        let mut rest = &piece[..count];
        while let Some(end) = rest.iter().position(|byte| *byte == b'\n') {
            line.extend_from_slice(&rest[..end]);
            rest = &rest[end + 1..];
            finish_line(&mut printer, &mut line, &mut held, join, number);
            number += 1;
        }
        line.extend_from_slice(rest);
    }
    if !line.is_empty() {
        finish_line(&mut printer, &mut line, &mut held, join, number);
    }
    printer.items(&held, true);
    printer.end_run();
    printer.finish();
    exit(i32::from(printer.refused > 0));
}

fn finish_line<W: Write>(printer: &mut Printer<W>, line: &mut Vec<u8>, held: &mut Vec<u8>, join: bool, number: u64) {
    let front = held.len();
    if !line_bytes(line, held) {
        held.truncate(front);
        printer.items(held, true);
        printer.end_run();
        printer.finish();
        eprintln!("osdp: line {number}: not hex");
        exit(2);
    }
    line.clear();
    let taken = printer.items(held, !join);
    held.drain(..taken);
    if !join {
        printer.end_run();
    }
}
