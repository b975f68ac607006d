//! Scripts of schedules for one reader, as `osdp sim` runs them, but with each message as digits. What they come to is printed with digits too.
//! So `bench/accounts.py` can compare both programs on schedules at random.

use crate::commands::{Command, Maker, States};
use crate::controller::{self, Cause};
use crate::reader::{self, Answer, Handler};
use crate::replies::{Event, NakReason, PdId, Reply};
use crate::session::{run_session, Account, End, Messages, Move, SimConfig, SimStep, Stop};
use std::fmt::Write;

const VENDOR: [u8; 3] = [0x53, 0x49, 0x4d];

/// The handler of a script's reader: eight outputs, all off at first.
struct ScriptReader {
    outputs: [u8; 8],
}

impl Handler for ScriptReader {
    fn answer<'a>(&'a mut self, command: &Command<'a>) -> Answer<'a> {
        match command {
            Command::Status(States::Local) => Answer::Local(0, 0),
            Command::Status(States::Inputs | States::Readers) => Answer::List(&[0]),
            Command::Status(States::Outputs) => Answer::List(&self.outputs),
            Command::Output(outputs) => {
                if outputs.records().any(|record| record.output > 7 || record.control > 6) {
                    return Answer::Refuse(NakReason::RECORD);
                }
                for record in outputs.records().filter(|record| record.control > 0) {
                    self.outputs[usize::from(record.output)] = u8::from(matches!(record.control, 2 | 4 | 5));
                }
                Answer::Done
            }
            Command::Maker(maker @ Maker { vendor: VENDOR, .. }) => Answer::Maker(*maker),
            Command::Maker(_) => Answer::Refuse(NakReason::RECORD),
            _ => Answer::Done,
        }
    }
}

fn bytes_of(digits: &str) -> Option<Vec<u8>> {
    if digits == "none" {
        return Some(Vec::new());
    }
    (0..digits.len()).step_by(2).map(|at| u8::from_str_radix(digits.get(at..at + 2)?, 16).ok()).collect()
}

/// A line with its bytes, if it has any.
struct Line<'a> {
    words: Vec<&'a str>,
    bytes: Vec<u8>,
}

impl<'a> Line<'a> {
    fn of(line: &'a str) -> Option<Line<'a>> {
        let words: Vec<&str> = line.split_whitespace().collect();
        let bytes = match words[..] {
            ["issue" | "queue", _, digits] | [_, "damage", digits] => bytes_of(digits)?,
            _ => Vec::new(),
        };
        Some(Line { words, bytes })
    }

    fn way(&self) -> Option<Move<'_>> {
        match *self.words.get(1)? {
            "deliver" => Some(Move::Deliver),
            "drop" => Some(Move::Drop),
            "repeat" => Some(Move::Repeat),
            "damage" => Some(Move::Damage(&self.bytes)),
            _ => None,
        }
    }

    fn event(&self) -> Option<Event<'_>> {
        match Reply::of(&self.bytes) {
            Ok(Reply::Event(event)) => Some(event),
            _ => None,
        }
    }

    fn step(&self) -> Option<SimStep<'_>> {
        match self.words[..] {
            ["issue", "1", _] => Command::of(&self.bytes).ok().map(|command| SimStep::Issue(1, command)),
            ["queue", "1", _] => self.event().map(|event| SimStep::Queue(1, event)),
            ["busy", "1", switch] => Some(SimStep::Busy(1, switch == "on")),
            ["wait", time] => time.parse().ok().map(SimStep::Wait),
            ["to-reader", ..] => self.way().map(SimStep::ToReader),
            ["to-controller", ..] => self.way().map(SimStep::ToController),
            ["reopen", "1"] => Some(SimStep::Reopen(1)),
            _ => None,
        }
    }
}

fn settings(lines: &[Line<'_>]) -> Option<SimConfig> {
    let [check, reader] = lines else { return None };
    let (["check", check], ["reader", address, events]) = (&check.words[..], &reader.words[..]) else { return None };
    let address = address.parse().ok()?;
    let [a, b, c] = VENDOR;
    let id = PdId([a, b, c, 1, 1, 1, 0, 0, 0, 1, 0, 0]);
    Some(SimConfig {
        reader: reader::Settings { address, id, caps: vec![2, 1, 8, 8, 1, 0] },
        events: events.parse().ok()?,
        controller: controller::Settings::new(address, *check == "crc"),
        commands: 64,
    })
}

/// What a script comes to: its first two lines are `check` and `reader`. None where a line is bad.
pub fn told(script: &str) -> Option<String> {
    let lines: Vec<Line<'_>> = script.lines().map(Line::of).collect::<Option<_>>()?;
    let (front, rest) = lines.split_at_checked(2)?;
    let steps: Vec<SimStep<'_>> = rest.iter().map(Line::step).collect::<Option<_>>()?;
    let outcome = run_session(&settings(front)?, ScriptReader { outputs: [0; 8] }, &steps);
    Some(match outcome {
        Ok(account) => text(&account),
        Err(fault) => {
            let what = match fault.stop {
                Stop::HoldsPacket => "damage holds a packet",
                Stop::NotQuiet => "line not quiet",
                Stop::OutOfRange => "out of range",
            };
            format!("{}osdp: step {}: {what}\n", text(&fault.account), fault.step)
        }
    })
}

fn digits(bytes: &[u8]) -> String {
    bytes.iter().map(|byte| format!("{byte:02X}")).collect()
}

fn list(name: &str, messages: &Messages) -> String {
    messages.iter().map(|message| format!("{name} {}\n", digits(message))).collect()
}

fn text(account: &Account) -> String {
    let counts = [&account.issued, &account.taken, &account.settled, &account.unsettled, &account.queued, &account.reported];
    let names = ["issued", "taken", "settled", "unsettled", "queued", "reported"];
    let mut text = String::from("reader 1");
    for (name, messages) in names.iter().zip(counts) {
        let _ = write!(text, " {name} {}", messages.len());
    }
    text += "\n";
    text += &list("taken", &account.taken);
    for (command, reply) in account.settled.iter().zip(account.answers.iter()) {
        text += &format!("settled {} = {}\n", digits(command), digits(reply));
    }
    text += &list("unsettled", &account.unsettled);
    text += &list("reported", &account.reported);
    for end in &account.ends {
        text += match end {
            End::Lost(Cause::NoReply) => "ended no-reply\n",
            End::Lost(Cause::TooBusy) => "ended too-busy\n",
            End::Lost(Cause::NumberRefused) => "ended number-refused\n",
            End::Moved => "ended moved\n",
        };
    }
    text
}
