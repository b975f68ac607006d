//! The orders and events of a panel's only device in the program's store, and what is told of them: once the transaction of a turn stands on the disk, and not before it.
//! What was told for sure is noted with the next transaction. So what was told last before the program ended is told once more at its next start, after `again:`.
#![allow(dead_code)] // a program without orders in a store has no use for it
use super::store::{Store, Value};
use super::tell;
use std::io;
use std::time::{Duration, SystemTime, UNIX_EPOCH};

/// What becomes of an order.
#[derive(Clone, Copy)]
pub enum End {
    Settled,
    Doubt,
    Back,
}

impl End {
    /// As the store has it.
    fn word(self) -> &'static str {
        match self {
            End::Settled => "settled",
            End::Doubt => "doubt",
            End::Back => "back",
        }
    }
}

/// Milliseconds since 1970, as a store has them.
fn date(after: Duration) -> i64 {
    let since = SystemTime::now().duration_since(UNIX_EPOCH);
    let since = since.unwrap_or_default() + after;
    i64::try_from(since.as_millis()).unwrap_or(i64::MAX)
}

/// The number of an order, as a store has it.
fn key(number: u64) -> Value {
    Value::from(i64::try_from(number).unwrap_or(i64::MAX))
}

/// What became of an order, as it is told.
fn told(state: &str, answer: Option<&str>) -> String {
    match (state, answer) {
        ("refused", Some(why)) => format!("refused ({why})"),
        (state, Some(answer)) => format!("{state} {answer}"),
        (state, None) => state.into(),
    }
}

pub struct Ledger {
    store: Store,
    device: Value,
    said: Vec<String>,
    doubts: Vec<u64>,
    /// Whether the user has heard all that can be known of those.
    is_heard: bool,
}

impl Ledger {
    /// Takes what the store has of the device of this name: tells again what may not have been told, and tells each order without an end in doubt, since nobody knows
    /// whether it was done.
    pub fn open(store: Store, name: u8, retain: Option<i64>) -> io::Result<Ledger> {
        let device = Value::from(i64::from(name));
        let mut ledger = Ledger {
            store,
            device,
            said: Vec::new(),
            doubts: Vec::new(),
            is_heard: false,
        };
        if let Some(count) = retain {
            let count = Value::from(count);
            let sets = "UPDATE store SET kept_orders = ?, kept_events = ?";
            ledger.store.write(sets, &[count.clone(), count])?;
        }
        let untold = ledger.rows("SELECT number, text, state, answer FROM orders WHERE device = ? AND state <> 'open' AND told = 0 ORDER BY number")?;
        for row in untold {
            if let [
                Value::Number(number),
                Value::Text(text),
                Value::Text(state),
                answer,
            ] = &row[..]
            {
                ledger.say(format!(
                    "again: {} {number} {text}",
                    told(state, answer.text())
                ));
            }
        }
        let events = "SELECT text FROM events WHERE device = ? AND handled = 0 ORDER BY number";
        for row in ledger.rows(events)? {
            ledger.say(format!(
                "again: event {}",
                row[0].text().unwrap_or_default()
            ));
        }
        let open = "SELECT number FROM orders WHERE device = ? AND state = 'open' ORDER BY number";
        for row in ledger.rows(open)? {
            let number = row[0].number().unwrap_or_default();
            ledger.doubt(u64::try_from(number).unwrap_or_default())?;
        }
        Ok(ledger)
    }

    pub fn store(&mut self) -> &mut Store {
        &mut self.store
    }

    fn rows(&self, statement: &str) -> io::Result<Vec<Vec<Value>>> {
        self.store
            .rows(statement, std::slice::from_ref(&self.device))
    }

    /// Tells something with the end of the turn.
    pub fn say(&mut self, line: String) {
        self.said.push(line);
    }

    /// The number of the next order: they go on over restarts. The panel is made with it.
    pub fn next_number(&self) -> io::Result<u64> {
        let last = "SELECT max(number) FROM orders WHERE device = ?";
        let last = self
            .store
            .number(last, std::slice::from_ref(&self.device))?;
        Ok(1 + last.and_then(|last| u64::try_from(last).ok()).unwrap_or(0))
    }

    /// Stores an order that is about to be given, by the number that the panel will give it, and within which time it may go out.
    pub fn gives(&mut self, number: u64, text: &str, until: Duration) -> io::Result<()> {
        self.store.write(
            "INSERT INTO orders (device, number, text, until) VALUES (?, ?, ?, ?)",
            &[
                self.device.clone(),
                key(number),
                text.into(),
                date(until).into(),
            ],
        )
    }

    /// The panel has refused that order: the next one gets its number.
    pub fn refused(&mut self, number: u64) -> io::Result<()> {
        self.store.write(
            "DELETE FROM orders WHERE device = ? AND number = ?",
            &[self.device.clone(), key(number)],
        )
    }

    fn write_end(
        &mut self,
        number: u64,
        end: End,
        answer: Option<&str>,
        is_told: bool,
    ) -> io::Result<()> {
        self.store.write(
            "UPDATE orders SET state = ?, answer = ?, told = ? WHERE device = ? AND number = ?",
            &[
                end.word().into(),
                answer.map_or(Value::Nothing, Value::from),
                i64::from(is_told).into(),
                self.device.clone(),
                key(number),
            ],
        )
    }

    /// The text of an order.
    fn text(&self, number: u64) -> io::Result<String> {
        let text = "SELECT text FROM orders WHERE device = ? AND number = ?";
        let text = self.store.text(text, &[self.device.clone(), key(number)])?;
        Ok(text.unwrap_or_default())
    }

    /// Stores what became of an order, with the reply.
    pub fn ends(&mut self, number: u64, end: End, answer: Option<String>) -> io::Result<()> {
        self.write_end(number, end, answer.as_deref(), false)?;
        let text = self.text(number)?;
        self.say(format!(
            "{} {number} {text}",
            told(end.word(), answer.as_deref())
        ));
        Ok(())
    }

    /// An order is in doubt: that is told, and stored once its user has heard all that can be known of it.
    pub fn doubt(&mut self, number: u64) -> io::Result<()> {
        let text = self.text(number)?;
        self.say(format!("doubt {number} {text}"));
        self.doubts.push(number);
        Ok(())
    }

    pub fn has_doubts(&self) -> bool {
        !self.doubts.is_empty()
    }

    /// The user has heard all that can be known of the orders in doubt: they have their ends with the next turn.
    pub fn heard_all(&mut self) {
        self.is_heard = true;
    }

    /// Stores an event.
    pub fn reports(&mut self, text: &str, is_again: bool) -> io::Result<()> {
        self.store.write(
            "INSERT INTO events (device, text, since, again) VALUES (?, ?, ?, ?)",
            &[
                self.device.clone(),
                text.into(),
                date(Duration::ZERO).into(),
                i64::from(is_again).into(),
            ],
        )
    }

    /// The text of the event that was stored last.
    pub fn last_event(&self) -> io::Result<Option<String>> {
        let last = "SELECT text FROM events WHERE device = ? ORDER BY number DESC LIMIT 1";
        self.store.text(last, std::slice::from_ref(&self.device))
    }

    /// Once the user has heard the state, what was in doubt is noted: not before it, so that a loss of power in between leaves it to be told again.
    pub fn begins_turn(&mut self) -> io::Result<()> {
        if std::mem::take(&mut self.is_heard) {
            for number in std::mem::take(&mut self.doubts) {
                self.write_end(number, End::Doubt, None, true)?;
            }
        }
        Ok(())
    }

    /// The disk has all of this turn; then it is told.
    pub fn ends_turn(&mut self) -> io::Result<()> {
        self.store.commit()?;
        if !self.said.is_empty() {
            for line in std::mem::take(&mut self.said) {
                tell(line)?;
            }
            self.store.tells();
        }
        Ok(())
    }
}
