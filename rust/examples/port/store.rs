//! The store of a program: one file of SQLite for where devices are, for orders and for events. docs/STORE.md tells what is in it, and what it stands.
//!
//! A turn of a program is one transaction. The first call that writes begins it, and `Store::commit` ends it: before the packet of that turn goes out, and before
//! anything is told. Where the disk takes it, it is there after a loss of power; where not, the error says why, and nothing of the turn is there.
#![allow(dead_code)] // each program uses a part
use super::sqlite::{Base, Failure};
use std::fs::{self, File, OpenOptions, Permissions};
use std::io::{self, ErrorKind};
use std::os::unix::fs::{FileExt, MetadataExt, OpenOptionsExt, PermissionsExt};
use std::path::{Path, PathBuf};

pub use super::sqlite::Value;

const SCHEMA: &str = include_str!("store.sql");
/// The number that the file has of these programs.
const APPLICATION: i64 = 1330857040;
const DO: &str = "Bring back a copy of it; or see at which address each device is, say that, and start once with --new and no such file";
/// The first bytes of a file of SQLite.
const HEAD: &[u8; 16] = b"SQLite format 3\0";

/// The statements that bring a store from each version to the next: the lines after `-- version 1`, and so on.
fn parts(schema: &str) -> Vec<String> {
    let mut found: Vec<String> = Vec::new();
    for line in schema.lines() {
        match (line.starts_with("-- version "), found.last_mut()) {
            (true, _) => found.push(String::new()),
            (false, Some(part)) if !line.starts_with("--") => {
                part.push_str(line);
                part.push('\n');
            }
            _ => {}
        }
    }
    found
}

/// Where a store is, without links in the name of its folder.
fn whole(name: &str) -> io::Result<PathBuf> {
    let path = Path::new(name);
    let folder = path.parent().filter(|it| !it.as_os_str().is_empty());
    let last = path.file_name().ok_or(ErrorKind::InvalidFilename)?;
    Ok(fs::canonicalize(folder.unwrap_or(Path::new(".")))?.join(last))
}

fn refused<T>(why: String) -> io::Result<T> {
    Err(io::Error::other(why))
}

/// A store that this program alone has, while it runs.
pub struct Store {
    name: String,
    base: Base,
    /// The file, which is held as long as the program runs. It is closed after the base: by closing it the program would lose the locks of SQLite too.
    _held: File,
    /// Whether all that is stored was told, and that isn't stored yet.
    is_told: bool,
}

impl Store {
    /// Opens a store, and makes it before that where it is to be new. `role` is "panel" or "device". An error says why it can't be used, and what to do.
    pub fn open(name: &str, role: &str, is_new: bool) -> io::Result<Store> {
        Store::open_with(name, role, is_new, &parts(SCHEMA))
    }

    fn open_with(name: &str, role: &str, is_new: bool, parts: &[String]) -> io::Result<Store> {
        let named = |error: io::Error| io::Error::other(format!("{name} can't be opened: {error}"));
        let path = whole(name).map_err(named)?;
        if is_new {
            make(name, &path, role, parts)?;
        }
        let held = hold(name, &path)?;
        let opened = |failure: Failure| failed(name, "opened", &failure);
        let base = Base::open(&path).map_err(opened)?;
        let found = fs::symlink_metadata(&path).map_err(named)?;
        let mine = held.metadata().map_err(named)?;
        if (found.dev(), found.ino()) != (mine.dev(), mine.ino()) {
            return refused(format!(
                "{name} was replaced while it was opened: start again"
            ));
        }
        let (name, is_told) = (name.to_string(), false);
        let store = Store {
            name,
            base,
            _held: held,
            is_told,
        };
        store.look(role, parts)?;
        Ok(store)
    }

    /// Refuses a store that isn't whole, is another program's, or is of a later version.
    fn look(&self, role: &str, parts: &[String]) -> io::Result<()> {
        let name = &self.name;
        if self.number("PRAGMA application_id", &[])? != Some(APPLICATION) {
            return refused(format!("{name} is no store of osdp. {DO}"));
        }
        let state = self.text("PRAGMA quick_check(1)", &[])?;
        if state.as_deref() != Some("ok") {
            let state = state.unwrap_or_default();
            return refused(format!("{name} is damaged: {state}. {DO}"));
        }
        self.upgrade(parts)?;
        let found = self.text("SELECT role FROM store", &[])?;
        if found.as_deref() != Some(role) {
            let found = found.unwrap_or_default();
            return refused(format!(
                "{name} is the store of a {found}, and not of a {role}: name another file"
            ));
        }
        // without a log each transaction is to be on the disk with the removal of its journal, too
        let has_log = self.text("PRAGMA journal_mode", &[])?.as_deref() == Some("wal");
        let level = if has_log { "FULL" } else { "EXTRA" };
        let sets = format!("PRAGMA synchronous = {level}; PRAGMA foreign_keys = ON");
        self.base
            .run(&sets)
            .map_err(|failure| failed(name, "opened", &failure))
    }

    /// Brings a store of an earlier version to that of this program, in one transaction.
    fn upgrade(&self, parts: &[String]) -> io::Result<()> {
        let version = self
            .number("SELECT max(number) FROM version", &[])?
            .unwrap_or(0);
        let (name, mine) = (&self.name, parts.len());
        match usize::try_from(version) {
            Ok(version @ 1..) if version <= mine => match &parts[version..] {
                [] => Ok(()),
                rest => bring_up(&self.base, rest, "")
                    .map_err(|failure| failed(name, "opened", &failure)),
            },
            _ => refused(format!(
                "{name} is of version {version}, and this program knows {mine}: take a program of that version"
            )),
        }
    }

    /// Does a statement in the transaction of this turn. An error takes that back.
    pub fn write(&mut self, statement: &str, values: &[Value]) -> io::Result<()> {
        let done = self
            .begin()
            .and_then(|()| self.base.rows(statement, values).map(drop));
        done.map_err(|failure| self.fails(&failure))
    }

    /// Begins the transaction of this turn, which notes what was told since the last one.
    fn begin(&self) -> Result<(), Failure> {
        if self.base.is_in_transaction() {
            return Ok(());
        }
        self.base.run("BEGIN IMMEDIATE")?;
        match self.is_told {
            true => self.base.run(
                "UPDATE orders SET told = 1 WHERE state <> 'open' AND told = 0; UPDATE events SET handled = 1 WHERE handled = 0",
            ),
            false => Ok(()),
        }
    }

    /// Ends the transaction of this turn, if it has one: from here on it stands a loss of power.
    pub fn commit(&mut self) -> io::Result<()> {
        if self.base.is_in_transaction() {
            self.base
                .run("COMMIT")
                .map_err(|failure| self.fails(&failure))?;
            self.is_told = false;
        }
        Ok(())
    }

    fn fails(&self, failure: &Failure) -> io::Error {
        if self.base.is_in_transaction() {
            let _ = self.base.run("ROLLBACK");
        }
        io::Error::other(format!(
            "the store {} can't be written: {failure}",
            self.name
        ))
    }

    /// All that is stored was told. The next transaction notes it, so that no card costs the disk one more.
    pub fn tells(&mut self) {
        self.is_told = true;
    }

    /// The rows that a statement finds.
    pub fn rows(&self, statement: &str, values: &[Value]) -> io::Result<Vec<Vec<Value>>> {
        self.base
            .rows(statement, values)
            .map_err(|failure| failed(&self.name, "read", &failure))
    }

    /// The number in the first row, if there is one.
    pub fn number(&self, statement: &str, values: &[Value]) -> io::Result<Option<i64>> {
        let rows = self.rows(statement, values)?;
        Ok(rows
            .first()
            .and_then(|row| row.first())
            .and_then(Value::number))
    }

    /// The text in the first row, if there is one.
    pub fn text(&self, statement: &str, values: &[Value]) -> io::Result<Option<String>> {
        let rows = self.rows(statement, values)?;
        let first = rows.first().and_then(|row| row.first());
        Ok(first.and_then(Value::text).map(String::from))
    }
}

/// What SQLite says, and what to do: of a disk that is full or fails, or may not be written, nothing is lost; else the file is damaged.
fn failed(name: &str, what: &str, failure: &Failure) -> io::Error {
    let to_do = match failure.is_damage() {
        true => DO,
        false => "See that its disk has room, and may be written",
    };
    io::Error::other(format!("{name} can't be {what}: {failure}. {to_do}"))
}

/// Does statements that bring a store to a version, and some more, in one transaction.
fn bring_up(base: &Base, parts: &[String], more: &str) -> Result<(), Failure> {
    base.run("PRAGMA synchronous = EXTRA; BEGIN IMMEDIATE")?;
    for part in parts {
        base.run(part)?;
    }
    base.run(more)?;
    base.run("COMMIT")
}

/// Makes the file beside its place, whole, and then puts it there: one whose making was cut is no store, and the next `--new` removes it.
fn make(name: &str, path: &Path, role: &str, parts: &[String]) -> io::Result<()> {
    let named = |error: io::Error| io::Error::other(format!("{name} can't be made: {error}"));
    if fs::symlink_metadata(path).is_ok() {
        return refused(format!(
            "there is a store already: {name}. Start without --new"
        ));
    }
    let mut new = path.as_os_str().to_os_string();
    new.push(".new");
    let _ = fs::remove_file(&new);
    OpenOptions::new()
        .read(true)
        .write(true)
        .create_new(true) // it follows no link
        .mode(0o600)
        .open(&new)
        .map_err(named)?;
    let more = format!("INSERT INTO store (one, role) VALUES (1, '{role}')");
    let made = Base::open(Path::new(&new)).and_then(|base| {
        bring_up(&base, parts, &more)?;
        base.run("PRAGMA journal_mode = WAL")?;
        base.close()
    });
    made.map_err(|failure| failed(name, "made", &failure))?;
    fs::hard_link(&new, path).map_err(named)?;
    fs::remove_file(&new).map_err(named)?;
    let folder = path.parent().unwrap_or(Path::new("/"));
    File::open(folder)
        .and_then(|folder| folder.sync_all())
        .map_err(named)
}

/// Holds the file of a store, without following a link. Only its owner reads it from now on.
fn hold(name: &str, path: &Path) -> io::Result<File> {
    let named = |error: io::Error| io::Error::other(format!("{name} can't be opened: {error}"));
    let found = match fs::symlink_metadata(path) {
        Err(error) if error.kind() == ErrorKind::NotFound => {
            return refused(format!("there is no store at {name}. {DO}"));
        }
        found => found.map_err(named)?,
    };
    if found.is_symlink() {
        return refused(format!("{name} is a symbolic link: name the file itself"));
    }
    if !found.is_file() {
        return refused(format!("{name} is no file"));
    }
    if found.len() == 0 {
        return refused(format!("{name} has 0 bytes, and is no store. {DO}"));
    }
    let file = OpenOptions::new().read(true).write(true).open(path);
    let file = file.map_err(named)?;
    let mut head = [0; 16];
    if file.read_exact_at(&mut head, 0).is_err() || head != *HEAD {
        return refused(format!("{name} is no store of osdp. {DO}"));
    }
    if file.try_lock().is_err() {
        return refused(format!("another program has the store {name}"));
    }
    if found.mode() & 0o77 != 0 {
        file.set_permissions(Permissions::from_mode(0o600))
            .map_err(named)?;
    }
    Ok(file)
}

#[cfg(test)]
fn scratch(name: &str) -> String {
    let path = std::env::temp_dir().join(format!("osdp-{}-{name}", std::process::id()));
    for end in ["", "-wal", "-shm"] {
        let _ = fs::remove_file(format!("{}{end}", path.display()));
    }
    path.display().to_string()
}

#[test]
fn a_store_is_upgraded_and_a_later_one_refused() {
    let path = scratch("upgrade");
    let mut next = parts(SCHEMA);
    assert_eq!(next.len(), 1);
    let mut first = Store::open(&path, "panel", true).expect("it is made");
    first
        .write("INSERT INTO devices (name) VALUES (?)", &[Value::Number(5)])
        .expect("written");
    first.commit().expect("committed");
    drop(first);
    next.push(
        "ALTER TABLE devices ADD COLUMN word TEXT; INSERT INTO version VALUES (2, 0);".into(),
    );
    let second = Store::open_with(&path, "panel", false, &next).expect("it is upgraded");
    let name = second
        .number("SELECT name FROM devices WHERE word IS NULL", &[])
        .expect("read");
    assert_eq!(name, Some(5));
    drop(second);
    let why = Store::open(&path, "panel", false)
        .err()
        .expect("it is refused");
    let said = "is of version 2, and this program knows 1";
    assert!(why.to_string().contains(said), "{why}");
}

#[test]
fn a_turn_is_there_whole_or_not_at_all() {
    let path = scratch("turn");
    let mut store = Store::open(&path, "panel", true).expect("it is made");
    let device = "INSERT INTO devices (name) VALUES (?)";
    store
        .write(device, &[Value::Number(5)])
        .expect("the first one");
    store
        .write(device, &[Value::Number(127)])
        .expect_err("no such address");
    store.commit().expect("nothing is there to be committed");
    let count = store
        .number("SELECT count(*) FROM devices", &[])
        .expect("read");
    assert_eq!(count, Some(0));
}
