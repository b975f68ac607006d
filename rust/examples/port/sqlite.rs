//! The few calls of libsqlite3 that a store needs.
use std::ffi::{CStr, CString, c_char, c_int, c_void};
use std::fmt;
use std::os::unix::ffi::OsStrExt;
use std::path::Path;
use std::ptr;

#[repr(C)]
struct Sqlite {
    _opaque: [u8; 0],
}

#[repr(C)]
struct Statement {
    _opaque: [u8; 0],
}

#[link(name = "sqlite3")]
unsafe extern "C" {
    fn sqlite3_open_v2(
        path: *const c_char,
        base: *mut *mut Sqlite,
        flags: c_int,
        vfs: *const c_char,
    ) -> c_int;
    fn sqlite3_close(base: *mut Sqlite) -> c_int;
    fn sqlite3_busy_timeout(base: *mut Sqlite, milliseconds: c_int) -> c_int;
    fn sqlite3_errmsg(base: *mut Sqlite) -> *const c_char;
    fn sqlite3_errstr(code: c_int) -> *const c_char;
    fn sqlite3_get_autocommit(base: *mut Sqlite) -> c_int;
    fn sqlite3_exec(
        base: *mut Sqlite,
        statements: *const c_char,
        row: *const c_void,
        with: *mut c_void,
        error: *mut *mut c_char,
    ) -> c_int;
    fn sqlite3_prepare_v2(
        base: *mut Sqlite,
        statement: *const c_char,
        length: c_int,
        made: *mut *mut Statement,
        rest: *mut *const c_char,
    ) -> c_int;
    fn sqlite3_bind_int64(made: *mut Statement, at: c_int, number: i64) -> c_int;
    fn sqlite3_bind_text(
        made: *mut Statement,
        at: c_int,
        text: *const c_char,
        length: c_int,
        free: *const c_void,
    ) -> c_int;
    fn sqlite3_step(made: *mut Statement) -> c_int;
    fn sqlite3_column_count(made: *mut Statement) -> c_int;
    fn sqlite3_column_type(made: *mut Statement, at: c_int) -> c_int;
    fn sqlite3_column_int64(made: *mut Statement, at: c_int) -> i64;
    fn sqlite3_column_text(made: *mut Statement, at: c_int) -> *const c_char;
    fn sqlite3_finalize(made: *mut Statement) -> c_int;
}

// Numbers of its header: codes, types of columns, and flags of an opening.
const OK: c_int = 0;
const NO_MEMORY: c_int = 7;
const CORRUPT: c_int = 11;
const NOT_A_BASE: c_int = 26;
const ROW: c_int = 100;
const DONE: c_int = 101;
const INTEGER: c_int = 1;
const NULL: c_int = 5;
const READ_WRITE: c_int = 0x2;
const PRIVATE_CACHE: c_int = 0x40000;
const NO_FOLLOW: c_int = 0x100_0000;
/// So many milliseconds another program may write, as a shell that somebody has open.
const WAIT: c_int = 2000;

/// A value of a row, or of a statement.
#[derive(Clone, Debug, PartialEq, Eq)]
pub enum Value {
    Nothing,
    Number(i64),
    Text(String),
}

impl Value {
    pub fn number(&self) -> Option<i64> {
        match self {
            Value::Number(number) => Some(*number),
            Value::Nothing | Value::Text(_) => None,
        }
    }

    pub fn text(&self) -> Option<&str> {
        match self {
            Value::Text(text) => Some(text),
            Value::Nothing | Value::Number(_) => None,
        }
    }
}

impl From<i64> for Value {
    fn from(number: i64) -> Value {
        Value::Number(number)
    }
}

impl From<&str> for Value {
    fn from(text: &str) -> Value {
        Value::Text(text.into())
    }
}

/// Why a call has failed: its code, and what SQLite says.
#[derive(Debug)]
pub struct Failure(c_int, String);

impl Failure {
    /// Whether the file isn't one of SQLite, or is damaged.
    pub fn is_damage(&self) -> bool {
        matches!(self.0 & 0xFF, CORRUPT | NOT_A_BASE)
    }
}

impl fmt::Display for Failure {
    fn fmt(&self, f: &mut fmt::Formatter<'_>) -> fmt::Result {
        f.write_str(&self.1)
    }
}

/// A text of C, which SQLite keeps.
unsafe fn text_of(text: *const c_char) -> String {
    match text.is_null() {
        true => String::new(),
        // SAFETY: a text of SQLite ends with a 0.
        false => unsafe { CStr::from_ptr(text) }
            .to_string_lossy()
            .into_owned(),
    }
}

/// A text for C. One with a 0 in it ends there: no statement, path or message has one.
fn c_text(text: &[u8]) -> CString {
    let end = text.iter().position(|byte| *byte == 0);
    CString::new(&text[..end.unwrap_or(text.len())]).unwrap_or_default()
}

/// An open file of SQLite.
pub struct Base(*mut Sqlite);

impl Base {
    /// Opens a file that is there. No link is followed.
    pub fn open(path: &Path) -> Result<Base, Failure> {
        let mut base = ptr::null_mut();
        let path = c_text(path.as_os_str().as_bytes());
        let flags = READ_WRITE | PRIVATE_CACHE | NO_FOLLOW;
        // SAFETY: the path ends with a 0, and `base` takes what is opened, which is closed also where the opening fails.
        let code = unsafe { sqlite3_open_v2(path.as_ptr(), &mut base, flags, ptr::null()) };
        let base = Base(base);
        base.demand(code)?;
        // SAFETY: it is open.
        unsafe { sqlite3_busy_timeout(base.0, WAIT) };
        Ok(base)
    }

    /// Closes it, with what is left to be done.
    pub fn close(self) -> Result<(), Failure> {
        // SAFETY: it is open, and `drop` closes none that is null.
        let code = unsafe { sqlite3_close(self.0) };
        std::mem::forget(self);
        match code {
            OK => Ok(()),
            // SAFETY: the call gives a text for each code.
            code => Err(Failure(code, unsafe { text_of(sqlite3_errstr(code)) })),
        }
    }

    fn demand(&self, code: c_int) -> Result<(), Failure> {
        if code == OK {
            return Ok(());
        }
        // SAFETY: the calls give texts; the first one takes what is open, and null as out of memory.
        let said = unsafe {
            match self.0.is_null() {
                true => text_of(sqlite3_errstr(NO_MEMORY)),
                false => text_of(sqlite3_errmsg(self.0)),
            }
        };
        Err(Failure(code, said))
    }

    /// Does statements that have no values.
    pub fn run(&self, statements: &str) -> Result<(), Failure> {
        let text = c_text(statements.as_bytes());
        // SAFETY: it is open, and the text ends with a 0. No row is asked for, and no message.
        let code = unsafe {
            sqlite3_exec(
                self.0,
                text.as_ptr(),
                ptr::null(),
                ptr::null_mut(),
                ptr::null_mut(),
            )
        };
        self.demand(code)
    }

    pub fn is_in_transaction(&self) -> bool {
        // SAFETY: it is open.
        unsafe { sqlite3_get_autocommit(self.0) == 0 }
    }

    /// Does a statement with its values. Its rows.
    pub fn rows(&self, statement: &str, values: &[Value]) -> Result<Vec<Vec<Value>>, Failure> {
        let texts: Vec<CString> = values
            .iter()
            .map(|value| c_text(value.text().unwrap_or_default().as_bytes()))
            .collect();
        let text = c_text(statement.as_bytes());
        let mut made = ptr::null_mut();
        // SAFETY: it is open, the text ends with a 0, and `made` takes the statement, which `Made` finalizes.
        let code =
            unsafe { sqlite3_prepare_v2(self.0, text.as_ptr(), -1, &mut made, ptr::null_mut()) };
        let made = Made(made);
        self.demand(code)?;
        for (at, value) in (1..).zip(values) {
            // SAFETY: the statement is made, and each text lives until it is finalized: `texts` is dropped after it.
            let code = unsafe {
                match value {
                    Value::Nothing => OK, // as it is where nothing is bound
                    Value::Number(number) => sqlite3_bind_int64(made.0, at, *number),
                    Value::Text(_) => sqlite3_bind_text(
                        made.0,
                        at,
                        texts[at as usize - 1].as_ptr(),
                        -1,
                        ptr::null(),
                    ),
                }
            };
            self.demand(code)?;
        }
        let mut rows = Vec::new();
        loop {
            // SAFETY: the statement is made.
            match unsafe { sqlite3_step(made.0) } {
                ROW => rows.push(made.row()),
                DONE => return Ok(rows),
                code => self.demand(code)?,
            }
        }
    }
}

impl Drop for Base {
    fn drop(&mut self) {
        // SAFETY: it is open, or null, which is left alone. No statement of it is left.
        unsafe { sqlite3_close(self.0) };
    }
}

/// A statement.
struct Made(*mut Statement);

impl Made {
    /// The row that it is at.
    fn row(&self) -> Vec<Value> {
        // SAFETY: the statement is at a row, whose columns are asked for.
        unsafe {
            (0..sqlite3_column_count(self.0))
                .map(|at| match sqlite3_column_type(self.0, at) {
                    NULL => Value::Nothing,
                    INTEGER => Value::Number(sqlite3_column_int64(self.0, at)),
                    _ => Value::Text(text_of(sqlite3_column_text(self.0, at))),
                })
                .collect()
        }
    }
}

impl Drop for Made {
    fn drop(&mut self) {
        // SAFETY: it is made, or null, which is left alone.
        unsafe { sqlite3_finalize(self.0) };
    }
}
