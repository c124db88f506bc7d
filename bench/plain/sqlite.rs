//! The part of SQLite's C interface that the plain programs need, with the settings of the program. Each statement is prepared once.
use std::collections::HashMap;
use std::ffi::{c_char, c_int, c_void, CString};
use std::ptr::{null, null_mut};
use std::slice;

type Handle = *mut c_void;

#[link(name = "sqlite3")]
extern "C" {
    fn sqlite3_open(path: *const c_char, database: *mut Handle) -> c_int;
    fn sqlite3_exec(database: Handle, sql: *const c_char, row: *const c_void, given: *const c_void, fault: *const c_void) -> c_int;
    fn sqlite3_prepare_v3(database: Handle, sql: *const u8, bytes: c_int, flags: u32, made: *mut Handle, tail: *const c_void) -> c_int;
    fn sqlite3_bind_int64(statement: Handle, place: c_int, value: i64) -> c_int;
    fn sqlite3_bind_text(statement: Handle, place: c_int, value: *const u8, bytes: c_int, freed: *const c_void) -> c_int;
    fn sqlite3_bind_blob(statement: Handle, place: c_int, value: *const u8, bytes: c_int, freed: *const c_void) -> c_int;
    fn sqlite3_step(statement: Handle) -> c_int;
    fn sqlite3_reset(statement: Handle) -> c_int;
    fn sqlite3_finalize(statement: Handle) -> c_int;
    fn sqlite3_close(database: Handle) -> c_int;
    fn sqlite3_column_int64(statement: Handle, column: c_int) -> i64;
    fn sqlite3_column_blob(statement: Handle, column: c_int) -> *const u8;
    fn sqlite3_column_bytes(statement: Handle, column: c_int) -> c_int;
}
const ROW: c_int = 100;
const DONE: c_int = 101;
const PERSISTENT: u32 = 1;
const SETTINGS: &str = "PRAGMA foreign_keys = ON; PRAGMA locking_mode = EXCLUSIVE; PRAGMA journal_mode = WAL;
    PRAGMA synchronous = FULL; PRAGMA cache_size = 2000";

pub enum Value<'a> {
    Number(u32),
    Text(&'a str),
    Bytes(&'a [u8]),
}

/// The current row of a statement.
pub struct Row(Handle);

impl Row {
    pub fn number(&self, column: c_int) -> u32 {
        (unsafe { sqlite3_column_int64(self.0, column) }) as u32
    }

    pub fn text(&self, column: c_int) -> String {
        let start = unsafe { sqlite3_column_blob(self.0, column) };
        let count = unsafe { sqlite3_column_bytes(self.0, column) } as usize;
        let bytes = if count == 0 { &[] } else { unsafe { slice::from_raw_parts(start, count) } };
        String::from_utf8_lossy(bytes).into_owned()
    }
}

pub struct Database {
    handle: Handle,
    statements: HashMap<&'static str, Handle>,
}

impl Database {
    pub fn open(path: &str) -> Database {
        let (path, mut handle) = (CString::new(path).unwrap(), null_mut());
        assert_eq!(unsafe { sqlite3_open(path.as_ptr(), &mut handle) }, 0, "{path:?} can't be opened");
        let database = Database { handle, statements: HashMap::new() };
        database.run_all(SETTINGS);
        database
    }

    /// Closes the database, which writes its log into the file.
    pub fn close(self) {
        for statement in self.statements.into_values() {
            unsafe { sqlite3_finalize(statement) };
        }
        assert_eq!(unsafe { sqlite3_close(self.handle) }, 0, "an archive can't be closed");
    }

    /// Runs statements without keeping them prepared.
    pub fn run_all(&self, statements: &str) {
        let text = CString::new(statements).unwrap();
        assert_eq!(unsafe { sqlite3_exec(self.handle, text.as_ptr(), null(), null(), null()) }, 0, "{statements} fails");
    }

    fn statement(&mut self, sql: &'static str) -> Handle {
        let database = self.handle;
        *self.statements.entry(sql).or_insert_with(|| {
            let (length, mut made) = (sql.len() as c_int, null_mut());
            let status = unsafe { sqlite3_prepare_v3(database, sql.as_ptr(), length, PERSISTENT, &mut made, null()) };
            assert_eq!(status, 0, "{sql} can't be prepared");
            made
        })
    }

    /// Runs a statement, and returns what `row_of` makes of each row, or `None` if the statement fails.
    pub fn rows<T>(&mut self, sql: &'static str, values: &[Value], row_of: impl Fn(Row) -> T) -> Option<Vec<T>> {
        let (statement, mut rows) = (self.statement(sql), Vec::new());
        for (place, value) in (1..).zip(values) {
            // SQLite needn't copy the values: they outlive the run, and the statement is reset at its end.
            let status = match value {
                Value::Number(number) => unsafe { sqlite3_bind_int64(statement, place, i64::from(*number)) },
                Value::Text(text) => unsafe { sqlite3_bind_text(statement, place, text.as_ptr(), text.len() as c_int, null()) },
                Value::Bytes(bytes) => unsafe { sqlite3_bind_blob(statement, place, bytes.as_ptr(), bytes.len() as c_int, null()) },
            };
            assert_eq!(status, 0, "value {place} can't be bound to {sql}");
        }
        let mut status = unsafe { sqlite3_step(statement) };
        while status == ROW {
            rows.push(row_of(Row(statement)));
            status = unsafe { sqlite3_step(statement) };
        }
        unsafe { sqlite3_reset(statement) };
        (status == DONE).then_some(rows)
    }

    pub fn run(&mut self, sql: &'static str, values: &[Value]) -> Option<()> {
        self.rows(sql, values, |_| ()).map(|_| ())
    }

    /// Does `work` in one transaction. Ends it with the statement `end` if the work succeeded, and rolls it back otherwise.
    pub fn within<T>(&mut self, end: &'static str, work: impl FnOnce(&mut Database) -> Option<T>) -> Option<T> {
        self.run("BEGIN", &[])?;
        let done = work(self);
        self.run(if done.is_some() { end } else { "ROLLBACK" }, &[])?;
        done
    }
}
