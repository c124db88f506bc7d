//! Runs four of `tool_script`'s commands on an archive, in plain Rust over std and stock SQLite. It takes the same arguments and lines,
//! and answers a command that succeeds in the same way. If the first argument is `many`, an INSERT adds eight spans or four entries, not
//! one, while at least that many remain.
#![allow(dead_code)]
use std::env;
use std::fs;

mod archive;
#[path = "dump.rs"]
mod dump;
#[path = "entries.rs"]
mod entries;
#[path = "line.rs"]
mod line;
mod script;
mod sqlite;

use archive::Insert;
use script::{bad_number, number, status_of};
use sqlite::Database;

const TABLES: &str = include_str!("../tables.sql");
const SETTINGS: [(&str, &str); 7] = [
    ("journal_mode", "PRAGMA journal_mode"),
    ("synchronous", "PRAGMA synchronous"),
    ("locking_mode", "PRAGMA locking_mode"),
    ("cache_size", "PRAGMA cache_size"),
    ("page_size", "PRAGMA page_size"),
    ("foreign_keys", "PRAGMA foreign_keys"),
    ("wal_autocheckpoint", "PRAGMA wal_autocheckpoint"),
];

/// Opens the archive in a file, or in memory if the path is `:memory:`. Creates the tables if there are none.
fn opened(path: &str) -> Database {
    let mut archive = Database::open(path);
    if archive.rows("SELECT name FROM sqlite_schema", &[], |_| ()).unwrap().is_empty() {
        let statements = TABLES.split_terminator(';').map(|text| text.split_whitespace().collect::<Vec<_>>().join(" "));
        archive.run_all(&format!("BEGIN; {}; COMMIT", statements.collect::<Vec<_>>().join("; ")));
    }
    archive
}

fn settings(archive: &mut Database) -> String {
    let values = SETTINGS.map(|(name, statement)| format!("{name} {}", archive.rows(statement, &[], |row| row.text(0)).unwrap()[0]));
    values.join(", ") + "\n"
}

/// Runs the command of a line. Returns the text to print, and the status.
fn answer_to(archive: &mut Database, insert: Insert, line: &str) -> (String, u8) {
    let (arguments, path) = line.split_once(" < ").unwrap_or((line, "/dev/null"));
    let arguments: Vec<&str> = arguments.split(' ').collect();
    let input = fs::read(path).unwrap();
    match arguments[..] {
        ["settings"] => (settings(archive), 0),
        ["register", _] => status_of(archive::register(archive, &input)),
        ["import", _, "both"] => status_of(archive::import(archive, &input, insert).map(|(_, text)| text)),
        ["enter", _, driver] => match number(driver) {
            Some(driver) => status_of(archive::enter(archive, driver, &input, insert)),
            None => bad_number(),
        },
        ["withdraw", _, driver, entry] => match number(driver).zip(number(entry)) {
            Some((driver, entry)) => status_of(archive::withdraw(archive, driver, entry)),
            None => bad_number(),
        },
        _ => (String::new(), 2),
    }
}

fn main() {
    let arguments: Vec<String> = env::args().skip(1).collect();
    let arguments: Vec<&str> = arguments.iter().map(String::as_str).collect();
    let (insert, arguments) = arguments.strip_prefix(&["many"]).map_or((Insert::One, &arguments[..]), |rest| (Insert::Many, rest));
    let archive = match *arguments {
        ["archive", path] => opened(path),
        ["memory"] => opened(":memory:"),
        _ => panic!("the arguments are: [many] archive FILE, or [many] memory"),
    };
    script::answer_lines(archive, |archive, line| answer_to(archive, insert, line));
}
