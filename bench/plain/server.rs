//! Answers three of the requests that `tacho serve` answers, in plain Rust over std and stock SQLite: a driver asks for their breaches;
//! the office asks for the sheet of a month; the office sends a card file. The statements and their transactions are the program's,
//! except that a sheet reads the driver's held spans only once. Any other request, or a refused one, gets 400 and an empty body.
#![allow(dead_code)]
use std::env;
use std::io::{self, BufRead, BufReader, Read, Write};
use std::net::{TcpListener, TcpStream};

mod archive;
#[path = "dump.rs"]
mod dump;
#[path = "entries.rs"]
mod entries;
#[path = "examine.rs"]
mod examine;
#[path = "line.rs"]
mod line;
mod reports;
mod sqlite;

use archive::{driver_by_key, driver_with, import, Insert};
use dump::Lines;
use examine::examine;
use reports::{amounts_of, days_of, held_by, held_from, push_breach, push_date, push_horizon, DAY};
use sqlite::Database;

const BODY_LIMIT: usize = 262_144;
const WEEKDAYS: [&str; 7] = ["Mon", "Tue", "Wed", "Thu", "Fri", "Sat", "Sun"];

// Answers to requests

fn breaches(archive: &mut Database, driver: u32) -> Option<String> {
    let (base, spans) = archive.within("ROLLBACK", |archive| held_by(archive, driver))?;
    let report = examine(&spans, base);
    let mut lines = Lines::with_capacity(4096);
    report.breaches.iter().for_each(|breach| push_breach(&mut lines, breach));
    push_horizon(&mut lines, &report);
    String::from_utf8(lines.text).ok()
}

fn push_amounts(lines: &mut Lines, amounts: &[u32; 6]) {
    amounts.iter().for_each(|amount| write!(lines.text, "{:4}:{:02}", amount / 60, amount % 60).unwrap());
    lines.text.push(b'\n');
}

fn sheet(archive: &mut Database, driver: u32, month: &str) -> Option<String> {
    let (first, days) = days_of(month)?;
    let (start, past) = (DAY * first, DAY * (first + days));
    let name = archive.within("ROLLBACK", |archive| driver_with(archive, driver))?.name;
    let (base, spans) = archive.within("ROLLBACK", |archive| {
        let base = DAY * driver_with(archive, driver)?.base;
        Some((base, held_from(archive, driver, base.min(start))?))
    })?;
    let report = examine(&spans, base);
    let mut lines = Lines::with_capacity(4096);
    write!(lines.text, "DRIVER {driver} {name}\nMONTH {month}\nDATE       DAY   REST  AVAIL   WORK  DRIVE   CREW   NONE\n").unwrap();
    for day in first..first + days {
        push_date(&mut lines, DAY * day);
        write!(lines.text, " {}", WEEKDAYS[(day as usize + 3) % 7]).unwrap();
        push_amounts(&mut lines, &amounts_of(&spans, DAY * day, DAY * (day + 1)));
    }
    lines.text.extend_from_slice(b"TOTAL         ");
    push_amounts(&mut lines, &amounts_of(&spans, start, past));
    report.breaches.iter().filter(|breach| (start..past).contains(&breach.moment)).for_each(|breach| push_breach(&mut lines, breach));
    push_horizon(&mut lines, &report);
    String::from_utf8(lines.text).ok()
}

// Requests and replies

/// Reads a request. Returns its first line, its key and its body.
fn read_request(stream: &TcpStream) -> io::Result<(String, String, Vec<u8>)> {
    let (mut reader, mut first_line, mut key, mut length) = (BufReader::new(stream), String::new(), String::new(), 0);
    reader.read_line(&mut first_line)?;
    loop {
        let mut line = String::new();
        reader.read_line(&mut line)?;
        let Some((name, value)) = line.split_once(':') else { break };
        if name.eq_ignore_ascii_case("x-key") {
            key = value.trim().to_string();
        } else if name.eq_ignore_ascii_case("content-length") {
            length = value.trim().parse().map_err(|_| io::ErrorKind::InvalidData)?;
        }
    }
    let mut body = vec![0; length.min(BODY_LIMIT)];
    reader.read_exact(&mut body)?;
    Ok((first_line, key, body))
}

/// Carries out a request. Returns the status and the text of its reply, or `None` if it is refused or isn't one of the three.
fn reply_to(archive: &mut Database, office_key: &str, first_line: &str, key: &str, body: &[u8]) -> Option<(&'static str, String)> {
    let words: Vec<&str> = first_line.split([' ', '/']).collect();
    if key == office_key {
        return match words[..] {
            ["GET", "", "drivers", driver, "sheet", month, ..] => Some(("200 OK", sheet(archive, driver.parse().ok()?, month)?)),
            ["POST", "", "cards", "both", ..] => {
                let (is_new, text) = import(archive, body, Insert::One)?;
                Some((if is_new { "201 Created" } else { "200 OK" }, text))
            }
            _ => None,
        };
    }
    let driver = archive.within("ROLLBACK", |archive| driver_by_key(archive, key))?;
    match words[..] {
        ["GET", "", "me", "breaches", ..] => Some(("200 OK", breaches(archive, driver)?)),
        _ => None,
    }
}

fn answer(archive: &mut Database, office_key: &str, mut stream: TcpStream) -> io::Result<()> {
    let (first_line, key, body) = read_request(&stream)?;
    let reply = reply_to(archive, office_key, &first_line, &key, &body);
    let (status, text) = reply.unwrap_or(("400 Bad Request", String::new()));
    let fields = format!("content-type: text/plain; charset=utf-8\r\ncontent-length: {}\r\nconnection: close", text.len());
    stream.write_all(format!("HTTP/1.1 {status}\r\n{fields}\r\n\r\n{text}").as_bytes())
}

fn main() {
    let arguments: Vec<String> = env::args().skip(1).collect();
    let [_, path, key, port, count] = &arguments[..] else { panic!("the arguments are: serve ARCHIVE KEY PORT COUNT") };
    let mut archive = Database::open(path);
    let listener = TcpListener::bind(("127.0.0.1", port.parse().unwrap())).unwrap();
    for stream in listener.incoming().take(count.parse().unwrap()) {
        let _ = stream.and_then(|stream| answer(&mut archive, key, stream));
    }
}
