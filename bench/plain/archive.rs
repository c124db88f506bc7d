//! Adds drivers, card files and hours to an archive, in plain Rust over stock SQLite. Runs the statements of the program, in the same
//! transactions. A function returns `None` if its request is refused or SQLite fails.
use crate::line::{self, Span};
use crate::sqlite::{Database, Row, Value, Value::*};
use crate::{dump, entries};

/// The statements that add spans to a table.
macro_rules! adding_spans {
    ($table:literal) => {
        Adding {
            one: concat!("INSERT INTO ", $table, " (driver, start, past, mark) VALUES (?1, ?2, ?3, ?4)"),
            many: concat!(
                "INSERT INTO ", $table, " (driver, start, past, mark) VALUES (?1, ?2, ?3, ?4), (?1, ?5, ?6, ?7), (?1, ?8, ?9, ?10), ",
                "(?1, ?11, ?12, ?13), (?1, ?14, ?15, ?16), (?1, ?17, ?18, ?19), (?1, ?20, ?21, ?22), (?1, ?23, ?24, ?25)"
            ),
            count: 8,
        }
    };
}

const BY_KEY: &str = "SELECT driver FROM drivers WHERE secret = ?1";
const BY_HOLDER: &str = "SELECT driver FROM drivers WHERE holder = ?1";
const DRIVER: &str = "SELECT driver, holder, base, name, downloads, entries FROM drivers WHERE driver = ?1";
const ADD_DRIVER: &str =
    "INSERT INTO drivers (driver, holder, secret, base, name, downloads, entries) VALUES (?1, ?2, ?3, ?4, ?5, 0, 0)";
const COUNT_DOWNLOADS: &str = "UPDATE drivers SET downloads = ?2 WHERE driver = ?1";
const COUNT_ENTRIES: &str = "UPDATE drivers SET entries = ?2 WHERE driver = ?1";
const ADD_DOWNLOAD: &str = "INSERT INTO downloads (driver, number, part, file) VALUES (?1, ?2, ?3, ?4)";
const ENTRY: &str = "SELECT number, start, past, mark, withdrawn, author, note FROM entry_rows WHERE driver = ?1 AND number = ?2";
const KEPT_NEAR: &str =
    "SELECT start, past, mark FROM entry_rows WHERE driver = ?1 AND withdrawn = 0 AND start < ?3 AND ?2 < past ORDER BY start";
const ADD_ENTRY: Adding = Adding {
    one: "INSERT INTO entry_rows (driver, number, start, past, mark, withdrawn, author, note) VALUES (?1, ?2, ?3, ?4, ?5, 0, ?6, ?7)",
    many: "INSERT INTO entry_rows (driver, number, start, past, mark, withdrawn, author, note) VALUES (?1, ?2, ?3, ?4, ?5, 0, ?6, ?7), \
        (?1, ?8, ?9, ?10, ?11, 0, ?12, ?13), (?1, ?14, ?15, ?16, ?17, 0, ?18, ?19), (?1, ?20, ?21, ?22, ?23, 0, ?24, ?25)",
    count: 4,
};
const WITHDRAW: &str = "UPDATE entry_rows SET withdrawn = 1 WHERE driver = ?1 AND number = ?2";
pub const HELD_NEAR: [&str; 2] = [
    "SELECT start, past, mark FROM held WHERE driver = ?1 AND start < ?2 ORDER BY start DESC LIMIT 1",
    "SELECT start, past, mark FROM held WHERE driver = ?1 AND ?2 <= start AND start < ?3 ORDER BY start",
];
const CARDS_NEAR: [&str; 2] = [
    "SELECT start, past, mark FROM card_spans WHERE driver = ?1 AND start < ?2 ORDER BY start DESC LIMIT 1",
    "SELECT start, past, mark FROM card_spans WHERE driver = ?1 AND ?2 <= start AND start < ?3 ORDER BY start",
];
const ADD_HELD: Adding = adding_spans!("held");
const ADD_CARD: Adding = adding_spans!("card_spans");
const DELETE_HELD: &str = "DELETE FROM held WHERE driver = ?1 AND ?2 <= start AND start < ?3";

const AUTHOR: &str = "office";
const BOTH: u32 = 0; // the part of a card file that is kept

/// How many rows one INSERT adds: one (`One`); or eight spans or four entries, while at least that many remain (`Many`).
#[derive(Clone, Copy)]
pub enum Insert {
    One,
    Many,
}

/// The statements that add rows of a driver: `one` adds a single row, `many` adds `count` rows.
struct Adding {
    one: &'static str,
    many: &'static str,
    count: usize,
}

/// What is stored of a driver.
pub struct Driver {
    pub base: u32,
    pub name: String,
    downloads: u32,
    entries: u32,
}

pub fn driver_with(archive: &mut Database, number: u32) -> Option<Driver> {
    let driver_of = |row: Row| Driver { base: row.number(2), name: row.text(3), downloads: row.number(4), entries: row.number(5) };
    archive.rows(DRIVER, &[Number(number)], driver_of)?.pop()
}

/// The number of the driver with a key.
pub fn driver_by_key(archive: &mut Database, key: &str) -> Option<u32> {
    archive.rows(BY_KEY, &[Text(key)], |row| row.number(0))?.pop()
}

fn span_from(row: &Row, column: i32) -> Span {
    let mark = row.number(column + 2) as u8;
    Span { start: row.number(column), past: row.number(column + 1), mark: (mark % 4, mark >= 4) }
}

fn span_of(row: Row) -> Span {
    span_from(&row, 0)
}

fn mark_number(span: &Span) -> u32 {
    u32::from(span.mark.0) + 4 * u32::from(span.mark.1)
}

/// The first minute of spans in order, and the minute after their last; two zeros if there are no spans.
fn range_of(spans: &[Span]) -> (u32, u32) {
    spans.first().zip(spans.last()).map_or((0, 0), |(first, last)| (first.start, last.past))
}

/// The minute from which a table's spans near a range begin: the start of the span that holds `start`, else `start` itself.
pub fn first_start(archive: &mut Database, last_before: &'static str, driver: u32, start: u32) -> Option<u32> {
    let before = archive.rows(last_before, &[Number(driver), Number(start)], span_of)?.pop();
    Some(before.filter(|span| start < span.past).map_or(start, |span| span.start))
}

/// The spans of a table that share a minute with a range, in order.
fn near(archive: &mut Database, statements: [&'static str; 2], driver: u32, start: u32, past: u32) -> Option<Vec<Span>> {
    let begin = first_start(archive, statements[0], driver, start)?;
    archive.rows(statements[1], &[Number(driver), Number(begin), Number(past)], span_of)
}

/// Adds rows of a driver. `values_of` returns the values of a row after the driver's number.
fn add<T, const COUNT: usize>(
    archive: &mut Database,
    adding: Adding,
    insert: Insert,
    driver: u32,
    rows: &[T],
    values_of: impl Fn(&T) -> [Value<'static>; COUNT],
) -> Option<()> {
    let (many, rest) = rows.split_at(match insert {
        Insert::One => 0,
        Insert::Many => rows.len() - rows.len() % adding.count,
    });
    let mut values = Vec::with_capacity(1 + COUNT * adding.count);
    let mut run = |statement, rows: &[T]| {
        values.clear();
        values.push(Number(driver));
        rows.iter().for_each(|row| values.extend(values_of(row)));
        archive.run(statement, &values)
    };
    many.chunks(adding.count).try_for_each(|rows| run(adding.many, rows))?;
    rest.chunks(1).try_for_each(|row| run(adding.one, row))
}

fn add_spans(archive: &mut Database, adding: Adding, insert: Insert, driver: u32, spans: &[Span]) -> Option<()> {
    add(archive, adding, insert, driver, spans, |span| [span.start, span.past, mark_number(span)].map(Number))
}

// Drivers

fn bytes_of(hexadecimal: &str) -> Option<Vec<u8>> {
    (0..hexadecimal.len()).step_by(2).map(|at| u8::from_str_radix(hexadecimal.get(at..at + 2)?, 16).ok()).collect()
}

fn day_of(date: &str) -> Option<u32> {
    let numbers: Option<Vec<u32>> = date.split('-').map(|word| word.parse().ok()).collect();
    let [year, month, day] = numbers?[..] else { return None };
    Some(entries::day_number(year, month, day))
}

/// Adds the driver of a CSV text without quotes: a header line and one row.
pub fn register(archive: &mut Database, text: &[u8]) -> Option<String> {
    let row = str::from_utf8(text).ok()?.strip_prefix("driver,holder,key,base,name\n")?.strip_suffix('\n')?;
    let fields: Vec<&str> = row.split(',').collect();
    let [number, holder, key, base, name] = fields[..] else { return None };
    let (number, holder, base) = (number.parse().ok()?, bytes_of(holder)?, day_of(base)?);
    archive.within("COMMIT", |archive| {
        let is_taken = driver_with(archive, number).is_some()
            || driver_by_key(archive, key).is_some()
            || !archive.rows(BY_HOLDER, &[Bytes(&holder)], |row| row.number(0))?.is_empty();
        if is_taken {
            return None;
        }
        archive.run(ADD_DRIVER, &[Number(number), Bytes(&holder), Text(key), Number(base), Text(name)])?;
        Some(format!("registered {number}\n"))
    })
}

// Card files

/// The holder of a card file, and the spans of its activity data.
fn card_of(mut file: &[u8]) -> Option<(&[u8], Vec<Span>)> {
    let (mut holder, mut spans) = (None, Vec::new());
    while !file.is_empty() {
        let (head, rest) = file.split_at_checked(5)?;
        let (value, rest) = rest.split_at_checked(usize::from(head[3]) * 256 + usize::from(head[4]))?;
        match head[..3] {
            [0x05, 0x20, 0 | 2] if holder.is_none_or(|holder| value.starts_with(holder)) => holder = value.get(..15),
            [0x05, 0x20, 0 | 2] => return None,
            [0x05, 0x04, 0 | 2] => spans.extend(dump::spans_of(value).ok()?),
            _ => (),
        }
        file = rest;
    }
    dump::put_in_order(&mut spans).ok()?;
    let spans = spans.iter().map(|span| Span { start: span.start, past: span.past, mark: (span.mark / 2, span.mark % 2 == 1) });
    Some((holder?, spans.collect()))
}

/// Adds a card file and its spans. Returns whether the file gave any new span, and the text to print.
pub fn import(archive: &mut Database, file: &[u8], insert: Insert) -> Option<(bool, String)> {
    let (holder, spans) = card_of(file)?;
    let (start, past) = range_of(&spans);
    archive.within("COMMIT", |archive| {
        let driver = archive.rows(BY_HOLDER, &[Bytes(holder)], |row| row.number(0))?.pop()?;
        let number = driver_with(archive, driver)?.downloads + 1;
        let cards = near(archive, CARDS_NEAR, driver, start, past)?;
        let helds = near(archive, HELD_NEAR, driver, start, past)?;
        let new_cards = line::gains(&cards, &spans).ok()?;
        if new_cards.is_empty() {
            return Some((false, format!("repeated driver {driver}\n")));
        }
        let new_helds = line::gains(&helds, &spans).ok()?;
        archive.run(COUNT_DOWNLOADS, &[Number(driver), Number(number)])?;
        archive.run(ADD_DOWNLOAD, &[Number(driver), Number(number), Number(BOTH), Bytes(file)])?;
        add_spans(archive, ADD_CARD, insert, driver, &new_cards)?;
        add_spans(archive, ADD_HELD, insert, driver, &new_helds)?;
        Some((true, format!("added driver {driver} number {number}\n")))
    })
}

// Hours

/// Enters the hours of a CSV text for a driver.
pub fn enter(archive: &mut Database, driver: u32, text: &[u8], insert: Insert) -> Option<String> {
    let lines = entries::lines_of(text).ok()?;
    let spans: Vec<_> = lines.iter().map(|line| Span { start: line.start, past: line.past, mark: (line.activity as u8, false) }).collect();
    let (start, past) = range_of(&spans);
    archive.within("COMMIT", |archive| {
        let before = driver_with(archive, driver)?.entries;
        let helds = near(archive, HELD_NEAR, driver, start, past)?;
        let new_helds = line::gains(&helds, &spans).ok()?;
        let last = before + spans.len() as u32;
        archive.run(COUNT_ENTRIES, &[Number(driver), Number(last)])?;
        let numbered: Vec<_> = (before + 1..).zip(&spans).collect();
        add(archive, ADD_ENTRY, insert, driver, &numbered, |(number, span)| {
            let [number, start, past, mark] = [*number, span.start, span.past, mark_number(span)].map(Number);
            [number, start, past, mark, Text(AUTHOR), Text("")]
        })?;
        add_spans(archive, ADD_HELD, insert, driver, &new_helds)?;
        Some(format!("entered {} to {last}\n", before + 1))
    })
}

/// The rows that replace those near a withdrawn entry. Outside the entry they keep what is held; inside it they are what cards and
/// other entries give.
fn rows_for(entry: &Span, given: &[Span], helds: &[Span]) -> Option<Vec<Span>> {
    let inside = |span: &Span| Span { start: span.start.max(entry.start), past: span.past.min(entry.past), ..*span };
    let mut rows = line::canonical(&given.iter().map(inside).collect::<Vec<_>>()).ok()?;
    for held in helds {
        rows.push(Span { past: held.past.min(entry.start), ..*held });
        rows.push(Span { start: held.start.max(entry.past), ..*held });
    }
    rows.retain(|span| span.start < span.past);
    Some(rows)
}

/// Withdraws a driver's entry.
pub fn withdraw(archive: &mut Database, driver: u32, number: u32) -> Option<String> {
    archive.within("COMMIT", |archive| {
        driver_with(archive, driver)?;
        let key = || [Number(driver), Number(number)];
        let (entry, is_withdrawn) = archive.rows(ENTRY, &key(), |row| (span_from(&row, 1), row.number(4) != 0))?.pop()?;
        if is_withdrawn {
            return None;
        }
        archive.run(WITHDRAW, &key())?;
        let mut given = near(archive, CARDS_NEAR, driver, entry.start, entry.past)?;
        given.extend(archive.rows(KEPT_NEAR, &[Number(driver), Number(entry.start), Number(entry.past)], span_of)?);
        let helds = near(archive, HELD_NEAR, driver, entry.start, entry.past)?;
        let rows = rows_for(&entry, &given, &helds)?;
        let begin = first_start(archive, HELD_NEAR[0], driver, entry.start)?;
        archive.run(DELETE_HELD, &[Number(driver), Number(begin), Number(entry.past)])?;
        add_spans(archive, ADD_HELD, Insert::One, driver, &rows)?;
        Some(format!("withdrawn {number}\n"))
    })
}
