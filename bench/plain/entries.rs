//! Reads entered hours from CSV, in plain Rust over std alone. It is written for speed: it reads a row of two times and an activity
//! in place if the row has no quotes, and copies the fields of any other row first.
use std::env;
use std::io::{self, Read, Write};

/// The byte order mark, which some programs put before a text.
const MARK: &[u8] = b"\xef\xbb\xbf";

/// The most minutes that a line may have.
const LONGEST: u32 = 527_040;

/// The length of a time, in bytes.
const TIME: usize = "2024-03-04 00:00".len();

/// The length of a row up to its activity, in bytes.
const ROW: usize = 2 * TIME + 2;

#[derive(Clone, Copy, PartialEq, Eq)]
pub enum Activity {
    Rest,
    Available,
    Work,
    Drive,
}

pub struct Line {
    pub start: u32,
    pub past: u32,
    pub activity: Activity,
}

pub enum Fault {
    Head,
    Fields,
    Time,
    Order,
    LeftOut,
    Activity,
    TooLong,
}

impl Fault {
    fn text(&self, row: u64) -> String {
        match self {
            Fault::Head => "wrong head".into(),
            Fault::Fields => format!("wrong fields in row {row}"),
            Fault::Time => format!("bad time in row {row}"),
            Fault::Order => format!("wrong order in row {row}"),
            Fault::LeftOut => format!("left out in row {row}"),
            Fault::Activity => format!("no such activity in row {row}"),
            Fault::TooLong => format!("too long in row {row}"),
        }
    }
}

/// The day number of a date (Howard Hinnant's `days_from_civil`).
pub fn day_number(year: u32, month: u32, day: u32) -> u32 {
    let year = year - u32::from(month <= 2);
    let (era, yoe) = (year / 400, year % 400);
    let doy = (153 * ((month + 9) % 12) + 2) / 5 + day - 1;
    era * 146_097 + yoe * 365 + yoe / 4 - yoe / 100 + doy - 719_468
}

pub fn days_in_month(year: u32, month: u32) -> u32 {
    match month {
        2 if year % 4 == 0 && (year % 100 != 0 || year % 400 == 0) => 29,
        2 => 28,
        4 | 6 | 9 | 11 => 30,
        _ => 31,
    }
}

/// The minute of a time from 2000-01-03 00:00 to 2099-12-31 23:59, or `None`.
fn minute_of(text: &[u8]) -> Option<u32> {
    if text.len() != TIME || text[4] != b'-' || text[7] != b'-' || text[10] != b' ' || text[13] != b':' {
        return None;
    }
    let mut worst = 0;
    let mut digit = |place: usize| {
        let digit = text[place].wrapping_sub(b'0');
        worst |= u8::from(digit > 9);
        u32::from(digit)
    };
    let year = digit(0) * 1000 + digit(1) * 100 + digit(2) * 10 + digit(3);
    let month = digit(5) * 10 + digit(6);
    let day = digit(8) * 10 + digit(9);
    let hour = digit(11) * 10 + digit(12);
    let minute = digit(14) * 10 + digit(15);
    if worst != 0 || !(2000..2100).contains(&year) || !(1..13).contains(&month) {
        return None;
    }
    if day < 1 || day > days_in_month(year, month) || hour > 23 || minute > 59 {
        return None;
    }
    let number = day_number(year, month, day);
    (number >= 10_959).then_some(1440 * number + 60 * hour + minute)
}

/// Checks a line of two minutes and an activity. The line before it ends at `before`.
fn line_of(before: u32, start: u32, past: u32, word: &[u8]) -> Result<Line, Fault> {
    if start >= past || start < before {
        return Err(Fault::Order);
    }
    let activity = match word {
        b"rest" => Activity::Rest,
        b"available" => Activity::Available,
        b"work" => Activity::Work,
        b"drive" => Activity::Drive,
        b"crew" | b"ferry" | b"out" | b"derogation" => return Err(Fault::LeftOut),
        _ => return Err(Fault::Activity),
    };
    if past - start > LONGEST {
        return Err(Fault::TooLong);
    }
    Ok(Line { start, past, activity })
}

/// The fields of a record, one after the other, and where each ends.
#[derive(Default)]
struct Record {
    bytes: Vec<u8>,
    ends: Vec<usize>,
}

impl Record {
    /// Reads the record at a place. Returns the place after it.
    fn read(&mut self, text: &[u8], mut place: usize) -> usize {
        self.bytes.clear();
        self.ends.clear();
        loop {
            if text.get(place) == Some(&b'"') {
                place = self.read_quoted(text, place + 1);
            }
            let rest = &text[place..];
            let length = rest.iter().position(|byte| matches!(byte, b',' | b'\r' | b'\n')).unwrap_or(rest.len());
            self.bytes.extend_from_slice(&rest[..length]);
            self.ends.push(self.bytes.len());
            place += length;
            if text.get(place) != Some(&b',') {
                return place;
            }
            place += 1;
        }
    }

    /// Reads the quoted part of a field, from the place after its opening quote. Returns the place after its closing quote.
    fn read_quoted(&mut self, text: &[u8], mut place: usize) -> usize {
        while place < text.len() {
            if text[place] == b'"' {
                place += 1;
                if text.get(place) != Some(&b'"') {
                    return place;
                }
            }
            self.bytes.push(text[place]);
            place += 1;
        }
        place
    }

    fn three(&self) -> Option<[&[u8]; 3]> {
        match *self.ends {
            [one, two, three] => Some([&self.bytes[..one], &self.bytes[one..two], &self.bytes[two..three]]),
            _ => None,
        }
    }
}

/// The two minutes and the activity of the row at a place, and the place after the row. `None` if the row has quotes, or isn't two
/// times and one more field.
fn plain_row(text: &[u8], place: usize) -> Option<(u32, u32, &[u8], usize)> {
    let row = &text[place..];
    if row.len() < ROW || row[TIME] != b',' || row[ROW - 1] != b',' {
        return None;
    }
    let (start, past) = (minute_of(&row[..TIME])?, minute_of(&row[TIME + 1..ROW - 1])?);
    let rest = &row[ROW..];
    let length = rest.iter().position(|byte| matches!(byte, b',' | b'\r' | b'\n' | b'"')).unwrap_or(rest.len());
    match rest.get(length) {
        Some(b',' | b'"') => None,
        _ => Some((start, past, &rest[..length], place + ROW + length)),
    }
}

/// Checks the line of a record. The line before it ends at `before`.
fn line_of_record(before: u32, record: &Record) -> Result<Line, Fault> {
    let [start, past, word] = record.three().ok_or(Fault::Fields)?;
    match (minute_of(start), minute_of(past)) {
        (Some(start), Some(past)) => line_of(before, start, past, word),
        _ => Err(Fault::Time),
    }
}

/// The place of the next record: skips line ends.
fn next_record(text: &[u8], place: usize) -> usize {
    place + text[place..].iter().take_while(|byte| matches!(byte, b'\r' | b'\n')).count()
}

/// The lines of a CSV text, or its first fault and the number of its row.
pub fn lines_of(text: &[u8]) -> Result<Vec<Line>, (Fault, u64)> {
    let text = text.strip_prefix(MARK).unwrap_or(text);
    let mut record = Record::default();
    let head = next_record(text, 0);
    if head == text.len() {
        return Err((Fault::Head, 1));
    }
    let mut place = record.read(text, head);
    if record.three() != Some([b"start", b"past", b"activity"]) {
        return Err((Fault::Head, 1));
    }
    let mut lines = Vec::with_capacity(text.len() / (ROW + 5));
    let (mut before, mut row) = (0, 1);
    loop {
        place = next_record(text, place);
        if place == text.len() {
            return Ok(lines);
        }
        row += 1;
        let line = match plain_row(text, place) {
            Some((start, past, word, after)) => {
                place = after;
                line_of(before, start, past, word)
            }
            None => {
                place = record.read(text, place);
                line_of_record(before, &record)
            }
        };
        match line {
            Ok(line) => {
                before = line.past;
                lines.push(line);
            }
            Err(fault) => return Err((fault, row)),
        }
    }
}

fn main() -> io::Result<()> {
    let times = env::args().nth(2).and_then(|word| word.parse().ok()).unwrap_or(24);
    let mut text = Vec::new();
    io::stdin().lock().read_to_end(&mut text)?;
    let (mut count, mut minutes, mut rests) = (0_u64, 0_u64, 0_u64);
    for _ in 0..times {
        match lines_of(&text) {
            Ok(lines) => {
                for line in &lines {
                    count += 1;
                    minutes += u64::from(line.past - line.start);
                    rests += u64::from(line.activity == Activity::Rest);
                }
            }
            Err((fault, row)) => return writeln!(io::stdout(), "{}", fault.text(row)),
        }
    }
    writeln!(io::stdout(), "{count} lines, {minutes} minutes, {rests} rests")
}
