//! Does what `tacho dump` does, in plain Rust over std alone. It is written for speed: it writes digits without `format!`, formats
//! each date only once while the day stays the same, and allocates each buffer at its full size.
use std::io::{self, Read, Write};
use std::process::ExitCode;

const LIMIT: usize = 65_535;

/// The end of a line, indexed by the mark: twice the activity, plus one for crew.
const MARKS: [&str; 8] = [
    " rest single\n",
    " rest crew\n",
    " available single\n",
    " available crew\n",
    " work single\n",
    " work crew\n",
    " drive single\n",
    " drive crew\n",
];

/// The length of the longest line, in bytes.
const LINE: usize = "2023-01-12 00:00 2023-01-12 04:59 available single\n".len();

#[derive(Clone, Copy)]
pub struct Span {
    pub start: u32,
    pub past: u32,
    pub mark: u8,
}

pub enum Fault {
    TooLarge,
    ShortActivity,
    Pointer,
    RecordLength(usize),
    Chain(usize),
    DayRange(usize),
    WordMinute(usize),
    WordOrder(usize),
    Contradiction(u32),
}

impl Fault {
    fn line(&self) -> Vec<u8> {
        let text = match *self {
            Fault::TooLarge => "X1 too large".into(),
            Fault::ShortActivity => "C7 activity data too short".into(),
            Fault::Pointer => "C8 pointer out of the buffer".into(),
            Fault::RecordLength(place) => format!("C9 record length at {place}"),
            Fault::Chain(place) => format!("C10 chain broken at {place}"),
            Fault::DayRange(place) => format!("C11 day out of range at {place}"),
            Fault::WordMinute(place) => format!("C12 word minute at {place}"),
            Fault::WordOrder(place) => format!("C13 word order at {place}"),
            Fault::Contradiction(_) => "C14 file contradicts itself at ".into(),
        };
        let mut line = Lines::with_capacity(2 * LINE);
        line.text.extend_from_slice(text.as_bytes());
        if let Fault::Contradiction(minute) = *self {
            line.push_minute(minute);
        }
        line.text.push(b'\n');
        line.text
    }
}

fn number(bytes: &[u8], place: usize) -> usize {
    usize::from(u16::from_be_bytes([bytes[place], bytes[place + 1]]))
}

fn mark_of(word: u16) -> Option<u8> {
    let activity = (word >> 11 & 3) as u8;
    let (is_crew, is_out) = (word & 0x4000 != 0, word & 0x2000 != 0);
    match (is_crew, is_out) {
        (false, true) => None,
        (true, false) => Some(2 * activity + 1),
        _ => Some(2 * activity),
    }
}

/// Appends a span, unless it is empty or has no mark.
fn push(spans: &mut Vec<Span>, start: u32, past: u32, mark: Option<u8>) {
    if let Some(mark) = mark {
        if start < past {
            spans.push(Span { start, past, mark });
        }
    }
}

/// The spans of all records from the oldest to the newest.
pub fn spans_of(value: &[u8]) -> Result<Vec<Span>, Fault> {
    if value.len() < 16 {
        return Err(Fault::ShortActivity);
    }
    let (oldest, newest, ring) = (number(value, 0), number(value, 2), &value[4..]);
    let size = ring.len();
    if oldest >= size || newest >= size {
        return Err(Fault::Pointer);
    }
    // The ring, rotated so that the oldest record comes first and no record wraps around. The first four bytes are repeated at the end,
    // because a record's length field may still wrap.
    let mut bytes = Vec::with_capacity(size + 4);
    bytes.extend_from_slice(&ring[oldest..]);
    bytes.extend_from_slice(&ring[..oldest]);
    bytes.extend_from_within(..4);
    let place_of = |at: usize| (oldest + at) % size;
    let last = (newest + size - oldest) % size;
    let mut spans = Vec::with_capacity(size / 2);
    if last == 0 && number(&bytes, 2) == 0 {
        return Ok(spans);
    }
    let mut at = 0;
    loop {
        let length = number(&bytes, at + 2);
        if length < 12 || length % 2 != 0 || length > size {
            return Err(Fault::RecordLength(place_of(at)));
        }
        if at + length > size {
            return Err(Fault::Chain(place_of(at)));
        }
        let day = (number(&bytes, at + 4) << 16 | number(&bytes, at + 6)) as u32 / 86_400;
        if !(10_959..=47_481).contains(&day) {
            return Err(Fault::DayRange(place_of(at)));
        }
        let midnight = 1440 * day;
        let (mut start, mut mark) = (midnight, None);
        for (i, word) in bytes[at + 12..at + length].chunks_exact(2).enumerate() {
            let word = u16::from_be_bytes([word[0], word[1]]);
            let minute = u32::from(word & 0x7ff);
            if minute >= 1440 {
                return Err(Fault::WordMinute(place_of(at + 12 + 2 * i)));
            }
            if midnight + minute < start {
                return Err(Fault::WordOrder(place_of(at + 12 + 2 * i)));
            }
            push(&mut spans, start, midnight + minute, mark);
            (start, mark) = (midnight + minute, mark_of(word));
        }
        if at == last {
            return Ok(spans);
        }
        push(&mut spans, start, midnight + 1440, mark);
        at += length;
    }
}

/// Sorts the spans, and joins those that touch and have the same mark.
pub fn put_in_order(spans: &mut Vec<Span>) -> Result<(), Fault> {
    spans.sort_unstable_by_key(|span| span.start);
    let mut conflict = None;
    spans.dedup_by(|span, last| {
        let is_same = span.mark == last.mark;
        if span.start < last.past && !is_same {
            conflict.get_or_insert(span.start);
        }
        let is_joined = span.start <= last.past && is_same;
        if is_joined {
            last.past = last.past.max(span.past);
        }
        is_joined
    });
    match conflict {
        Some(minute) => Err(Fault::Contradiction(minute)),
        None => Ok(()),
    }
}

/// The year, month and day of a day number (Howard Hinnant's `civil_from_days`).
fn civil(day: u32) -> (u32, u32, u32) {
    let z = day + 719_468;
    let era = z / 146_097;
    let doe = z % 146_097;
    let yoe = (doe - doe / 1460 + doe / 36_524 - doe / 146_096) / 365;
    let doy = doe - (365 * yoe + yoe / 4 - yoe / 100);
    let mp = (5 * doy + 2) / 153;
    let month = if mp < 10 { mp + 3 } else { mp - 9 };
    (yoe + era * 400 + u32::from(month <= 2), month, doy - (153 * mp + 2) / 5 + 1)
}

/// The two decimal digits of each number below 100.
const PAIRS: [[u8; 2]; 100] = {
    let mut pairs = [[b'0'; 2]; 100];
    let mut number = 0;
    while number < 100 {
        pairs[number] = [b'0' + (number / 10) as u8, b'0' + (number % 10) as u8];
        number += 1;
    }
    pairs
};

fn pair(number: u32) -> [u8; 2] {
    PAIRS[number as usize]
}

/// The first minute of a day, as text.
fn midnight_text(day: u32) -> [u8; 16] {
    let (year, month, day) = civil(day);
    let ([y1, y2], [y3, y4]) = (pair(year / 100), pair(year % 100));
    let ([m1, m2], [d1, d2]) = (pair(month), pair(day));
    [y1, y2, y3, y4, b'-', m1, m2, b'-', d1, d2, b' ', b'0', b'0', b':', b'0', b'0']
}

/// Lines of output. The text of the last date is kept, because the next minute mostly has the same date.
pub struct Lines {
    pub text: Vec<u8>,
    day: u32,
    midnight: [u8; 16],
}

impl Lines {
    pub fn with_capacity(bytes: usize) -> Lines {
        Lines { text: Vec::with_capacity(bytes), day: 0, midnight: midnight_text(0) }
    }

    pub fn push_minute(&mut self, minute: u32) {
        let (day, of_day) = (minute / 1440, minute % 1440);
        if day != self.day {
            self.day = day;
            self.midnight = midnight_text(day);
        }
        let mut text = self.midnight;
        text[11..13].copy_from_slice(&pair(of_day / 60));
        text[14..].copy_from_slice(&pair(of_day % 60));
        self.text.extend_from_slice(&text);
    }

    fn push_span(&mut self, span: &Span) {
        self.push_minute(span.start);
        self.text.push(b' ');
        self.push_minute(span.past);
        self.text.extend_from_slice(MARKS[usize::from(span.mark)].as_bytes());
    }
}

/// The lines that `tacho dump` prints for activity data.
fn lines_of(value: &[u8]) -> Result<Vec<u8>, Fault> {
    if value.len() > LIMIT {
        return Err(Fault::TooLarge);
    }
    let mut spans = spans_of(value)?;
    put_in_order(&mut spans)?;
    let mut lines = Lines::with_capacity(LINE * spans.len());
    for span in &spans {
        lines.push_span(span);
    }
    Ok(lines.text)
}

fn main() -> ExitCode {
    let mut input = Vec::with_capacity(LIMIT + 1);
    if io::stdin().lock().take(LIMIT as u64 + 1).read_to_end(&mut input).is_err() {
        let _ = io::stdout().lock().write_all(b"X2 device failed\n");
        return ExitCode::from(3);
    }
    let (text, status) = match lines_of(&input) {
        Ok(text) => (text, 0),
        Err(fault) => (fault.line(), 1),
    };
    match io::stdout().lock().write_all(&text) {
        Ok(()) => ExitCode::from(status),
        Err(_) => ExitCode::from(3),
    }
}
