//! Reads the spans of a driver that are to be examined, and writes the texts of reports.
use crate::archive::{driver_with, first_start, HELD_NEAR};
use crate::dump::Lines;
use crate::entries;
use crate::examine::{Activity, Breach, Cause, Report, Span};
use crate::sqlite::{Database, Row, Value::*};
use std::io::Write;

const HELD_FROM: &str = "SELECT start, past, mark FROM held WHERE driver = ?1 AND ?2 <= start ORDER BY start";
pub const DAY: u32 = 1440;
const ACTIVITIES: [Activity; 4] = [Activity::Rest, Activity::Available, Activity::Work, Activity::Drive];
#[rustfmt::skip]
pub const RULES: [&str; 10] = [
    "B1 Art 7", "B2 Art 8(2)", "B3 Art 8(4)", "B4 Art 6(1)", "B5 Art 6(1)", "B6 Art 6(2)", "B7 Art 6(3)", "B8 Art 8(6)",
    "B9 Art 8(6)", "B10 Art 8(6b)",
];

fn span_of(row: Row) -> Span {
    let mark = row.number(2);
    Span { start: row.number(0), past: row.number(1), activity: ACTIVITIES[mark as usize % 4], is_crew: mark >= 4 }
}

/// The spans that a driver holds from a minute on; the span that holds the minute is included whole. Reads each row once.
pub fn held_from(archive: &mut Database, driver: u32, minute: u32) -> Option<Vec<Span>> {
    let start = first_start(archive, HELD_NEAR[0], driver, minute)?;
    archive.rows(HELD_FROM, &[Number(driver), Number(start)], span_of)
}

/// The base of a driver as a minute, and the spans that the driver holds from it on.
pub fn held_by(archive: &mut Database, driver: u32) -> Option<(u32, Vec<Span>)> {
    let base = DAY * driver_with(archive, driver)?.base;
    Some((base, held_from(archive, driver, base)?))
}

/// The first day of a month, as a day number, and the number of days of the month.
pub fn days_of(month: &str) -> Option<(u32, u32)> {
    let (year, month) = month.split_once('-')?;
    let (year, month) = (year.parse().ok()?, month.parse().ok()?);
    let is_month = (2000..2100).contains(&year) && (1..13).contains(&month);
    is_month.then(|| (entries::day_number(year, month, 1), entries::days_in_month(year, month)))
}

/// The minutes of a range, by kind: each of the four activities without a second driver, with a second driver, and not held.
pub fn amounts_of(spans: &[Span], start: u32, past: u32) -> [u32; 6] {
    let mut amounts = [0, 0, 0, 0, 0, past - start];
    for span in spans[spans.partition_point(|span| span.past <= start)..].iter().take_while(|span| span.start < past) {
        let minutes = span.past.min(past) - span.start.max(start);
        amounts[if span.is_crew { 4 } else { span.activity as usize }] += minutes;
        amounts[5] -= minutes;
    }
    amounts
}

pub fn push_date(lines: &mut Lines, minute: u32) {
    lines.push_minute(minute);
    lines.text.truncate(lines.text.len() - " 00:00".len());
}

pub fn push_breach(lines: &mut Lines, breach: &Breach) {
    lines.text.extend_from_slice(RULES[breach.kind as usize].as_bytes());
    lines.text.extend_from_slice(b" at ");
    lines.push_minute(breach.moment);
    lines.text.extend_from_slice(b" since ");
    lines.push_minute(breach.since);
    writeln!(lines.text, " amount {}", breach.amount).unwrap();
}

pub fn push_horizon(lines: &mut Lines, report: &Report) {
    lines.text.extend_from_slice(b"EXAMINED TO ");
    lines.push_minute(report.horizon);
    lines.text.extend_from_slice(if let Cause::Crew = report.cause { b" crew\n" } else { b" unknown\n" });
}
