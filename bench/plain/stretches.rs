//! Runs five of `tool_script`'s readings on an archive in a file, in plain Rust over std and stock SQLite: the stretches of a driver and a
//! forecast, the overview of a month, and the chart of a driver's month and the evidence for its breaches. It takes the same lines, and
//! answers a command that succeeds in the same way. docs/RULES.md says what stretches are.
#![allow(dead_code)]
use std::env;
use std::fmt::Write;

mod ahead;
mod archive;
mod chart;
#[path = "dump.rs"]
mod dump;
#[path = "entries.rs"]
mod entries;
#[path = "examine.rs"]
mod examine;
#[path = "line.rs"]
mod line;
mod reports;
mod script;
mod sqlite;
mod why;

use archive::{driver_with, Driver};
use dump::Lines;
use examine::{examine, week_of, week_start, Report, Span, WEEK};
use reports::{amounts_of, days_of, held_by, held_from, push_breach, push_date, push_horizon, DAY};
use sqlite::Database;

const DRIVERS: &str = "SELECT driver, base, name FROM drivers ORDER BY driver";
const HEAD: &str = "driver,name,rest,available,work,drive,crew,none,examined,B1,B2,B3,B4,B5,B6,B7,B8,B9,B10\n";

/// A stretch: the Monday from which it is examined, and its report.
struct Stretch {
    monday: u32,
    report: Report,
}

/// The first Monday after a minute that is held without a second driver.
fn start_after(spans: &[Span], minute: u32) -> Option<u32> {
    let mut later = spans[spans.partition_point(|span| span.past <= minute)..].iter().filter(|span| !span.is_crew);
    later.find_map(|span| {
        let monday = week_start(week_of(span.start.max(minute + 1) + WEEK - 1));
        (monday < span.past).then_some(monday)
    })
}

fn stretches_of(spans: &[Span], base: u32) -> Vec<Stretch> {
    let (mut stretches, mut start) = (Vec::new(), Some(base));
    while let Some(monday) = start {
        let report = examine(spans, monday);
        start = start_after(spans, report.horizon);
        stretches.push(Stretch { monday, report });
    }
    stretches
}

fn push_from(lines: &mut Lines, monday: u32) {
    lines.text.extend_from_slice(b"FROM ");
    push_date(lines, monday);
    lines.text.push(b'\n');
}

/// Appends the end of a stretch after which nothing is examined up to `end`.
fn push_unseen(lines: &mut Lines, horizon: u32, end: u32) {
    lines.text.extend_from_slice(b"NOT EXAMINED ");
    lines.push_minute(horizon);
    lines.text.push(b' ');
    lines.push_minute(end);
    lines.text.push(b'\n');
}

/// The stretches of a driver, as text.
fn stretches(archive: &mut Database, driver: u32) -> Option<String> {
    let (base, spans) = archive.within("ROLLBACK", |archive| held_by(archive, driver))?;
    let stretches = stretches_of(&spans, base);
    let end = spans.last().map_or(base, |span| span.past);
    let ends = stretches.iter().skip(1).map(|stretch| stretch.monday).chain([end]);
    let mut lines = Lines::with_capacity(4096);
    for (Stretch { monday, report }, end) in stretches.iter().zip(ends) {
        push_from(&mut lines, *monday);
        report.breaches.iter().for_each(|breach| push_breach(&mut lines, breach));
        push_horizon(&mut lines, report);
        if report.horizon < end {
            push_unseen(&mut lines, report.horizon, end);
        }
    }
    String::from_utf8(lines.text).ok()
}

/// The forecast for a driver from a minute on, as text.
fn ahead(archive: &mut Database, driver: u32, minute: u32) -> Option<String> {
    let (base, spans) = archive.within("ROLLBACK", |archive| held_by(archive, driver))?;
    let Stretch { monday, report } = stretches_of(&spans, base).pop()?;
    let end = spans.last().map_or(base, |span| span.past);
    let mut lines = Lines::with_capacity(4096);
    push_from(&mut lines, monday);
    push_horizon(&mut lines, &report);
    if report.horizon < end {
        push_unseen(&mut lines, report.horizon, end);
    } else {
        ahead::push_ahead(&mut lines, &spans, monday, minute)?;
    }
    String::from_utf8(lines.text).ok()
}

/// The minute of a date and a time.
fn minute_of(date: &str, time: &str) -> Option<u32> {
    let (month, day) = date.rsplit_once('-')?;
    let (hour, minute) = time.split_once(':')?;
    let number = |text: &str| text.parse::<u32>().ok();
    Some(DAY * (days_of(month)?.0 + number(day)? - 1) + 60 * number(hour)? + number(minute)?)
}

/// The numbers of a driver's row in an overview: the amounts of the month, the minutes of it that are examined, and the number of
/// breaches of each rule.
fn numbers_of(spans: &[Span], base: u32, start: u32, past: u32) -> [u32; 17] {
    let mut numbers = [0; 17];
    numbers[..6].copy_from_slice(&amounts_of(spans, start, past));
    for Stretch { monday, report } in stretches_of(spans, base) {
        numbers[6] += report.horizon.min(past).saturating_sub(monday.max(start));
        for breach in report.breaches.iter().filter(|breach| (start..past).contains(&breach.moment)) {
            numbers[7 + breach.kind as usize] += 1;
        }
    }
    numbers
}

/// The overview of a month, as CSV.
fn overview(archive: &mut Database, month: &str) -> Option<String> {
    let (first, days) = days_of(month)?;
    let (start, past) = (DAY * first, DAY * (first + days));
    archive.within("ROLLBACK", |archive| {
        let mut text = HEAD.to_string();
        for (driver, base, name) in archive.rows(DRIVERS, &[], |row| (row.number(0), DAY * row.number(1), row.text(2)))? {
            let spans = held_from(archive, driver, base.min(start))?;
            write!(text, "{driver},{name}").unwrap();
            numbers_of(&spans, base, start, past).iter().for_each(|number| write!(text, ",{number}").unwrap());
            text.push('\n');
        }
        Some(text)
    })
}

/// The chart of a driver's month, as SVG.
fn chart(archive: &mut Database, driver: u32, month: &str) -> Option<String> {
    let (first, days) = days_of(month)?;
    let (name, base, spans) = archive.within("ROLLBACK", |archive| {
        let Driver { base, name, .. } = driver_with(archive, driver)?;
        Some((name, DAY * base, held_from(archive, driver, DAY * base.min(first))?))
    })?;
    let stretches = stretches_of(&spans, base);
    String::from_utf8(chart::chart_of(driver, &name, &spans, &stretches, month, first, days)).ok()
}

/// The breaches of a driver's month, each with its evidence.
fn why(archive: &mut Database, driver: u32, month: &str) -> Option<String> {
    let (first, days) = days_of(month)?;
    let (start, past) = (DAY * first, DAY * (first + days));
    let (base, spans) = archive.within("ROLLBACK", |archive| held_by(archive, driver))?;
    let (mut lines, mut next) = (Lines::with_capacity(4096), Some(base));
    // A stretch that begins after the month has no breach in it.
    while let Some(monday) = next.filter(|monday| *monday < past) {
        let report = examine(&spans, monday);
        why::push_why(&mut lines, &spans, monday, &report, start, past);
        next = start_after(&spans, report.horizon);
    }
    String::from_utf8(lines.text).ok()
}

/// Runs the command of a line. Returns the text to print, and the status.
fn answer_to(archive: &mut Database, line: &str) -> (String, u8) {
    match line.split(' ').collect::<Vec<_>>()[..] {
        ["stretches", _, driver] => match script::number(driver) {
            Some(driver) => script::status_of(stretches(archive, driver)),
            None => script::bad_number(),
        },
        ["chart", _, driver, month] => match script::number(driver) {
            Some(driver) => script::status_of(chart(archive, driver, month)),
            None => script::bad_number(),
        },
        ["why", _, driver, month] => match script::number(driver) {
            Some(driver) => script::status_of(why(archive, driver, month)),
            None => script::bad_number(),
        },
        ["ahead", _, driver, date, time] => match script::number(driver).zip(minute_of(date, time)) {
            Some((driver, minute)) => script::status_of(ahead(archive, driver, minute)),
            None => script::bad_number(),
        },
        ["overview", _, month] => script::status_of(overview(archive, month)),
        _ => (String::new(), 2),
    }
}

fn main() {
    let arguments: Vec<String> = env::args().skip(1).collect();
    let [_, path] = &arguments[..] else { panic!("the arguments are: archive FILE") };
    script::answer_lines(Database::open(path), answer_to);
}
