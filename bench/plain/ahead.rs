//! Forecasts until when a driver can drive on, in plain Rust over std alone. It is written for speed: what is held is read once; a plan goes
//! on from there; and a limit is found by halves where more driving keeps a breach. docs/RULES.md, 'What is left', says what is printed.
use crate::chart::{push, push_number};
use crate::dump::Lines;
use crate::examine::{week_of, week_start, Activity, Breach, Examination, Kind, Pass, Report, Rest, Span, LAST, WEEK};
use crate::reports::{push_breach, push_date, DAY, RULES};

const FIVE_WEEKS: u32 = 50_400;
const LOOKED_AT: u32 = 91_381; // a plan ends before this many minutes after its start
const REGULAR_DAILY_REST: u32 = 660;
const KINDS: [Kind; 9] = [Kind::B1, Kind::B2, Kind::B3, Kind::B4, Kind::B5, Kind::B6, Kind::B7, Kind::B8, Kind::B9];

/// The report of a plan: what is known, driving from `start` to before `past`, and five weeks of rest.
fn plan(known: &Examination, start: u32, past: u32) -> Report {
    let mut plan = known.clone();
    if start < past {
        plan.busy(start, past, true);
    }
    plan.horizon = past + FIVE_WEEKS;
    plan.end()
}

/// Up to where driving is looked at.
fn reach(kind: Kind, start: u32) -> u32 {
    match kind {
        Kind::B6 | Kind::B7 => week_start(week_of(start) + 1),
        Kind::B8 => start + WEEK,
        Kind::B9 => week_start(week_of(start) + 2),
        _ => start + DAY,
    }
}

/// The last minute up to which driving on makes no new breach of a kind, if there is one after it within reach. `old` are the breaches of
/// the plan without driving.
fn limit(kind: Kind, known: &Examination, old: &[Breach], start: u32) -> Option<u32> {
    let reach = reach(kind, start);
    let is_new = |breach: &Breach| breach.kind == kind && !old.contains(breach);
    if kind == Kind::B3 {
        return reduced_limit(known, is_new, start, reach);
    }
    let is_broken = |past| plan(known, start, past).breaches.iter().any(is_new);
    let (mut limit, mut broken) = (start, reach + 1);
    while limit + 1 < broken {
        let middle = (limit + broken) / 2;
        if is_broken(middle) {
            broken = middle;
        } else {
            limit = middle;
        }
    }
    (broken <= reach).then_some(limit)
}

/// The same of reduced daily rests: a plan goes on with driving, a regular daily rest, a minute of work, and rest. Driving may also end a
/// reduced rest at its start.
fn reduced_limit(known: &Examination, is_new: impl Fn(&Breach) -> bool, start: u32, reach: u32) -> Option<u32> {
    let mut driven = known.clone();
    driven.busy(start, start + 1, true);
    let Pass { days, breaches, .. } = driven.pass;
    if breaches.iter().any(&is_new) {
        return Some(start);
    }
    let is_broken = |past: &u32| {
        let (mut days, mut breaches) = (days.clone(), Vec::new());
        days.end(&Rest::new(*past, past + REGULAR_DAILY_REST), &mut breaches);
        breaches.iter().any(&is_new)
    };
    (start + 1..reach + 1).find(is_broken).map(|past| past - 1)
}

/// The minutes of driving of a week, from a Monday on.
fn driven_in(spans: &[Span], monday: u32, week: u32) -> u32 {
    let (start, past) = (week_start(week).max(monday), week_start(week + 1));
    let from = &spans[spans.partition_point(|span| span.past <= start)..];
    let drives = from.iter().take_while(|span| span.start < past).filter(|span| span.activity == Activity::Drive);
    drives.map(|span| span.past.min(past) - span.start.max(start)).sum()
}

fn push_minute_after(lines: &mut Lines, text: &str, minute: u32) {
    push(lines, text);
    lines.push_minute(minute);
}

/// Appends an amount as hours and minutes.
fn push_length(lines: &mut Lines, minutes: u32) {
    push_number(lines, minutes / 60);
    push(lines, if minutes % 60 < 10 { ":0" } else { ":" });
    push_number(lines, minutes % 60);
    push(lines, "\n");
}

/// Appends the forecast for the last stretch of a driver, from `minute` or from the horizon on, whichever is later. Returns `None` if it
/// reaches past the last day.
pub fn push_ahead(lines: &mut Lines, spans: &[Span], monday: u32, minute: u32) -> Option<()> {
    let mut known = Examination::of(spans, monday);
    let held = known.clone().end();
    let start = known.horizon.max(minute);
    if start + LOOKED_AT > LAST {
        return None;
    }
    known.horizon = start;
    push_minute_after(lines, "START ", start);
    push(lines, "\nREST SINCE ");
    if known.rest_from == 0 {
        push(lines, "-");
    } else {
        lines.push_minute(known.rest_from);
    }
    let mut driven = known.clone();
    driven.busy(start, start + 1, true);
    let days = driven.pass.days;
    push_minute_after(lines, "\nDAY SINCE ", days.day.start);
    for (name, count) in [("\nREDUCED ", days.reduced), ("\nEXTENDED ", days.extended_in_week())] {
        push(lines, name);
        push_number(lines, count);
    }
    push(lines, "\n");
    for week in [week_of(start) - 1, week_of(start)] {
        push(lines, "DRIVEN ");
        push_date(lines, week_start(week));
        push(lines, " ");
        push_length(lines, driven_in(spans, monday, week));
    }
    let rested = plan(&known, start, start).breaches;
    rested.iter().filter(|breach| !held.breaches.contains(breach)).for_each(|breach| push_breach(lines, breach));
    for debt in known.clone().end().debts.iter().filter(|debt| debt.paid_by.is_none() && debt.deadline > start) {
        push(lines, "WEEK ");
        push_date(lines, week_start(debt.week));
        push(lines, " owes ");
        push_number(lines, debt.amount);
        push_minute_after(lines, " by ", debt.deadline);
        push(lines, " open\n");
    }
    for kind in KINDS {
        if let Some(until) = limit(kind, &known, &rested, start) {
            push(lines, RULES[kind as usize]);
            push_minute_after(lines, " until ", until);
            push(lines, " left ");
            push_length(lines, until - start);
        }
    }
    Some(())
}
