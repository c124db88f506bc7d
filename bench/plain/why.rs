//! Lists the evidence for the breaches of a driver's month, in plain Rust over std alone. It is written for speed: only if a stretch has a
//! breach in the month, it goes through the spans of the stretch once more; it finds what is near a breach by binary search; and it writes
//! numbers without `format!`. docs/RULES.md, 'Evidence', says what is listed.
use crate::chart::{push, push_number};
use crate::dump::Lines;
use crate::examine::{week_of, week_start, Activity, Breach, Debt, Kind, Report, Span};
use crate::reports::{push_breach, push_date, DAY};

const FAR: u32 = u32::MAX; // the end of the last rest, which has none
const LISTED: u32 = 15; // the minutes of the shortest rest that is listed
const PART: u32 = 180;
const DAILY_REST: u32 = 540;
const REGULAR_DAILY_REST: u32 = 660;
const WEEKLY_REST: u32 = 1440;
const REGULAR_WEEKLY_REST: u32 = 2700;
const USUAL_DRIVING: u32 = 540;

/// A rest run. The first of a stretch starts at 0.
#[derive(Clone, Copy)]
struct Rest {
    start: u32,
    past: u32,
}

impl Rest {
    fn minutes(&self) -> u32 {
        self.past - self.start
    }

    fn minutes_before(&self, end: u32) -> u32 {
        self.past.min(end).saturating_sub(self.start)
    }
}

/// A maximal range of driving, and the minutes of driving before it in its stretch.
#[derive(Clone, Copy)]
struct Drive {
    start: u32,
    past: u32,
    before: u32,
}

impl Drive {
    fn total(&self) -> u32 {
        self.before + self.past - self.start
    }
}

/// A duty day, its daily rest, and the place of that rest among the daily rests.
struct Day {
    start: u32,
    rest: Rest,
    place: usize,
}

impl Day {
    fn past(&self) -> u32 {
        self.rest.start
    }

    /// The end of the part of the daily rest that lies within 24 hours of the day's start. It is before the rest if there is no such part.
    fn portion_end(&self) -> u32 {
        self.rest.past.min(self.start + DAY)
    }

    fn has_portion(&self, minutes: u32) -> bool {
        self.rest.start + minutes <= self.portion_end()
    }
}

/// The rests and the driving of a stretch. The complete breaks and the daily rests are places among the rests.
struct Lists {
    rests: Vec<Rest>,
    breaks: Vec<usize>,
    daily: Vec<usize>,
    weekly: Vec<Rest>,
    drives: Vec<Drive>,
    has_first_part: bool,
}

impl Lists {
    /// Lists what the spans have from a Monday to a horizon.
    fn of(spans: &[Span], monday: u32, horizon: u32) -> Lists {
        let spans = &spans[spans.partition_point(|span| span.past <= monday)..];
        let spans = &spans[..spans.partition_point(|span| span.start < horizon)];
        let (breaks, daily, weekly) = (Vec::new(), Vec::new(), Vec::new());
        let (rests, drives) = (Vec::with_capacity(spans.len()), Vec::with_capacity(spans.len()));
        let mut lists = Lists { rests, breaks, daily, weekly, drives, has_first_part: false };
        let mut rest_from = 0;
        for span in spans.iter().filter(|span| span.activity != Activity::Rest) {
            let start = span.start.max(monday);
            if rest_from + LISTED <= start {
                lists.rest(Rest { start: rest_from, past: start });
            }
            if span.activity == Activity::Drive {
                lists.drive(start, span.past);
            }
            rest_from = span.past;
        }
        lists.rest(Rest { start: rest_from, past: FAR });
        lists
    }

    fn rest(&mut self, rest: Rest) {
        let (minutes, place) = (rest.minutes(), self.rests.len());
        self.rests.push(rest);
        if minutes >= 45 || minutes >= 30 && self.has_first_part {
            self.breaks.push(place);
            self.has_first_part = false;
        } else {
            self.has_first_part = true;
        }
        if minutes >= DAILY_REST {
            self.daily.push(place);
        }
        if minutes >= WEEKLY_REST {
            self.weekly.push(rest);
        }
    }

    fn drive(&mut self, start: u32, past: u32) {
        match self.drives.last_mut() {
            Some(last) if last.past == start => last.past = past,
            last => {
                let before = last.map_or(0, |last| last.total());
                self.drives.push(Drive { start, past, before });
            }
        }
    }

    // Driving

    /// The ranges of driving that have a minute in a range.
    fn drives_in(&self, start: u32, past: u32) -> &[Drive] {
        let drives = &self.drives[self.drives.partition_point(|drive| drive.past <= start)..];
        &drives[..drives.partition_point(|drive| drive.start < past)]
    }

    /// The minutes of driving in the stretch before a minute.
    fn driven_before(&self, minute: u32) -> u32 {
        let later = self.drives.partition_point(|drive| drive.start < minute);
        self.drives[..later].last().map_or(0, |drive| drive.before + minute.min(drive.past) - drive.start)
    }

    // Days and weeks

    /// The day that ends with the daily rest at a place.
    fn day_to(&self, place: usize) -> Day {
        Day { start: self.rests[self.daily[place - 1]].past, rest: self.rests[self.daily[place]], place }
    }

    /// The place of the first daily rest that ends at a minute or later.
    fn daily_from(&self, minute: u32) -> usize {
        self.daily.partition_point(|&place| self.rests[place].past < minute)
    }

    /// The day that starts at a minute.
    fn day_from(&self, start: u32) -> Day {
        self.day_to(self.daily_from(start) + 1)
    }

    /// The rests of three hours or more within a day.
    fn parts<'a>(&'a self, day: &Day) -> impl Iterator<Item = &'a Rest> {
        self.rests[self.daily[day.place - 1] + 1..self.daily[day.place]].iter().filter(|rest| rest.minutes() >= PART)
    }

    fn is_reduced(&self, day: &Day) -> bool {
        day.has_portion(DAILY_REST)
            && !day.has_portion(REGULAR_DAILY_REST)
            && day.rest.minutes() < WEEKLY_REST
            && self.parts(day).next().is_none()
    }

    /// The weekly rests from the one that ends at a minute on.
    fn weekly_from(&self, minute: u32) -> &[Rest] {
        &self.weekly[self.weekly.partition_point(|rest| rest.past < minute)..]
    }

    /// The main rest of a week.
    fn main_rest(&self, week: u32, horizon: u32) -> Option<&Rest> {
        let (start, past) = (week_start(week), week_start(week + 1));
        let rests = self.weekly[self.weekly.partition_point(|rest| rest.start < start)..].iter();
        let known = rests.take_while(|rest| rest.start < past).filter(|rest| rest.minutes_before(horizon) >= WEEKLY_REST);
        known.reduce(|main, rest| if main.minutes_before(horizon) < rest.minutes_before(horizon) { rest } else { main })
    }
}

// Texts

/// Appends a minute, or `-` for the start of the first rest and the end of the last.
fn push_end(lines: &mut Lines, minute: u32) {
    if minute == 0 || minute == FAR {
        lines.text.push(b'-');
    } else {
        lines.push_minute(minute);
    }
}

fn push_range(lines: &mut Lines, start: u32, past: u32) {
    push_end(lines, start);
    lines.text.push(b' ');
    push_end(lines, past);
}

/// Appends the length of a range, in hours and minutes. It is below zero if the range ends before it starts.
fn push_length(lines: &mut Lines, start: u32, past: u32) {
    let minutes = past.abs_diff(start);
    if past < start {
        lines.text.push(b'-');
    }
    push_number(lines, minutes / 60);
    lines.text.extend_from_slice(&[b':', b'0' + (minutes % 60 / 10) as u8, b'0' + (minutes % 10) as u8]);
}

/// Appends the start, the end and the length of a rest.
fn push_run(lines: &mut Lines, rest: &Rest) {
    push_range(lines, rest.start, rest.past);
    if rest.start == 0 || rest.past == FAR {
        push(lines, " -");
    } else {
        lines.text.push(b' ');
        push_length(lines, rest.start, rest.past);
    }
}

fn push_rest(lines: &mut Lines, word: &str, rest: &Rest) {
    push(lines, word);
    push_run(lines, rest);
    lines.text.push(b'\n');
}

fn push_week(lines: &mut Lines, word: &str, week: u32) {
    push(lines, word);
    push_date(lines, week_start(week));
}

/// Appends a range of driving, with the total since there were `origin` minutes.
fn push_drive(lines: &mut Lines, drive: &Drive, origin: u32) {
    push(lines, "  drive ");
    lines.push_minute(drive.start);
    lines.text.push(b' ');
    lines.push_minute(drive.past);
    lines.text.push(b' ');
    push_length(lines, drive.start, drive.past);
    lines.text.push(b' ');
    push_length(lines, origin, drive.total());
    lines.text.push(b'\n');
}

fn push_drives(lines: &mut Lines, drives: &[Drive]) {
    drives.iter().for_each(|drive| push_drive(lines, drive, drives[0].before));
}

// The breaches by their kinds

/// B1: the complete breaks around the driving, and what is between.
fn push_between_breaks(lines: &mut Lines, lists: &Lists, breach: &Breach) {
    let next = lists.breaks.partition_point(|&place| lists.rests[place].past <= breach.moment);
    let (before, after) = (lists.breaks[next - 1], lists.breaks[next]);
    let mut rests = &lists.rests[before + 1..after];
    let (before, after) = (&lists.rests[before], &lists.rests[after]);
    let drives = lists.drives_in(before.past, after.start);
    push_rest(lines, "  break ", before);
    for drive in drives {
        let (earlier, later) = rests.split_at(rests.partition_point(|rest| rest.start < drive.start));
        earlier.iter().for_each(|rest| push_rest(lines, "  rest ", rest));
        push_drive(lines, drive, drives[0].before);
        rests = later;
    }
    rests.iter().for_each(|rest| push_rest(lines, "  rest ", rest));
    push_rest(lines, "  break ", after);
}

fn push_day(lines: &mut Lines, day: &Day) {
    push(lines, "  day ");
    push_range(lines, day.start, day.past());
    lines.text.push(b'\n');
}

fn push_portion(lines: &mut Lines, day: &Day) {
    push(lines, " portion ");
    push_length(lines, day.rest.start, day.portion_end());
    lines.text.push(b'\n');
}

/// B2: the day, the end of its 24 hours, the rests of three hours or more in it, and its daily rest.
fn push_daily_rest(lines: &mut Lines, lists: &Lists, breach: &Breach) {
    let day = lists.day_from(breach.since);
    push_day(lines, &day);
    push(lines, "  limit ");
    lines.push_minute(day.start + DAY);
    lines.text.push(b'\n');
    lists.parts(&day).for_each(|rest| push_rest(lines, "  rest ", rest));
    push(lines, "  rest ");
    push_run(lines, &day.rest);
    push_portion(lines, &day);
}

/// B3: the last weekly rest, and the reduced rests since.
fn push_reduced_rests(lines: &mut Lines, lists: &Lists, breach: &Breach) {
    let weekly = lists.daily_from(breach.since);
    push_rest(lines, "  weekly ", &lists.rests[lists.daily[weekly]]);
    let days = (weekly + 1..lists.daily.len()).map(|place| lists.day_to(place)).take_while(|day| day.rest.start <= breach.moment);
    for (day, ordinal) in days.filter(|day| lists.is_reduced(day)).zip(1..) {
        push(lines, "  reduced ");
        push_number(lines, ordinal);
        lines.text.push(b' ');
        push_run(lines, &day.rest);
        push(lines, " day ");
        push_end(lines, day.start);
        push_portion(lines, &day);
    }
}

/// B4: the day, and its driving.
fn push_long_day(lines: &mut Lines, lists: &Lists, breach: &Breach) {
    let day = lists.day_from(breach.since);
    push_day(lines, &day);
    push_drives(lines, lists.drives_in(day.start, day.past()));
}

/// B5: the extended days of the week up to this one, and the driving of this one.
fn push_extended_days(lines: &mut Lines, lists: &Lists, breach: &Breach) {
    let week = week_of(breach.since);
    push_week(lines, "  week ", week);
    lines.text.push(b'\n');
    let first = lists.daily_from(week_start(week)) + 1;
    let days = (first..lists.daily.len()).map(|place| lists.day_to(place)).take_while(|day| day.start <= breach.since);
    let (mut ordinal, mut last) = (0, &lists.drives[..0]);
    for day in days {
        let drives = lists.drives_in(day.start, day.past());
        let [from, to] = drives.first().zip(drives.last()).map_or([0; 2], |(first, last)| [first.before, last.total()]);
        if to - from > USUAL_DRIVING {
            ordinal += 1;
            push(lines, "  day ");
            push_number(lines, ordinal);
            lines.text.push(b' ');
            push_range(lines, day.start, day.past());
            push(lines, " drive ");
            push_length(lines, from, to);
            lines.text.push(b'\n');
            last = drives;
        }
    }
    push_drives(lines, last);
}

/// Appends the days of a week with driving, and the driving of the day of a moment. The totals are those since there were `origin` minutes.
fn push_dates(lines: &mut Lines, lists: &Lists, week: u32, origin: u32, moment: u32) {
    let mut from = lists.driven_before(week_start(week));
    for start in (week_start(week)..week_start(week + 1)).step_by(DAY as usize) {
        let (past, to) = (start + DAY, lists.driven_before(start + DAY));
        if from == to {
            continue;
        }
        push(lines, "  date ");
        push_date(lines, start);
        push(lines, " drive ");
        push_length(lines, from, to);
        lines.text.push(b' ');
        push_length(lines, origin, to);
        lines.text.push(b'\n');
        if (start..past).contains(&moment) {
            for drive in lists.drives_in(start, past) {
                let (first, before) = (drive.start.max(start), drive.before);
                let cut = Drive { start: first, past: drive.past.min(past), before: before + first - drive.start };
                push_drive(lines, &cut, origin);
            }
        }
        from = to;
    }
}

/// B6: the days of the week with driving.
fn push_driven_week(lines: &mut Lines, lists: &Lists, breach: &Breach) {
    let week = week_of(breach.since);
    push_week(lines, "  week ", week);
    lines.text.push(b'\n');
    push_dates(lines, lists, week, lists.driven_before(breach.since), breach.moment);
}

/// B7: the two weeks, each with its driving and its days with driving.
fn push_driven_weeks(lines: &mut Lines, lists: &Lists, breach: &Breach) {
    let (first, origin) = (week_of(breach.since), lists.driven_before(breach.since));
    for week in [first, first + 1] {
        push_week(lines, "  week ", week);
        push(lines, " drive ");
        push_length(lines, lists.driven_before(week_start(week)), lists.driven_before(week_start(week + 1)));
        lines.text.push(b'\n');
        push_dates(lines, lists, week, origin, breach.moment);
    }
}

/// B8: the weekly rest that ended, and the next.
fn push_late_rest(lines: &mut Lines, lists: &Lists, breach: &Breach) {
    lists.weekly_from(breach.since)[..2].iter().for_each(|rest| push_rest(lines, "  weekly ", rest));
}

/// B9: the weeks from the one at which the search for an assignment began, and the weekly rests in them.
fn push_lacking_rests(lines: &mut Lines, lists: &Lists, first: u32, breach: &Breach) {
    let last = week_of(breach.since) + 1;
    let (start, past) = (week_start(first), week_start(last + 1));
    let rests = lists.weekly_from(start + 1);
    push_week(lines, "  from ", first);
    lines.text.push(b'\n');
    let mut near = rests;
    for week in first..=last {
        // The first of these rests is the only one that may have all minutes of the week.
        near = &near[near.iter().take_while(|rest| rest.past <= week_start(week)).count()..];
        let is_at_rest = near.first().is_some_and(|rest| rest.start <= week_start(week) && week_start(week + 1) <= rest.past);
        push_week(lines, "  week ", week);
        push(lines, if is_at_rest { " at rest\n" } else { "\n" });
    }
    for rest in rests.iter().take_while(|rest| rest.start < past) {
        push(lines, "  weekly ");
        push_run(lines, rest);
        push(lines, " in");
        for week in week_of(rest.start.max(start))..=week_of(rest.past.min(past) - 1) {
            push_week(lines, " ", week);
        }
        lines.text.push(b'\n');
    }
}

/// B10: the debt, the main rest of its week, and the later rests with their room.
fn push_debt(lines: &mut Lines, lists: &Lists, debts: &[Debt], horizon: u32, breach: &Breach) {
    let week = week_of(breach.since);
    let place = debts.partition_point(|debt| debt.week < week);
    let Debt { amount, deadline, .. } = debts[place];
    // The deadlines of the debts before these aren't later than this week, so no rest that is listed pays them.
    let earlier = &debts[debts.partition_point(|debt| debt.week + 4 <= week)..place];
    push_week(lines, "  owes ", week);
    lines.text.push(b' ');
    push_length(lines, 0, amount);
    push(lines, " by ");
    lines.push_minute(deadline);
    let main = *lists.main_rest(week, horizon).unwrap();
    lines.text.push(b'\n');
    push_rest(lines, "  main ", &main);
    let daily = lists.daily[lists.daily_from(main.past) + 1..].iter().map(|&place| lists.rests[place]);
    for rest in daily.take_while(|rest| rest.start < deadline) {
        let minutes = rest.minutes_before(horizon);
        if minutes < DAILY_REST {
            return; // the last rest
        }
        let is_main = || lists.main_rest(week_of(rest.start), horizon).is_some_and(|main| main.start == rest.start);
        let keeps = if minutes >= WEEKLY_REST && is_main() { REGULAR_WEEKLY_REST } else { DAILY_REST };
        let pays: u32 = earlier.iter().filter(|debt| debt.paid_by == Some(rest.start)).map(|debt| debt.amount).sum();
        push(lines, "  rest ");
        push_run(lines, &rest);
        push(lines, " room ");
        push_length(lines, keeps + pays, rest.minutes_before(horizon.min(deadline)));
        lines.text.push(b'\n');
    }
}

/// Appends the breaches of a stretch from a Monday that have their moments in a range, each with its evidence. `spans` are those that the
/// driver holds.
pub fn push_why(lines: &mut Lines, spans: &[Span], monday: u32, report: &Report, start: u32, past: u32) {
    let Report { horizon, breaches, debts, .. } = report;
    let (earlier, breaches) = breaches.split_at(breaches.partition_point(|breach| breach.moment < start));
    let breaches = &breaches[..breaches.partition_point(|breach| breach.moment < past)];
    if breaches.is_empty() {
        return;
    }
    let lists = Lists::of(spans, monday, *horizon);
    let second_week = |breach: &Breach| week_of(breach.since) + 1;
    let mut searched_from = earlier.iter().rfind(|breach| breach.kind == Kind::B9).map_or(week_of(monday), second_week);
    for breach in breaches {
        push_breach(lines, breach);
        match breach.kind {
            Kind::B1 => push_between_breaks(lines, &lists, breach),
            Kind::B2 => push_daily_rest(lines, &lists, breach),
            Kind::B3 => push_reduced_rests(lines, &lists, breach),
            Kind::B4 => push_long_day(lines, &lists, breach),
            Kind::B5 => push_extended_days(lines, &lists, breach),
            Kind::B6 => push_driven_week(lines, &lists, breach),
            Kind::B7 => push_driven_weeks(lines, &lists, breach),
            Kind::B8 => push_late_rest(lines, &lists, breach),
            Kind::B9 => {
                push_lacking_rests(lines, &lists, searched_from, breach);
                searched_from = second_week(breach);
            }
            Kind::B10 => push_debt(lines, &lists, debts, *horizon, breach),
        }
    }
}
