//! Does what `tool_rows measure examine` does, in plain Rust over std alone. It makes a timeline of working days, and examines it in one pass
//! for breaches of the rules on driving and rest, and for debts. docs/RULES.md has the rules.
use std::hint::black_box;
use std::mem;

const START: u32 = 15_780_960; // 2000-01-03 00:00
pub const LAST: u32 = 68_374_080; // 2100-01-01 00:00
const FAR: u32 = u32::MAX; // the end of the last rest, which has none
const DAY: u32 = 1440;
pub const WEEK: u32 = 7 * DAY;
const FIRST_MONDAY: u32 = 4 * DAY;

const FIRST_PART: u32 = 180;
const DAILY_REST: u32 = 540;
const REGULAR_DAILY_REST: u32 = 660;
const WEEKLY_REST: u32 = 1440;
const REGULAR_WEEKLY_REST: u32 = 2700;
const SIX_DAYS: u32 = 6 * DAY;

#[derive(Clone, Copy, PartialEq)]
pub enum Activity {
    Rest,
    Available,
    Work,
    Drive,
}

/// An activity from the minute `start` to before the minute `past`, alone or with a second driver.
#[derive(Clone, Copy)]
pub struct Span {
    pub start: u32,
    pub past: u32,
    pub activity: Activity,
    pub is_crew: bool,
}

#[derive(Clone, Copy, PartialEq, Eq, PartialOrd, Ord)]
pub enum Kind {
    B1,
    B2,
    B3,
    B4,
    B5,
    B6,
    B7,
    B8,
    B9,
    B10,
}

#[derive(Clone, PartialEq)]
pub struct Breach {
    pub kind: Kind,
    pub moment: u32,
    pub since: u32,
    pub amount: u32,
}

pub struct Debt {
    pub week: u32,
    pub amount: u32,
    pub deadline: u32,
    pub paid_by: Option<u32>,
}

/// Why the examination of a line stops.
#[derive(Clone, Copy)]
pub enum Cause {
    Unknown,
    Crew,
}

pub struct Report {
    pub horizon: u32,
    pub cause: Cause,
    pub breaches: Vec<Breach>,
    pub debts: Vec<Debt>,
}

pub fn week_of(minute: u32) -> u32 {
    (minute - FIRST_MONDAY) / WEEK
}

pub fn week_start(week: u32) -> u32 {
    FIRST_MONDAY + WEEK * week
}

/// A sum of driving minutes, the first of them, and the first one above a limit.
#[derive(Clone)]
struct Driving {
    limit: u32,
    minutes: u32,
    first: u32,
    moment: u32,
}

impl Driving {
    fn new(limit: u32) -> Driving {
        Driving { limit, minutes: 0, first: 0, moment: 0 }
    }

    fn add(&mut self, start: u32, past: u32) {
        if self.minutes == 0 {
            self.first = start;
        }
        if self.minutes <= self.limit {
            self.moment = start + (self.limit - self.minutes);
        }
        self.minutes += past - start;
    }

    fn is_over(&self) -> bool {
        self.limit < self.minutes
    }

    fn breach(&self, kind: Kind, since: u32) -> Option<Breach> {
        self.is_over().then(|| Breach { kind, moment: self.moment, since, amount: self.minutes - self.limit })
    }
}

/// The driving since the last complete break.
#[derive(Clone)]
struct Stretch {
    driving: Driving,
    has_first_part: bool,
}

impl Stretch {
    fn new() -> Stretch {
        Stretch { driving: Driving::new(270), has_first_part: false }
    }

    fn rest(&mut self, minutes: u32, breaches: &mut Vec<Breach>) {
        if minutes >= 45 || minutes >= 30 && self.has_first_part {
            breaches.extend(self.driving.breach(Kind::B1, self.driving.first));
            *self = Stretch::new();
        } else if minutes >= 15 {
            self.has_first_part = true;
        }
    }
}

/// The current duty day.
#[derive(Clone)]
pub struct Day {
    pub start: u32,
    driving: Driving,
    usual_driving: Driving,
    has_part: bool,
}

impl Day {
    fn from(start: u32) -> Day {
        Day { start, driving: Driving::new(600), usual_driving: Driving::new(540), has_part: false }
    }
}

/// The current duty day, and what is counted over the days before it.
#[derive(Clone)]
pub struct Days {
    pub day: Day,
    week: u32,
    extended: u32,
    weekly_rest_end: u32,
    pub reduced: u32,
}

impl Days {
    fn drive(&mut self, start: u32, past: u32) {
        self.day.driving.add(start, past);
        self.day.usual_driving.add(start, past);
    }

    /// Begins a day after a daily rest.
    fn begin(&mut self, rest: &Rest) {
        if rest.minutes() >= WEEKLY_REST {
            self.weekly_rest_end = rest.past;
            self.reduced = 0;
        }
        self.day = Day::from(rest.past);
    }

    /// The extended days before the current day, in the week of its start.
    pub fn extended_in_week(&self) -> u32 {
        if self.week == week_of(self.day.start) { self.extended } else { 0 }
    }

    /// Ends the day with its daily rest.
    pub fn end(&mut self, rest: &Rest, breaches: &mut Vec<Breach>) {
        let start = self.day.start;
        let portion_end = rest.past.min(start + DAY);
        let has_portion = |minutes| rest.start + minutes <= portion_end;
        if !has_portion(DAILY_REST) {
            let amount = rest.start + DAILY_REST - portion_end;
            breaches.push(Breach { kind: Kind::B2, moment: start + 900, since: start, amount });
        } else if !has_portion(REGULAR_DAILY_REST) && !self.day.has_part && rest.minutes() < WEEKLY_REST {
            self.reduced += 1;
            if self.reduced > 3 {
                let (since, amount) = (self.weekly_rest_end, self.reduced - 3);
                breaches.push(Breach { kind: Kind::B3, moment: rest.start, since, amount });
            }
        }
        breaches.extend(self.day.driving.breach(Kind::B4, start));
        if self.day.usual_driving.is_over() {
            if self.week != week_of(start) {
                self.week = week_of(start);
                self.extended = 0;
            }
            self.extended += 1;
            if self.extended > 2 {
                breaches.extend(self.day.usual_driving.breach(Kind::B5, start));
            }
        }
    }
}

/// The driving of a week, of that week and the week before, and of that week and the next.
#[derive(Clone)]
struct Weeks {
    week: u32,
    driving: Driving,
    with_last: Driving,
    with_next: Driving,
}

impl Weeks {
    fn from(week: u32) -> Weeks {
        Weeks { week, driving: Driving::new(3360), with_last: Driving::new(5400), with_next: Driving::new(5400) }
    }

    fn drive(&mut self, start: u32, past: u32, breaches: &mut Vec<Breach>) {
        let mut from = start;
        while from < past {
            let end = week_start(self.week + 1);
            if end <= from {
                self.end_week(breaches);
                continue;
            }
            for driving in [&mut self.driving, &mut self.with_last, &mut self.with_next] {
                driving.add(from, past.min(end));
            }
            from = end;
        }
    }

    fn end_week(&mut self, breaches: &mut Vec<Breach>) {
        breaches.extend(self.driving.breach(Kind::B6, week_start(self.week)));
        breaches.extend(self.with_last.breach(Kind::B7, week_start(self.week - 1)));
        let next = Weeks::from(self.week + 1);
        let with_last = mem::replace(self, next).with_next;
        self.with_last = with_last;
    }
}

/// A rest of nine hours or more. `used` counts the minutes that the rules need for the rest itself, and those that
/// compensate for debts.
#[derive(Clone, Copy)]
pub struct Rest {
    start: u32,
    past: u32,
    used: u32,
}

impl Rest {
    pub fn new(start: u32, past: u32) -> Rest {
        Rest { start, past, used: DAILY_REST }
    }

    fn minutes(&self) -> u32 {
        self.past - self.start
    }

    fn minutes_before(&self, end: u32) -> u32 {
        self.past.min(end).saturating_sub(self.start)
    }
}

/// The state of the rules that are checked along the line, and the rests of nine hours or more so far.
#[derive(Clone)]
pub struct Pass {
    stretch: Stretch,
    pub days: Days,
    weeks: Weeks,
    rests: Vec<Rest>,
    pub breaches: Vec<Breach>,
}

impl Pass {
    fn from(base: u32) -> Pass {
        Pass {
            stretch: Stretch::new(),
            days: Days { day: Day::from(0), week: 0, extended: 0, weekly_rest_end: 0, reduced: 0 },
            weeks: Weeks::from(week_of(base)),
            rests: Vec::new(),
            breaches: Vec::new(),
        }
    }

    fn drive(&mut self, start: u32, past: u32) {
        self.stretch.driving.add(start, past);
        self.days.drive(start, past);
        self.weeks.drive(start, past, &mut self.breaches);
    }

    fn rest(&mut self, start: u32, past: u32) {
        let rest = Rest::new(start, past);
        self.stretch.rest(rest.minutes(), &mut self.breaches);
        if rest.minutes() < DAILY_REST {
            self.days.day.has_part |= rest.minutes() >= FIRST_PART;
            return;
        }
        if !self.rests.is_empty() {
            self.days.end(&rest, &mut self.breaches);
        }
        self.days.begin(&rest);
        self.rests.push(rest);
    }

    fn end(&mut self) {
        self.weeks.end_week(&mut self.breaches);
        self.weeks.end_week(&mut self.breaches);
    }
}

/// Adds the breaches of weekly rests that start more than six days after the weekly rest before them.
fn add_late_rests(weekly: &[Rest], breaches: &mut Vec<Breach>) {
    for pair in weekly.windows(2) {
        let (since, latest) = (pair[0].past, pair[0].past + SIX_DAYS);
        if latest < pair[1].start {
            breaches.push(Breach { kind: Kind::B8, moment: latest, since, amount: pair[1].start - latest });
        }
    }
}

/// The code, below twelve, of a way to count the weekly rests so far, each in one week. It encodes how many rests are counted in the last
/// week (two if there are more), whether one of them is regular, and whether the rest that continues after that week is still uncounted.
fn way_of(rests: &[Rest], is_open: bool) -> u32 {
    let has_regular = rests.iter().any(|rest| rest.minutes() >= REGULAR_WEEKLY_REST);
    4 * rests.len().min(2) as u32 + 2 * u32::from(has_regular) + u32::from(is_open)
}

/// The set of ways at the start of the counting: only the way in which nothing is counted yet. A set of ways has bit n set if it has
/// the way with code n.
const NOTHING_COUNTED: u32 = 1 << 1;

/// The set of ways after a week, given those before it. `near` are the weekly rests that have minutes in the week. If `is_required`, the
/// week and the week before need two rests, one of them regular; otherwise every way is kept.
fn ways_after(mut ways: u32, near: &[Rest], week: u32, is_required: bool) -> u32 {
    let enters = near.first().is_some_and(|rest| rest.start < week_start(week));
    let mut after = 0;
    while ways != 0 {
        let way = ways.trailing_zeros();
        ways &= ways - 1;
        let is_counted = enters && way & 1 == 0;
        let free = &near[usize::from(is_counted)..];
        let mut add = |rests, is_open| {
            let next = way_of(rests, is_open);
            if !is_required || way / 4 + next / 4 >= 2 && (way | next) & 2 != 0 {
                after |= 1 << next;
            }
        };
        add(free, false);
        if let Some((last, others)) = free.split_last() {
            if week_start(week + 1) < last.past {
                add(others, true);
            }
        }
    }
    after
}

/// Adds the breaches of the weeks at which no way to count the weekly rests is left. Each rest is counted in one week, and each two
/// neighbouring weeks need two rests, one of them regular. The counting starts again with such a week.
fn add_lacking_rests(weekly: &[Rest], base: u32, horizon: u32, breaches: &mut Vec<Breach>) {
    let (mut first, mut ways, mut was_at_rest) = (0, NOTHING_COUNTED, true);
    for week in week_of(base).. {
        let (start, end) = (week_start(week), week_start(week + 1));
        if horizon < end {
            return;
        }
        while weekly[first].past <= start {
            first += 1;
        }
        let count = weekly[first..].iter().take_while(|rest| rest.start < end).count();
        let near = &weekly[first..first + count];
        let is_at_rest = near.iter().any(|rest| rest.start <= start && end <= rest.past);
        ways = ways_after(ways, near, week, !was_at_rest && !is_at_rest);
        if ways == 0 {
            breaches.push(Breach { kind: Kind::B9, moment: end, since: week_start(week - 1), amount: 0 });
            ways = ways_after(NOTHING_COUNTED, near, week, false);
        }
        was_at_rest = is_at_rest;
    }
}

/// The indices of the main rests of the weeks. The main rest of a week is the one with the most minutes before the horizon, among those
/// that start in the week and have at least 24 hours before the horizon. If several are equal, it is the first.
fn main_rests(rests: &[Rest], horizon: u32) -> Vec<usize> {
    let mut mains: Vec<usize> = Vec::new();
    for (place, rest) in rests.iter().enumerate().skip(1) {
        let minutes = rest.minutes_before(horizon);
        if minutes < WEEKLY_REST {
            continue;
        }
        match mains.last_mut() {
            Some(main) if week_of(rests[*main].start) == week_of(rest.start) => {
                if rests[*main].minutes_before(horizon) < minutes {
                    *main = place;
                }
            }
            _ => mains.push(place),
        }
    }
    mains
}

/// The debts of the weeks whose main rests are too short. Each is compensated by the first later rest that has enough
/// unused minutes before the deadline and the horizon.
fn debts_of(rests: &mut [Rest], horizon: u32) -> Vec<Debt> {
    let mains = main_rests(rests, horizon);
    for &main in &mains {
        rests[main].used = REGULAR_WEEKLY_REST;
    }
    let last = rests[rests.len() - 1].start;
    let mut debts = Vec::new();
    for main in mains {
        let week = week_of(rests[main].start);
        let amount = REGULAR_WEEKLY_REST.saturating_sub(rests[main].minutes());
        if amount == 0 || last < week_start(week + 1) {
            continue;
        }
        let deadline = week_start(week + 4);
        let payer = rests[main + 1..]
            .iter_mut()
            .take_while(|rest| rest.start < deadline)
            .find(|rest| rest.used + amount <= rest.minutes_before(horizon.min(deadline)));
        let paid_by = payer.map(|rest| {
            rest.used += amount;
            rest.start
        });
        debts.push(Debt { week, amount, deadline, paid_by });
    }
    debts
}

/// Adds the breaches of debts that no rest compensates, and whose deadline isn't after the horizon.
fn add_overdue(debts: &[Debt], horizon: u32, breaches: &mut Vec<Breach>) {
    for debt in debts {
        if debt.paid_by.is_none() && debt.deadline <= horizon {
            let since = week_start(debt.week);
            breaches.push(Breach { kind: Kind::B10, moment: debt.deadline, since, amount: debt.amount });
        }
    }
}

/// An examination that has read a line up to its horizon. Since `rest_from` there is rest; 0 if there was nothing else.
#[derive(Clone)]
pub struct Examination {
    base: u32,
    pub horizon: u32,
    pub cause: Cause,
    pub rest_from: u32,
    pub pass: Pass,
}

impl Examination {
    /// Reads a line from a base, which is the first minute of a Monday.
    pub fn of(line: &[Span], base: u32) -> Examination {
        let mut found = Examination { base, horizon: base, cause: Cause::Unknown, rest_from: 0, pass: Pass::from(base) };
        for span in &line[line.partition_point(|span| span.past <= base)..] {
            if found.horizon < span.start {
                break;
            }
            if span.is_crew {
                found.cause = Cause::Crew;
                break;
            }
            if span.activity != Activity::Rest {
                found.busy(span.start.max(base), span.past, span.activity == Activity::Drive);
            }
            found.horizon = span.past;
        }
        found
    }

    /// Goes on with what isn't rest, after rest up to it.
    pub fn busy(&mut self, start: u32, past: u32, is_driving: bool) {
        if self.rest_from < start {
            self.pass.rest(self.rest_from, start);
        }
        if is_driving {
            self.pass.drive(start, past);
        }
        self.rest_from = past;
    }

    /// The report of what was read.
    pub fn end(mut self) -> Report {
        let Examination { base, horizon, cause, .. } = self;
        self.pass.rest(self.rest_from, FAR);
        self.pass.end();
        let Pass { mut rests, mut breaches, .. } = self.pass;
        let weekly: Vec<Rest> = rests.iter().filter(|rest| rest.minutes() >= WEEKLY_REST).copied().collect();
        let debts = debts_of(&mut rests, horizon);
        add_late_rests(&weekly, &mut breaches);
        add_lacking_rests(&weekly, base, horizon, &mut breaches);
        add_overdue(&debts, horizon, &mut breaches);
        breaches.sort_unstable_by_key(|breach| (breach.moment, breach.kind, breach.since));
        Report { horizon, cause, breaches, debts }
    }
}

/// Examines a line from a base.
pub fn examine(line: &[Span], base: u32) -> Report {
    Examination::of(line, base).end()
}

/// Appends a span without a second driver. `start` and `past` are minutes after START.
fn push(spans: &mut Vec<Span>, start: u32, past: u32, activity: Activity) {
    let minute = |number: u32| (START + number).min(LAST);
    spans.push(Span { start: minute(start), past: minute(past), activity, is_crew: false });
}

/// Appends a shift of six hours in `pieces` pieces, half of which are driving.
fn push_shift(spans: &mut Vec<Span>, from: u32, pieces: u32) {
    let end = |number: u32| from + 360 * number / pieces;
    for i in 0..pieces {
        let activity = match i % 4 {
            1 => Activity::Rest,
            3 => Activity::Work,
            _ => Activity::Drive,
        };
        push(spans, end(i), end(i + 1), activity);
    }
}

/// Appends a day with two shifts. Sundays and every second Saturday are rest. Day 0 is a Monday.
fn push_day(spans: &mut Vec<Span>, day: u32, pieces: u32) {
    let midnight = DAY * day;
    if day % 7 == 6 || day % 14 == 5 {
        push(spans, midnight, midnight + DAY, Activity::Rest);
        return;
    }
    let second_shift = match day % 28 {
        9 => 930,
        number if number % 7 == 1 || number % 7 == 3 => 870,
        _ => 780,
    };
    push(spans, midnight, midnight + 360, Activity::Rest);
    push_shift(spans, midnight + 360, pieces);
    push(spans, midnight + 720, midnight + second_shift, Activity::Rest);
    push_shift(spans, midnight + second_shift, pieces);
    push(spans, midnight + second_shift + 360, midnight + DAY, Activity::Rest);
}

/// The line of `days` days with shifts of `pieces` pieces, or the index of the first empty span.
fn line_of(days: u32, pieces: u32) -> Result<Vec<Span>, usize> {
    let mut spans = Vec::new();
    for day in 0..days {
        push_day(&mut spans, day, pieces);
    }
    if let Some(place) = spans.iter().position(|span| span.past <= span.start) {
        return Err(place);
    }
    spans.dedup_by(|span, last| {
        let is_joined = span.start == last.past && span.activity == last.activity;
        if is_joined {
            last.past = span.past;
        }
        is_joined
    });
    Ok(spans)
}

/// Totals over all examinations of a line. `sum` is a checksum of every number of every report, in order.
#[derive(Default)]
struct Found {
    breaches: usize,
    debts: usize,
    sum: u64,
}

impl Found {
    fn take(&mut self, numbers: [u32; 4]) {
        for number in numbers {
            self.sum = self.sum.wrapping_mul(1_000_003).wrapping_add(u64::from(number));
        }
    }

    fn add(&mut self, report: &Report) {
        self.breaches += report.breaches.len();
        self.debts += report.debts.len();
        for breach in &report.breaches {
            self.take([breach.kind as u32, breach.moment, breach.since, breach.amount]);
        }
        for debt in &report.debts {
            self.take([debt.week, debt.amount, debt.deadline, debt.paid_by.unwrap_or(0)]);
        }
    }
}

fn main() {
    let arguments: Vec<u32> = std::env::args().skip(2).map(|argument| argument.parse().unwrap()).collect();
    let (days, pieces, times) = (arguments[0], arguments[1], arguments[2]);
    let line = match line_of(days, pieces) {
        Ok(line) => line,
        Err(place) => return println!("the span at {place} is empty"),
    };
    let mut found = Found::default();
    for _ in 0..times {
        found.add(&black_box(examine(black_box(&line), START)));
    }
    let Found { breaches, debts, sum } = black_box(found);
    println!("{} spans, {breaches} breaches, {debts} debts, sum {sum}", line.len());
}
