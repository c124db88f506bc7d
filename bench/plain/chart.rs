//! Draws the chart of a driver's month as SVG, in plain Rust over std alone. It is written for speed: it writes numbers without `format!`,
//! takes what never changes as a few long texts, and goes through the spans, the stretches and the breaches once.
use crate::dump::Lines;
use crate::examine::{Activity, Breach, Span};
use crate::reports::{push_breach, push_date, DAY};
use crate::Stretch;

const WEEKDAYS: [&str; 7] = ["Mon", "Tue", "Wed", "Thu", "Fri", "Sat", "Sun"];

/// The bytes of a day with some thirty spans.
const BYTES_OF_DAY: usize = 4096;

/// What comes before x, between x and the width, and between the width and the title of a bar; and what comes after its minutes. Indexed by
/// twice the activity, plus one for crew.
macro_rules! bar {
    ($activity:literal, $y:literal, $height:literal) => {
        [
            [
                concat!("<rect class=\"", $activity, "\" x=\""),
                concat!("\" y=\"", $y, "\" width=\""),
                concat!("\" height=\"", $height, "\"><title>"),
                concat!(" ", $activity, " single</title></rect>\n"),
            ],
            [
                concat!("<rect class=\"", $activity, " crew\" x=\""),
                concat!("\" y=\"", $y, "\" width=\""),
                concat!("\" height=\"", $height, "\"><title>"),
                concat!(" ", $activity, " crew</title></rect>\n"),
            ],
        ]
    };
}
const BARS: [[[&str; 4]; 2]; 4] = [bar!("rest", 26, 6), bar!("available", 20, 12), bar!("work", 12, 20), bar!("drive", 4, 28)];

const STYLE: &str = "</title>
<style>text{fill:#1c2128}.right{text-anchor:end}.middle{text-anchor:middle}.back{fill:#f0f2f4;stroke:#767e87}.hour{stroke:#d7dbe0}\
.rest{fill:#5b8fc2}.available{fill:#9270c4}.work{fill:#b87100}.drive{fill:#1f4e79}\
.crew{fill-opacity:.4;stroke:#1c2128;stroke-dasharray:4 3}.unseen{fill:#55606b;fill-opacity:.2}\
.breach path,.mark{fill:#a8201a;stroke:#fff}.code{fill:#a8201a;font-weight:bold;font-size:15px}</style>
<rect width=\"100%\" height=\"100%\" fill=\"#fff\"/>
<text x=\"20\" y=\"40\" font-size=\"28\">";
const HOURS: &str = "</text>
<g class=\"right\"><text x=\"176\" y=\"88\">UTC</text><text x=\"1730\" y=\"88\">driven</text></g>
<g class=\"middle\"><text x=\"200\" y=\"88\">0</text><text x=\"320\" y=\"88\">2</text><text x=\"440\" y=\"88\">4</text>\
<text x=\"560\" y=\"88\">6</text><text x=\"680\" y=\"88\">8</text><text x=\"800\" y=\"88\">10</text><text x=\"920\" y=\"88\">12</text>\
<text x=\"1040\" y=\"88\">14</text><text x=\"1160\" y=\"88\">16</text><text x=\"1280\" y=\"88\">18</text>\
<text x=\"1400\" y=\"88\">20</text><text x=\"1520\" y=\"88\">22</text><text x=\"1640\" y=\"88\">24</text></g>\n";
const GRID: &str = ")\">
<rect class=\"back\" x=\"0\" y=\"4\" width=\"1440\" height=\"28\"/>
<path class=\"hour\" d=\"M0 4v28M120 4v28M240 4v28M360 4v28M480 4v28M600 4v28M720 4v28\
M840 4v28M960 4v28M1080 4v28M1200 4v28M1320 4v28M1440 4v28\"/>
<text class=\"right\" x=\"-12\" y=\"26\">";
const LEGEND: &str = ")\">
<rect class=\"rest\" x=\"0\" y=\"26\" width=\"40\" height=\"6\"/><text x=\"50\" y=\"32\">rest</text>
<rect class=\"available\" x=\"140\" y=\"20\" width=\"40\" height=\"12\"/><text x=\"190\" y=\"32\">available</text>
<rect class=\"work\" x=\"330\" y=\"12\" width=\"40\" height=\"20\"/><text x=\"380\" y=\"32\">other work</text>
<rect class=\"drive\" x=\"530\" y=\"4\" width=\"40\" height=\"28\"/><text x=\"580\" y=\"32\">driving</text>
<rect class=\"drive crew\" x=\"700\" y=\"4\" width=\"40\" height=\"28\"/><text x=\"750\" y=\"32\">second driver</text>
<rect class=\"back\" x=\"930\" y=\"4\" width=\"40\" height=\"28\"/><text x=\"980\" y=\"32\">not known</text>
<rect class=\"unseen\" x=\"1120\" y=\"0\" width=\"40\" height=\"36\"/><text x=\"1170\" y=\"32\">not examined</text>
<path class=\"mark\" d=\"M1340 -9h11l-3 4 3 4h-8v33h-3z\"/><text x=\"1360\" y=\"32\">breach</text>
</g>
</svg>\n";

pub fn push(lines: &mut Lines, text: &str) {
    lines.text.extend_from_slice(text.as_bytes());
}

pub fn push_number(lines: &mut Lines, mut number: u32) {
    let (mut digits, mut from) = ([0; 10], 10);
    loop {
        from -= 1;
        digits[from] = b'0' + (number % 10) as u8;
        number /= 10;
        if number == 0 {
            return lines.text.extend_from_slice(&digits[from..]);
        }
    }
}

/// The driver's number and name, and the month, as XML.
fn title_of(driver: u32, name: &str, month: &str) -> String {
    let mut title = format!("{driver} ");
    for character in name.chars() {
        match character {
            '&' => title.push_str("&amp;"),
            '<' => title.push_str("&lt;"),
            '>' => title.push_str("&gt;"),
            '\u{fffe}' | '\u{ffff}' => title.push('\u{fffd}'),
            _ => title.push(character),
        }
    }
    title + ", " + month
}

fn push_front(lines: &mut Lines, title: &str, days: u32) {
    push(lines, "<svg xmlns=\"http://www.w3.org/2000/svg\" viewBox=\"0 0 1920 ");
    push_number(lines, 160 + 42 * days);
    push(lines, "\" font-family=\"sans-serif\" font-size=\"20\" role=\"img\">\n<title>");
    push(lines, title);
    push(lines, STYLE);
    push(lines, title);
    push(lines, HOURS);
}

fn push_day_head(lines: &mut Lines, midnight: u32, y: u32) {
    push(lines, "<g class=\"day\" id=\"");
    push_date(lines, midnight);
    push(lines, "\" transform=\"translate(200 ");
    push_number(lines, y);
    push(lines, GRID);
    push_date(lines, midnight);
    push(lines, " ");
    push(lines, WEEKDAYS[(midnight / DAY + 3) as usize % 7]);
    push(lines, "</text>\n");
}

fn push_bar(lines: &mut Lines, span: &Span, midnight: u32) {
    let [before_x, before_width, before_title, end] = BARS[span.activity as usize][usize::from(span.is_crew)];
    push(lines, before_x);
    push_number(lines, span.start - midnight);
    push(lines, before_width);
    push_number(lines, span.past - span.start);
    push(lines, before_title);
    lines.push_minute(span.start);
    lines.text.push(b' ');
    lines.push_minute(span.past);
    push(lines, end);
}

/// Appends the bars of a day. Spans that touch and have the same mark get one bar. Drops the spans that end in the day. Returns the minutes
/// of driving without a second driver.
fn push_bars(lines: &mut Lines, spans: &mut &[Span], midnight: u32) -> u32 {
    let (end, mut drive, mut bar) = (midnight + DAY, 0, None::<Span>);
    while let Some((span, rest)) = spans.split_first().filter(|(span, _)| span.start < end) {
        let (start, past) = (span.start.max(midnight), span.past.min(end));
        if span.activity == Activity::Drive && !span.is_crew {
            drive += past - start;
        }
        match &mut bar {
            Some(bar) if bar.past == start && (bar.activity, bar.is_crew) == (span.activity, span.is_crew) => bar.past = past,
            _ => {
                let done = bar.replace(Span { start, past, ..*span });
                done.iter().for_each(|bar| push_bar(lines, bar, midnight));
            }
        }
        if end < span.past {
            break;
        }
        *spans = rest;
    }
    bar.iter().for_each(|bar| push_bar(lines, bar, midnight));
    drive
}

fn push_shade(lines: &mut Lines, x: u32, width: u32) {
    push(lines, "<rect class=\"unseen\" x=\"");
    push_number(lines, x);
    push(lines, "\" y=\"-5\" width=\"");
    push_number(lines, width);
    push(lines, "\" height=\"42\"/>\n");
}

/// Appends the shades of a day. Drops the stretches that end in the day.
fn push_shades(lines: &mut Lines, stretches: &mut &[Stretch], midnight: u32) {
    let (end, mut from) = (midnight + DAY, midnight);
    while let Some((stretch, rest)) = stretches.split_first().filter(|(stretch, _)| stretch.monday < end) {
        let horizon = stretch.report.horizon;
        if from < stretch.monday {
            push_shade(lines, from - midnight, stretch.monday - from);
        }
        from = from.max(horizon);
        if end <= horizon {
            return;
        }
        *stretches = rest;
    }
    push_shade(lines, from - midnight, end - from);
}

fn push_mark(lines: &mut Lines, breach: &Breach, midnight: u32) {
    push(lines, "<g class=\"breach\"><title>");
    push_breach(lines, breach);
    lines.text.pop();
    push(lines, "</title><path d=\"M");
    let minute = breach.moment - midnight;
    push_number(lines, minute);
    push(lines, if minute <= 1380 { " -9h11l-3 4 3 4h-8v33h-3z" } else { " -9h-11l3 4-3 4h11v33h3v-41z" });
    push(lines, "\"/></g>\n");
}

fn push_day_end(lines: &mut Lines, drive: u32, breaches: &[&Breach]) {
    push(lines, "<text class=\"right\" x=\"1530\" y=\"26\">");
    push_number(lines, drive / 60);
    lines.text.extend_from_slice(&[b':', b'0' + (drive % 60 / 10) as u8, b'0' + (drive % 10) as u8]);
    push(lines, "</text>\n<text class=\"code\" x=\"1545\" y=\"26\">");
    for breach in breaches {
        push(lines, " B");
        push_number(lines, breach.kind as u32 + 1);
    }
    push(lines, "</text>\n</g>\n");
}

/// The chart of a driver's month, which begins with the day `first` and has `days` days. `spans` are those that the driver holds, and
/// `stretches` all stretches of the driver.
pub fn chart_of(driver: u32, name: &str, spans: &[Span], stretches: &[Stretch], month: &str, first: u32, days: u32) -> Vec<u8> {
    let (start, past) = (DAY * first, DAY * (first + days));
    let breaches = stretches.iter().flat_map(|stretch| &stretch.report.breaches);
    let breaches: Vec<&Breach> = breaches.filter(|breach| (start..past).contains(&breach.moment)).collect();
    let mut spans = &spans[spans.partition_point(|span| span.past <= start)..];
    let mut stretches = &stretches[stretches.partition_point(|stretch| stretch.report.horizon <= start)..];
    let mut breaches = &breaches[..];
    let mut lines = Lines::with_capacity(BYTES_OF_DAY * (days as usize + 1));
    push_front(&mut lines, &title_of(driver, name, month), days);
    for number in 0..days {
        let midnight = start + DAY * number;
        push_day_head(&mut lines, midnight, 100 + 42 * number);
        let drive = push_bars(&mut lines, &mut spans, midnight);
        push_shades(&mut lines, &mut stretches, midnight);
        // A stretch ends before the next one begins, so all breaches are in the order of their moments.
        let (today, later) = breaches.split_at(breaches.partition_point(|breach| breach.moment < midnight + DAY));
        today.iter().for_each(|breach| push_mark(&mut lines, breach, midnight));
        push_day_end(&mut lines, drive, today);
        breaches = later;
    }
    push(&mut lines, "<g transform=\"translate(200 ");
    push_number(&mut lines, 112 + 42 * days);
    push(&mut lines, LEGEND);
    lines.text
}
