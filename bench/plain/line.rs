//! Does what `tool_rows measure` does with a timeline, in plain Rust over a sorted `Vec`.
#[derive(Clone, Copy, PartialEq)]
pub struct Span {
    pub start: u32,
    pub past: u32,
    pub mark: (u8, bool),
}

const START: u32 = 15_780_960;

fn hour(number: u32) -> Span {
    let start = START + 60 * number;
    Span { start, past: start + 60, mark: (2 + (number % 2) as u8, false) }
}

/// The canonical list of spans in any order, or the first minute with two marks.
pub fn canonical(spans: &[Span]) -> Result<Vec<Span>, u32> {
    let mut sorted: Vec<Span> = spans.iter().copied().filter(|s| s.start < s.past).collect();
    sorted.sort_unstable_by_key(|s| s.start);
    let mut runs: Vec<Span> = Vec::new();
    for span in sorted {
        match runs.last_mut() {
            Some(last) if span.start < last.past && span.mark != last.mark => return Err(span.start),
            Some(last) if span.start <= last.past && span.mark == last.mark => last.past = last.past.max(span.past),
            _ => runs.push(span),
        }
    }
    Ok(runs)
}

/// The parts of spans that the line doesn't hold, or the first minute with two marks.
pub fn gains(line: &[Span], spans: &[Span]) -> Result<Vec<Span>, u32> {
    let (Some(start), Some(past)) = (spans.iter().map(|s| s.start).min(), spans.iter().map(|s| s.past).max()) else {
        return Ok(Vec::new());
    };
    let low = line.partition_point(|s| s.past <= start);
    let near: Vec<Span> = line[low..].iter().take_while(|s| s.start < past).copied().collect();
    canonical(&near.iter().chain(spans).copied().collect::<Vec<_>>())?;
    let mut gains = Vec::new();
    let mut held = near.iter().peekable();
    for span in canonical(spans)? {
        let mut from = span.start;
        while let Some(next) = held.peek() {
            if next.past <= from {
                held.next();
            } else if next.start < span.past {
                if from < next.start {
                    gains.push(Span { start: from, past: next.start, ..span });
                }
                from = next.past;
            } else {
                break;
            }
        }
        if from < span.past {
            gains.push(Span { start: from, ..span });
        }
    }
    Ok(gains)
}

/// Inserts gains into the line in order, and joins spans that touch and have the same mark.
fn add(line: &mut Vec<Span>, gains: &[Span]) {
    let Some(first) = gains.first() else { return };
    let past = gains[gains.len() - 1].past;
    let low = line.partition_point(|s| s.past < first.start);
    let high = low + line[low..].partition_point(|s| s.start <= past);
    let around: Vec<Span> = line[low..high].iter().chain(gains).copied().collect();
    let merged = canonical(&around).unwrap();
    line.splice(low..high, merged);
}

fn main() {
    let arguments: Vec<u32> = std::env::args().skip(1).map(|argument| argument.parse().unwrap()).collect();
    let (count, days) = (arguments[0], arguments[1]);
    let spans: Vec<Span> = (0..count).map(|i| hour(i / 24 * 48 + i % 24)).collect();
    let mut line = Vec::new();
    add(&mut line, &gains(&[], &spans).unwrap());
    for i in 0..days {
        let day = (i % (count / 24).max(1)) * 2 + 1;
        let spans: Vec<Span> = (0..24).map(|j| hour(day * 24 + j)).collect();
        let new = gains(&line, &spans).unwrap();
        add(&mut line, &new);
    }
    println!("{} spans", line.len());
}
