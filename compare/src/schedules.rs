//! Random schedules, with a minute at which they are read.

use crate::plain::schedule::Record;
use crate::record_pairs::{ends, pairs, Style};
use crate::rng::Rng;

/// The minutes at either end.
const EXTREMES: [u16; 4] = [0, 1, u16::MAX - 1, u16::MAX];

/// A span of minutes, mostly short, so that hours meet.
struct Span {
    first: u16,
    last: u16,
}

impl Span {
    fn random(rng: &mut Rng) -> Span {
        let length = match rng.below(20) {
            0..=12 => rng.between(1, 8),
            13..=18 => rng.between(9, 200),
            _ => 65_535,
        };
        let first = match rng.below(4) {
            0 => 0,
            1 => 65_535 - length,
            _ => rng.between(0, 65_535 - length),
        };
        Span { first: first as u16, last: (first + length) as u16 }
    }

    fn minute(&self, rng: &mut Rng) -> u16 {
        if rng.chance(3) {
            rng.pick(&EXTREMES)
        } else {
            rng.between(self.first.into(), self.last.into()) as u16
        }
    }

    /// Hours within the span, which may be all of it.
    fn hours(&self, rng: &mut Rng, whole: usize) -> (u16, u16) {
        if rng.chance(whole) {
            return (self.first, self.last);
        }
        let (x, y) = (self.minute(rng), self.minute(rng));
        match (x.min(y), x.max(y)) {
            (u16::MAX, u16::MAX) => (u16::MAX - 1, u16::MAX),
            (from, to) if from == to => (from, to + 1),
            hours => hours,
        }
    }
}

/// The records of a schedule of n nodes.
fn records(rng: &mut Rng, n: usize, span: &Span, style: Style) -> Vec<Record> {
    let whole = match style {
        Style::Few | Style::Repeated => rng.pick(&[0, 0, 20]),
        Style::Crowded | Style::Board => rng.pick(&[80, 97, 100]),
    };
    let mut records = Vec::new();
    for pair in pairs(rng, n, style) {
        let (a, b) = ends(rng, pair);
        let (from, to) = span.hours(rng, whole);
        records.push(Record { a, b, from, to });
    }
    rng.shuffle(&mut records);
    records
}

/// A minute at which to read the records: often where one of them opens or closes, or one beside it.
fn minute(rng: &mut Rng, span: &Span, records: &[Record]) -> u16 {
    match rng.below(10) {
        0..=6 if !records.is_empty() => {
            let record = rng.pick(records);
            let bound = rng.pick(&[record.from, record.to]);
            rng.pick(&[bound.saturating_sub(1), bound, bound.saturating_add(1)])
        }
        9 => rng.next() as u16,
        _ => span.minute(rng),
    }
}

/// The bytes of a record.
pub fn bytes(record: Record) -> [u8; 6] {
    let ([f, g], [t, u]) = (record.from.to_be_bytes(), record.to.to_be_bytes());
    [record.a, record.b, f, g, t, u]
}

/// A schedule of n nodes, and a minute. Where the minutes after it are walked, it has few records.
pub fn schedule(rng: &mut Rng, n: usize, walked: bool) -> (Vec<u8>, u16) {
    let span = Span::random(rng);
    let style = Style::random(rng, n, !walked);
    let records = records(rng, n, &span, style);
    let mut schedule = vec![(n - 1) as u8];
    schedule.extend(records.iter().flat_map(|&record| bytes(record)));
    (schedule, minute(rng, &span, &records))
}
