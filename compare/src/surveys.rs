//! Random surveys, with a threshold at which they are read and a pair that is asked about.

use crate::plain::survey::Record;
use crate::record_pairs::{ends, pair, pairs, Style};
use crate::rng::Rng;

/// Survey numbers at either end, and those of which a byte or a sign read wrongly gives another order.
const NUMBERS: [u16; 9] = [0, 1, 2, 255, 256, 32_767, 32_768, u16::MAX - 1, u16::MAX];

/// What walkers measure: a few survey numbers, and strengths about a level from 0 to 256.
struct Walks {
    numbers: Vec<u16>,
    level: usize,
}

impl Walks {
    fn random(rng: &mut Rng) -> Walks {
        let mut numbers = vec![rng.next() as u16];
        for _ in 0..rng.below(4) {
            numbers.push(rng.pick(&NUMBERS));
        }
        let any = rng.between(2, 254);
        Walks { numbers, level: rng.pick(&[0, 1, 128, 255, 256, any, any, any, any, any]) }
    }

    /// A strength that reaches the level, so many times in a hundred, or stays below it, often only just.
    fn strength(&self, rng: &mut Rng, strong: usize) -> u8 {
        let reaches = self.level == 0 || self.level < 256 && rng.chance(strong);
        let (low, high, nearest) =
            if reaches { (self.level, 255, self.level) } else { (0, self.level - 1, self.level - 1) };
        (if rng.chance(50) { nearest } else { rng.between(low, high) }) as u8
    }

    /// A record of a pair, in either order, whose strength reaches the level so many times in a hundred.
    fn record(&self, rng: &mut Rng, pair: (usize, usize), strong: usize) -> Record {
        let (a, b) = ends(rng, pair);
        Record { a, b, number: rng.pick(&self.numbers), strength: self.strength(rng, strong) }
    }

    /// A threshold: mostly the level, or one beside it, at either end, or beyond every strength.
    fn threshold(&self, rng: &mut Rng) -> u64 {
        let level = self.level as u64;
        match rng.below(10) {
            0..=6 => level,
            7 => rng.pick(&[level.saturating_sub(1), level + 1]),
            8 => rng.pick(&[0, 1, 255, 256]),
            _ => rng.pick(&[level + 256, level + (1 << 32), 1 << 63, u64::MAX]),
        }
    }
}

/// The records of a survey of n nodes. Some pairs are measured again, so that crowded nodes lose links.
fn records(rng: &mut Rng, n: usize, walks: &Walks, style: Style) -> Vec<Record> {
    let strong = match style {
        Style::Few | Style::Repeated => 50,
        Style::Crowded | Style::Board => rng.pick(&[80, 97, 100]),
    };
    let pairs = pairs(rng, n, style);
    let mut records: Vec<Record> = pairs.iter().map(|&pair| walks.record(rng, pair, strong)).collect();
    if !pairs.is_empty() {
        for _ in 0..rng.pick(&[0, 3, pairs.len() / 2]) {
            let pair = rng.pick(&pairs);
            records.push(walks.record(rng, pair, 50));
        }
    }
    rng.shuffle(&mut records);
    records
}

/// A pair to ask about: mostly one that has a record. One node has no pair.
fn asked(rng: &mut Rng, n: usize, records: &[Record]) -> (u64, u64) {
    if n == 1 {
        return (0, 0);
    }
    let pair = if records.is_empty() || rng.chance(20) {
        pair(rng, n)
    } else {
        let record = rng.pick(records);
        (record.a.into(), record.b.into())
    };
    let (a, b) = ends(rng, pair);
    (a.into(), b.into())
}

/// The bytes of a record.
pub fn bytes(record: Record) -> [u8; 5] {
    let [high, low] = record.number.to_be_bytes();
    [record.a, record.b, high, low, record.strength]
}

/// A survey of n nodes, a threshold and a pair.
pub fn survey(rng: &mut Rng, n: usize) -> (Vec<u8>, u64, (u64, u64)) {
    let style = Style::random(rng, n, true);
    let walks = Walks::random(rng);
    let records = records(rng, n, &walks, style);
    let survey = records.iter().flat_map(|&record| bytes(record)).collect();
    (survey, walks.threshold(rng), asked(rng, n, &records))
}
