//! The next change of a schedule after a minute: the first opening of a pair that is closed at the minute, or the first
//! end of the hours, one upon the other, of a pair that is open.

use super::schedule::{Record, Schedule};

/// The answer where no later minute differs.
const NONE: u64 = 65_536;

/// What the records that end after the minute tell of a pair.
#[derive(Clone, Copy, Default)]
struct Pair {
    /// The end of the hours that are open at the minute; 0 where the pair is closed.
    end: u16,
    /// The last end of its hours.
    last: u16,
}

/// The hours of a pair as one number, which is larger where they begin later.
#[derive(Clone, Copy)]
struct Hours(u64);

impl Hours {
    #[inline]
    fn new(pair: usize, from: u16, to: u16) -> Hours {
        Hours(u64::from(from) << 32 | u64::from(to) << 16 | pair as u64)
    }

    #[inline]
    fn pair(self) -> usize {
        usize::from(self.0 as u16)
    }

    #[inline]
    fn from(self) -> u16 {
        (self.0 >> 32) as u16
    }

    #[inline]
    fn to(self) -> u16 {
        (self.0 >> 16) as u16
    }
}

/// The hours that end after the minute, and what they tell of each pair.
fn gather(schedule: Schedule, minute: u16) -> (Vec<Hours>, Vec<Pair>) {
    let mut left = Vec::with_capacity(schedule.count());
    let mut pairs = vec![Pair::default(); schedule.n * (schedule.n - 1) / 2];
    for record in schedule.records() {
        let Record { from, to, .. } = record;
        if minute < to {
            let index = record.pair();
            let pair = &mut pairs[index];
            pair.last = pair.last.max(to);
            pair.end = pair.end.max(if from <= minute { to } else { 0 });
            left.push(Hours::new(index, from, to));
        }
    }
    (left, pairs)
}

pub fn next(schedule: &[u8], minute: u16) -> Result<u64, u64> {
    let schedule = Schedule::parse(schedule)?;
    schedule.check()?;
    let (left, mut pairs) = gather(schedule, minute);
    // no change comes after the first opening of a closed pair, nor after the last end of an open one
    let latest = |hours: &Hours| match pairs[hours.pair()] {
        Pair { end: 0, .. } => hours.from(),
        Pair { last, .. } => last,
    };
    let Some(mut first) = left.iter().map(latest).min() else {
        return Ok(NONE);
    };
    let extends = |hours: &&Hours| minute < hours.from() && hours.from() < first && pairs[hours.pair()].end != 0;
    let mut later: Vec<Hours> = left.iter().filter(extends).copied().collect();
    later.sort_unstable_by_key(|hours| hours.0);
    for hours in &later {
        let end = &mut pairs[hours.pair()].end;
        if hours.from() <= *end {
            *end = hours.to().max(*end);
        }
    }
    for hours in &left {
        let end = pairs[hours.pair()].end;
        if end != 0 {
            first = first.min(end);
        }
    }
    Ok(first.into())
}
