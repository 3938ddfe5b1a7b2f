//! Schedules as text: a line for each record, packed into a schedule and printed from one.
//!
//! ```text
//! posts 12                                # the first line; n from 1 to 256
//! open 0 1 from 600 to 1380               # two posts below n, and minutes from 0 to 65535
//! open 3 2 from mon 18:30 to mon 23:00    # or a day and a time of the tour week
//! open 4 5 from sat 10:00 to sun 24:00    # 24:00 is the end of a day
//! ```
//! The days are mon, tue, wed, thu, fri, sat and sun; mon 00:00 is minute 0. Blank lines and what follows a `#` are
//! ignored.

use crate::lines::{lines, numbers, posts, Line};
use crate::plain::schedule::{Record, RECORD_BYTES};
use crate::record_text::{self, Fault, Layout, TWO_POSTS};
use crate::text::{Packer, Unpacked};

const DAYS: [&str; 7] = ["mon", "tue", "wed", "thu", "fri", "sat", "sun"];
const DAY: usize = 24 * 60;

/// What a line after the first may be.
const HOURS: &str =
    "`open A B from M to M` with A and B from 0 to 255, and each M from 0 to 65535 or a day and a time \
                     such as `mon 18:30`";

/// How errors name the records of a schedule, which follow its first byte.
const LAYOUT: Layout = Layout { start: 1, size: RECORD_BYTES, first: 1, cut: "" };

/// The minutes of a time from 00:00 to 24:00.
fn time(word: &str) -> Option<usize> {
    let (hours, minutes) = word.split_once(':')?;
    let two = |digits: &str| digits.len() == 2 && digits.bytes().all(|digit| digit.is_ascii_digit());
    if !two(hours) || !two(minutes) {
        return None;
    }
    let (hours, minutes): (usize, usize) = (hours.parse().ok()?, minutes.parse().ok()?);
    (minutes < 60 && 60 * hours + minutes <= DAY).then_some(60 * hours + minutes)
}

/// A minute, as a number or as a day and a time.
fn minute(words: &[&str]) -> Option<usize> {
    match words {
        [number] => Some(numbers(&[number], 0, 65_535)?[0]),
        [day, clock] => Some(DAYS.iter().position(|other| other == day)? * DAY + time(clock)?),
        _ => None,
    }
}

/// The minute with which words begin, and the words after it.
pub fn leading_minute<'a>(words: &'a [&'a str]) -> Result<(u16, &'a [&'a str]), String> {
    let of = |count: usize| {
        let (first, rest) = words.split_at_checked(count)?;
        Some((minute(first)? as u16, rest))
    };
    of(2).or_else(|| of(1)).ok_or_else(|| {
        let found = words.join(" ");
        format!("expected a minute from 0 to 65535, or a day and a time such as `wed 14:30`, found `{found}`")
    })
}

/// The numbers of a line: two posts, a from minute and a to minute.
fn record(words: &[&str]) -> Option<[usize; 4]> {
    let ["open", a, b, "from", hours @ ..] = words else {
        return None;
    };
    let to = hours.iter().position(|&word| word == "to")?;
    let ends = numbers(&[a, b], 0, 255)?;
    Some([ends[0], ends[1], minute(&hours[..to])?, minute(&hours[to + 1..])?])
}

/// What the library expects of a record on a board of n posts, and the refusal where it is something else.
fn fault(n: usize, [a, b, from, to]: [usize; 4]) -> Option<Fault> {
    if a >= n || b >= n {
        Some((format!("posts below {n}"), 4))
    } else if a == b {
        Some((TWO_POSTS.to_string(), 5))
    } else if from >= to {
        Some(("a from minute below the to minute".to_string(), 13))
    } else {
        None
    }
}

fn pack_line(packer: &mut Packer, n: usize, line: &Line) -> Result<(), String> {
    let Some(record) = record(&line.words) else {
        return line.wrong(HOURS);
    };
    if let Some((expected, _)) = fault(n, record) {
        return line.wrong(&expected);
    }
    for (width, value) in [8, 8, 16, 16].into_iter().zip(record) {
        packer.push(width, value);
    }
    Ok(())
}

/// Packs a text into a schedule. An error names the line and what was expected.
pub fn pack(text: &str) -> Result<Vec<u8>, String> {
    let mut lines = lines(text);
    let n = posts(text, lines.next())?;
    let mut packer = Packer::default();
    packer.push(8, n - 1);
    for line in lines {
        pack_line(&mut packer, n, &line)?;
    }
    Ok(packer.bytes)
}

/// A minute as a day and a time where the week has it, its end included, and otherwise as a number.
fn printed(minute: usize) -> String {
    let (day, minutes) = match minute / DAY {
        7 if minute == 7 * DAY => (6, DAY),
        day => (day, minute % DAY),
    };
    match DAYS.get(day) {
        Some(name) => format!("{name} {:02}:{:02}", minutes / 60, minutes % 60),
        None => minute.to_string(),
    }
}

/// Prints a schedule as text. The errors name the records that the library would refuse, the first of them as 1.
pub fn unpack(schedule: &[u8]) -> Unpacked {
    let Some(&first) = schedule.first() else {
        return (String::new(), Err("expected a first byte n-1, found an empty input".to_string()));
    };
    let n = usize::from(first) + 1;
    let (lines, done) = record_text::print(schedule, &LAYOUT, |bytes| {
        let Record { a, b, from, to } = Record::read(bytes);
        let line = format!("open {a} {b} from {} to {}", printed(from.into()), printed(to.into()));
        (line, fault(n, [a.into(), b.into(), from.into(), to.into()]))
    });
    (format!("posts {n}\n{lines}"), done)
}

#[cfg(test)]
mod tests {
    use super::{leading_minute, pack, unpack};
    use crate::rng::Rng;

    const TEXT: &str = "posts 12
open 0 11 from mon 00:00 to mon 18:30
open 11 0 from tue 00:01 to sun 23:59
open 3 2 from sun 00:00 to sun 24:00
open 4 5 from 10081 to 65535
";
    #[rustfmt::skip]
    const SCHEDULE: [u8; 25] = [
        11,
        0, 11, 0x00, 0x00, 0x04, 0x56, // 0 to 1,110
        11, 0, 0x05, 0xA1, 0x27, 0x5F, // 1,441 to 10,079
        3, 2, 0x21, 0xC0, 0x27, 0x60, // 8,640 to 10,080
        4, 5, 0x27, 0x61, 0xFF, 0xFF, // 10,081 to 65,535
    ];

    #[test]
    fn a_schedule_packs_and_unpacks() {
        assert_eq!(pack(TEXT).as_deref(), Ok(&SCHEDULE[..]));
        assert_eq!(unpack(&SCHEDULE), (TEXT.to_string(), Ok(())));
    }

    #[test]
    fn numbers_days_and_the_end_of_a_day_are_minutes() {
        let numbers = "posts 12\nopen 0 11 from 0 to 1110\nopen 11 0 from 1441 to 10079\nopen 3 2 from 8640 to 10080\n";
        assert_eq!(pack(numbers).as_deref(), Ok(&SCHEDULE[..19]));
        let ends = "posts 2\nopen 0 1 from mon 24:00 to 1441\nopen 0 1 from 1440 to tue 00:01\n";
        assert_eq!(pack(ends), Ok(vec![1, 0, 1, 0x05, 0xA0, 0x05, 0xA1, 0, 1, 0x05, 0xA0, 0x05, 0xA1]));
    }

    #[test]
    fn blank_lines_and_comments_are_ignored() {
        assert_eq!(pack("# a week\n\nposts 2 # n\n  open 0 1 from 1 to 2 # open\n"), Ok(vec![1, 0, 1, 0, 1, 0, 2]));
        assert_eq!(pack("posts 1\n"), Ok(vec![0]));
        assert_eq!(unpack(&[0]), ("posts 1\n".to_string(), Ok(())));
    }

    #[test]
    fn whatever_unpacks_packs_to_the_same_bytes() {
        let mut rng = Rng::new(6);
        for _ in 0..300 {
            let n = rng.between(2, 256);
            let mut schedule = vec![(n - 1) as u8];
            for _ in 0..rng.below(20) {
                let a = rng.below(n);
                let last = rng.pick(&[65_535, 10_081]);
                let from = rng.below(last);
                schedule.extend([a as u8, ((a + rng.between(1, n - 1)) % n) as u8]);
                schedule.extend((from as u16).to_be_bytes());
                schedule.extend((rng.between(from + 1, last) as u16).to_be_bytes());
            }
            let (text, done) = unpack(&schedule);
            assert_eq!((pack(&text), done), (Ok(schedule), Ok(())));
        }
    }

    #[test]
    fn errors_name_the_line_and_what_was_expected() {
        let error = |line: &str| pack(&format!("posts 12\n\n{line}\n")).unwrap_err();
        let refused = |expected: &str, line: &str| {
            assert_eq!(error(line), format!("line 3: expected {expected}, found `{line}`"));
        };
        refused("posts below 12", "open 0 12 from 1 to 2");
        refused("posts below 12", "open 12 12 from 2 to 1");
        refused("two different posts", "open 3 3 from 2 to 1");
        refused("a from minute below the to minute", "open 3 4 from 2 to 2");
        refused("a from minute below the to minute", "open 3 4 from tue 10:00 to mon 11:00");
        for line in ["end", "close 1 2 from 1 to 2", "open 1 from 1 to 2", "open 1 2 from 1", "open 1 256 from 1 to 2"]
        {
            assert!(error(line).starts_with("line 3: expected `open A B from M to M` with"), "{line}");
        }
        for minute in
            ["65536", "-1", "x", "mon", "mon 1", "mon 9:30", "mon 24:01", "mon 10:60", "day 10:00", "mon +1:30"]
        {
            assert!(error(&format!("open 1 2 from 0 to {minute}")).starts_with("line 3: expected `open"), "{minute}");
        }
        let ended = "line 1: expected `posts N` with N from 1 to 256, found the end of the text";
        assert_eq!(pack("").unwrap_err(), ended);
        assert!(pack("open 0 1 from 1 to 2\n").unwrap_err().starts_with("line 1: expected `posts N`"));
    }

    #[test]
    fn words_may_begin_with_a_minute() {
        let begins = |words: &[&str], minute: u16, rest: &[&str]| assert_eq!(leading_minute(words), Ok((minute, rest)));
        begins(&["600"], 600, &[]);
        begins(&["65535", "week.bin"], 65_535, &["week.bin"]);
        begins(&["600", "14:30"], 600, &["14:30"]);
        begins(&["wed", "14:30"], 3_750, &[]);
        begins(&["sun", "24:00", "week.bin", "more"], 10_080, &["week.bin", "more"]);
        for words in [&["65536"][..], &["wed"], &["week.bin"], &["wed", "week.bin"], &["wed", "24:01"], &["-1", "600"]]
        {
            let expected = "expected a minute from 0 to 65535, or a day and a time such as `wed 14:30`";
            assert_eq!(leading_minute(words), Err(format!("{expected}, found `{}`", words.join(" "))));
        }
    }

    #[test]
    fn records_that_are_refused_are_printed_and_named() {
        let faults = [3, 0, 4, 0, 1, 0, 2, 0, 1, 0, 1, 0, 2, 2, 2, 0, 1, 0, 2, 0, 1, 0, 2, 0, 2, 9, 9, 9];
        let (text, done) = unpack(&faults);
        let lines = "open 0 4 from mon 00:01 to mon 00:02
open 0 1 from mon 00:01 to mon 00:02
open 2 2 from mon 00:01 to mon 00:02
open 0 1 from mon 00:02 to mon 00:02\n";
        assert_eq!(text, format!("posts 4\n{lines}"));
        let lines: Vec<&str> = lines.lines().collect();
        let due = [
            format!("record 1 at byte 1: refusal 4, expected posts below 4, found `{}`", lines[0]),
            format!("record 3 at byte 13: refusal 5, expected two different posts, found `{}`", lines[2]),
            format!(
                "record 4 at byte 19: refusal 13, expected a from minute below the to minute, found `{}`",
                lines[3]
            ),
            "record 5 at byte 25: expected a record of 6 bytes, found 3".to_string(),
        ];
        assert_eq!(done.unwrap_err(), due.join("\n"));
        assert!(unpack(&[]).1.is_err());
    }
}
