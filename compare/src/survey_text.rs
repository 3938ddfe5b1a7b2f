//! Surveys as text: a line for each record, packed into a survey and printed from one.
//!
//! ```text
//! heard 0 1 survey 3 strength 140    # two posts from 0 to 255, a number from 0 to 65535, a strength from 0 to 255
//! ```
//! A survey does not say how many posts there are, nor does its text. Blank lines and what follows a `#` are ignored.

use crate::lines::{lines, numbers, Line};
use crate::plain::survey::{Record, RECORD_BYTES};
use crate::record_text::{self, Fault, Layout, TWO_POSTS};
use crate::text::{Packer, Unpacked};

/// What a line may be.
const HEARD: &str = "`heard A B survey S strength V` with A, B and V from 0 to 255, and S from 0 to 65535";

/// How errors name the records of a survey: by their positions, which count from 0.
const LAYOUT: Layout = Layout { start: 0, size: RECORD_BYTES, first: 0, cut: "refusal 14, " };

/// The numbers of a line: two posts, the survey's number, and the strength.
fn record(words: &[&str]) -> Option<[usize; 4]> {
    let ["heard", a, b, "survey", number, "strength", strength] = words else {
        return None;
    };
    let (bytes, number) = (numbers(&[a, b, strength], 0, 255)?, numbers(&[number], 0, 65_535)?);
    Some([bytes[0], bytes[1], number[0], bytes[2]])
}

/// What the library expects of a record, and the refusal where it is something else.
fn fault(a: usize, b: usize) -> Option<Fault> {
    (a == b).then(|| (TWO_POSTS.to_string(), 5))
}

fn pack_line(packer: &mut Packer, line: &Line) -> Result<(), String> {
    let Some(record) = record(&line.words) else {
        return line.wrong(HEARD);
    };
    if let Some((expected, _)) = fault(record[0], record[1]) {
        return line.wrong(&expected);
    }
    for (width, value) in [8, 8, 16, 8].into_iter().zip(record) {
        packer.push(width, value);
    }
    Ok(())
}

/// Packs a text into a survey. An error names the line and what was expected.
pub fn pack(text: &str) -> Result<Vec<u8>, String> {
    let mut packer = Packer::default();
    for line in lines(text) {
        pack_line(&mut packer, &line)?;
    }
    Ok(packer.bytes)
}

/// Prints a survey as text. The errors name the records that the library refuses whatever n is, the first of them as 0.
pub fn unpack(survey: &[u8]) -> Unpacked {
    record_text::print(survey, &LAYOUT, |bytes| {
        let Record { a, b, number, strength } = Record::read(bytes);
        (format!("heard {a} {b} survey {number} strength {strength}"), fault(a.into(), b.into()))
    })
}

#[cfg(test)]
mod tests {
    use super::{pack, unpack};
    use crate::rng::Rng;
    use crate::surveys::survey;

    const TEXT: &str = "heard 0 1 survey 0 strength 0
heard 11 2 survey 258 strength 120
heard 255 254 survey 65535 strength 255
";
    const SURVEY: [u8; 15] = [0, 1, 0x00, 0x00, 0, 11, 2, 0x01, 0x02, 120, 255, 254, 0xFF, 0xFF, 255];

    #[test]
    fn a_survey_packs_and_unpacks() {
        assert_eq!(pack(TEXT).as_deref(), Ok(&SURVEY[..]));
        assert_eq!(unpack(&SURVEY), (TEXT.to_string(), Ok(())));
    }

    #[test]
    fn blank_lines_and_comments_are_ignored() {
        let text = "# a walk\n\n  heard 0 1 survey 2 strength 3 # the desk\n#\n";
        assert_eq!(pack(text), Ok(vec![0, 1, 0, 2, 3]));
        assert_eq!(pack("# nothing was heard\n"), Ok(vec![]));
        assert_eq!(unpack(&[]), (String::new(), Ok(())));
    }

    #[test]
    fn whatever_unpacks_packs_to_the_same_bytes() {
        let mut rng = Rng::new(6);
        for _ in 0..300 {
            let n = rng.between(1, 60);
            let (survey, ..) = survey(&mut rng, n);
            let (text, done) = unpack(&survey);
            assert_eq!((pack(&text), done), (Ok(survey), Ok(())));
        }
    }

    #[test]
    fn errors_name_the_line_and_what_was_expected() {
        let error = |line: &str| pack(&format!("# a walk\n\n{line}\n")).unwrap_err();
        for line in [
            "posts 16",
            "listen 0 1 survey 2 strength 3",
            "heard 0 1",
            "heard 0 1 survey 2",
            "heard 0 1 strength 3 survey 2",
            "heard 0 1 survey 2 strength 3 4",
            "heard 0 survey 2 strength 3",
            "heard 0 256 survey 2 strength 3",
            "heard -1 1 survey 2 strength 3",
            "heard 0 1 survey 65536 strength 3",
            "heard 0 1 survey 2 strength 256",
            "heard 0 1 survey 2 strength weak",
            "heard 3 3 survey 2 strength 256",
        ] {
            let expected = "`heard A B survey S strength V` with A, B and V from 0 to 255, and S from 0 to 65535";
            assert_eq!(error(line), format!("line 3: expected {expected}, found `{line}`"));
        }
        let same = "heard 3 3 survey 2 strength 4";
        assert_eq!(error(same), format!("line 3: expected two different posts, found `{same}`"));
    }

    #[test]
    fn records_that_are_refused_are_printed_and_named() {
        let (text, done) = unpack(&[0, 1, 0, 2, 3, 7, 7, 0, 2, 200, 255, 0, 1, 0, 9, 4, 4, 0, 0, 0, 1, 2, 3]);
        let lines = "heard 0 1 survey 2 strength 3
heard 7 7 survey 2 strength 200
heard 255 0 survey 256 strength 9
heard 4 4 survey 0 strength 0\n";
        assert_eq!(text, lines);
        let lines: Vec<&str> = lines.lines().collect();
        let due = [
            format!("record 1 at byte 5: refusal 5, expected two different posts, found `{}`", lines[1]),
            format!("record 3 at byte 15: refusal 5, expected two different posts, found `{}`", lines[3]),
            "record 4 at byte 20: refusal 14, expected a record of 5 bytes, found 3".to_string(),
        ];
        assert_eq!(done.unwrap_err(), due.join("\n"));
    }
}
