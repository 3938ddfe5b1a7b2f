//! The sheet of a survey or of a schedule, as a version of the library makes it, and a sheet as the text of a script.

use crate::calls::Calls;
use crate::lines::numbers;
use crate::plain::limits::MAX_DEGREE;
use crate::plain::packing::{bit, edge_bytes, pair_index, pairs};
use crate::plain::{schedule, snapshot, survey};

/// A buffer for the sheet of n posts, or none where there is no such sheet.
fn blank(n: u64) -> Vec<u8> {
    match n {
        1..=256 => vec![0; 1 + edge_bytes(n as usize)],
        _ => Vec::new(),
    }
}

/// What a refusal asks of a file of this length for n posts.
fn expected(refusal: u64, n: u64, length: usize) -> String {
    match refusal {
        1 => format!("a number of posts from 1 to 256, found {n}"),
        4 => format!("posts below {n} in every record"),
        5 => "two different posts in every record".to_string(),
        9 => format!("a first byte n-1 and whole records of {} bytes, found {length} bytes", schedule::RECORD_BYTES),
        12 => format!("at most {MAX_DEGREE} links of a post, found more"),
        13 => "a from minute below the to minute in every record".to_string(),
        14 => format!("whole records of {} bytes, found {length} bytes", survey::RECORD_BYTES),
        _ => "a call that is accepted".to_string(),
    }
}

/// The sheet of n posts that a call makes of a file. An error gives the refusal and what was expected.
fn made(n: u64, file: &[u8], call: impl FnOnce(&mut [u8]) -> u64) -> Result<Vec<u8>, String> {
    let mut sheet = blank(n);
    match call(&mut sheet) {
        0 => Ok(sheet),
        refusal => Err(format!("refusal {refusal}, expected {}", expected(refusal, n, file.len()))),
    }
}

/// The sheet of a survey, for n posts at a threshold.
pub fn of_survey(version: &dyn Calls, n: u64, threshold: u64, survey: &[u8]) -> Result<Vec<u8>, String> {
    made(n, survey, |sheet| version.survey_write(survey, n, threshold, sheet))
}

/// The sheet of a schedule at a minute.
pub fn of_schedule(version: &dyn Calls, minute: u16, schedule: &[u8]) -> Result<Vec<u8>, String> {
    let n = schedule.first().map_or(0, |&first| u64::from(first) + 1);
    made(n, schedule, |sheet| version.schedule_write(schedule, minute, sheet))
}

/// How many posts a script lists.
pub fn listed(word: &str) -> Result<usize, String> {
    numbers(&[word], 1, 256).map_or(Err(format!("expected K from 1 to 256, found `{word}`")), |k| Ok(k[0]))
}

/// What is wrong with a sheet that is refusal 9.
fn malformed(sheet: &[u8]) -> String {
    let Some(&first) = sheet.first() else {
        return "refusal 9, expected a first byte n-1, found an empty input".to_string();
    };
    let n = usize::from(first) + 1;
    let length = 1 + edge_bytes(n);
    if sheet.len() == length {
        "refusal 9, expected spare bits 0 at the end, found a 1".to_string()
    } else {
        format!("refusal 9, expected {length} bytes for {n} posts, found {}", sheet.len())
    }
}

/// The text of a script that adds the links of a sheet, in bit order, and lists k posts.
pub fn script(k: usize, sheet: &[u8]) -> Result<String, String> {
    let (n, edges) = snapshot::parse(sheet).map_err(|_| malformed(sheet))?;
    let mut text = format!("posts {n}\n");
    for (a, b) in pairs(n) {
        if bit(edges, pair_index(a, b)) {
            text += &format!("add {a} {b}\n");
        }
    }
    Ok(format!("{text}list {k}\nend\n"))
}

#[cfg(test)]
mod tests {
    use super::{listed, of_schedule, of_survey, script};
    use crate::plain::calls::Plain;
    use crate::plain::paths;
    use crate::{schedule_text, survey_text};

    const PLAIN: Plain = Plain { name: "plain", scorer: paths::score };

    /// A text with a line for each of these posts, all heard by post 0.
    fn heard(posts: std::ops::RangeInclusive<usize>) -> String {
        posts.map(|post| format!("heard {post} 0 survey 1 strength 100\n")).collect()
    }

    /// The sheet of a survey's text, for n posts at a threshold of 100.
    fn surveyed(n: u64, text: &str) -> Result<Vec<u8>, String> {
        of_survey(&PLAIN, n, 100, &survey_text::pack(text).unwrap())
    }

    #[test]
    fn a_survey_makes_a_sheet() {
        assert_eq!(surveyed(4, &heard(1..=3)), Ok(vec![3, 0xD0]));
        assert_eq!(surveyed(4, "heard 0 1 survey 1 strength 99\nheard 3 2 survey 1 strength 100\n"), Ok(vec![3, 0x04]));
        assert_eq!(surveyed(1, ""), Ok(vec![0]));
        assert_eq!(surveyed(41, &heard(1..=40)).map(|sheet| sheet.len()), Ok(104));
    }

    #[test]
    fn a_survey_that_is_refused_says_what_was_expected() {
        let refused = |n: u64, text: &str, due: &str| assert_eq!(surveyed(n, text), Err(due.to_string()));
        refused(0, "", "refusal 1, expected a number of posts from 1 to 256, found 0");
        refused(257, &heard(1..=3), "refusal 1, expected a number of posts from 1 to 256, found 257");
        refused(u64::MAX, "", &format!("refusal 1, expected a number of posts from 1 to 256, found {}", u64::MAX));
        refused(3, &heard(1..=3), "refusal 4, expected posts below 3 in every record");
        refused(42, &heard(1..=41), "refusal 12, expected at most 40 links of a post, found more");
        let same = of_survey(&PLAIN, 4, 100, &[2, 2, 0, 1, 100]);
        assert_eq!(same, Err("refusal 5, expected two different posts in every record".to_string()));
        let cut = of_survey(&PLAIN, 4, 100, &[9, 9, 9, 9, 9, 9, 9]);
        assert_eq!(cut, Err("refusal 14, expected whole records of 5 bytes, found 7 bytes".to_string()));
    }

    #[test]
    fn a_schedule_makes_a_sheet_at_a_minute() {
        let text = "posts 4\nopen 0 1 from mon 10:00 to mon 12:00\nopen 2 3 from mon 11:00 to mon 13:00\n";
        let schedule = schedule_text::pack(text).unwrap();
        for (minute, links) in [(599, 0), (600, 0x80), (660, 0x84), (720, 0x04), (780, 0)] {
            assert_eq!(of_schedule(&PLAIN, minute, &schedule), Ok(vec![3, links]));
        }
    }

    #[test]
    fn a_schedule_that_is_refused_says_what_was_expected() {
        let refused = |schedule: &[u8], due: &str| assert_eq!(of_schedule(&PLAIN, 1, schedule), Err(due.to_string()));
        refused(&[], "refusal 9, expected a first byte n-1 and whole records of 6 bytes, found 0 bytes");
        refused(&[3, 0, 1], "refusal 9, expected a first byte n-1 and whole records of 6 bytes, found 3 bytes");
        refused(&[3, 0, 4, 0, 1, 0, 2], "refusal 4, expected posts below 4 in every record");
        refused(&[3, 2, 2, 0, 1, 0, 2], "refusal 5, expected two different posts in every record");
        refused(&[3, 0, 1, 0, 2, 0, 2], "refusal 13, expected a from minute below the to minute in every record");
        let crowded: Vec<u8> = [41].into_iter().chain((1..=41).flat_map(|q| [0, q, 0, 1, 0, 2])).collect();
        refused(&crowded, "refusal 12, expected at most 40 links of a post, found more");
    }

    #[test]
    fn a_sheet_is_a_script() {
        assert_eq!(script(2, &[3, 0xD0]), Ok("posts 4\nadd 0 1\nadd 0 2\nadd 0 3\nlist 2\nend\n".to_string()));
        let all = "posts 4\nadd 0 1\nadd 0 2\nadd 1 2\nadd 0 3\nadd 1 3\nadd 2 3\nlist 256\nend\n";
        assert_eq!(script(256, &[3, 0xFC]), Ok(all.to_string()));
        assert_eq!(script(1, &[0]), Ok("posts 1\nlist 1\nend\n".to_string()));
    }

    #[test]
    fn what_is_no_sheet_is_named() {
        let refused = |sheet: &[u8], due: &str| assert_eq!(script(1, sheet), Err(format!("refusal 9, expected {due}")));
        refused(&[], "a first byte n-1, found an empty input");
        refused(&[3], "2 bytes for 4 posts, found 1");
        refused(&[3, 0, 0], "2 bytes for 4 posts, found 3");
        refused(&[255, 0], "4081 bytes for 256 posts, found 2");
        refused(&[3, 0x02], "spare bits 0 at the end, found a 1");
    }

    #[test]
    fn a_list_has_from_1_to_256_posts() {
        assert_eq!((listed("1"), listed("256")), (Ok(1), Ok(256)));
        for word in ["0", "257", "-1", "all", "18446744073709551617"] {
            assert_eq!(listed(word), Err(format!("expected K from 1 to 256, found `{word}`")));
        }
    }
}
