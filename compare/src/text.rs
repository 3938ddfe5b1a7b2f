//! Scripts as text: a line for each record, packed into a script and printed from one.
//!
//! ```text
//! posts 4          # the first line; n from 1 to 256
//! add 0 1          # nodes from 0 to 255
//! remove 0 1
//! list 2           # k from 1 to 256
//! end              # the last line
//! ```
//! Blank lines and what follows a `#` are ignored.

use crate::lines::{ended, lines, numbers, posts, Line};
use crate::plain::packing::{bytes_for, put_bit};
use crate::plain::script::{record, Malformed, Record, MAX_BYTES, RECORD_BITS};

/// What a line after the first may be.
const RECORDS: &str = "`add A B`, `remove A B`, `list K` or `end`";

/// Bits appended to bytes, most significant first.
#[derive(Default)]
pub struct Packer {
    pub bytes: Vec<u8>,
    used: usize,
}

impl Packer {
    pub fn push(&mut self, width: usize, value: usize) {
        for place in (0..width).rev() {
            self.bytes.resize(bytes_for(self.used + 1), 0);
            put_bit(&mut self.bytes, self.used, value >> place & 1 == 1);
            self.used += 1;
        }
    }

    pub fn record(&mut self, kind: usize, a: usize, b: usize) {
        self.push(2, kind);
        self.push(8, a);
        self.push(8, b);
    }
}

/// The text of some bytes, and what is wrong with them.
pub type Unpacked = (String, Result<(), String>);

/// Packs a line after the first into a record.
fn pack_line(packer: &mut Packer, line: &Line) -> Result<(), String> {
    let (word, rest) = (line.words[0], &line.words[1..]);
    match word {
        "add" | "remove" => match numbers(rest, 0, 255).as_deref() {
            Some(&[a, b]) => packer.record(if word == "add" { 1 } else { 2 }, a, b),
            _ => return line.wrong(&format!("`{word} A B` with A and B from 0 to 255")),
        },
        "list" => match numbers(rest, 1, 256).as_deref() {
            Some(&[k]) => packer.record(3, k - 1, 0),
            _ => return line.wrong("`list K` with K from 1 to 256"),
        },
        "end" if rest.is_empty() => packer.record(0, 0, 0),
        _ => return line.wrong(RECORDS),
    }
    if packer.bytes.len() > MAX_BYTES {
        return line.wrong(&format!("a script of at most {MAX_BYTES} bytes"));
    }
    Ok(())
}

/// Packs a text into a script. An error names the line and what was expected.
pub fn pack(text: &str) -> Result<Vec<u8>, String> {
    let mut lines = lines(text);
    let mut packer = Packer::default();
    packer.push(8, posts(text, lines.next())? - 1);
    while let Some(line) = lines.next() {
        pack_line(&mut packer, &line)?;
        if line.words[0] == "end" {
            return lines.next().map_or(Ok(packer.bytes), |line| line.wrong("nothing after `end`"));
        }
    }
    ended(text, RECORDS)
}

/// Prints a script as text. An error names the record and what was expected; the lines of the
/// records before it stand.
pub fn unpack(script: &[u8]) -> Unpacked {
    if script.len() > MAX_BYTES {
        let error = format!("expected at most {MAX_BYTES} bytes, found {}", script.len());
        return (String::new(), Err(error));
    }
    let Some(first) = script.first() else {
        return (String::new(), Err("expected a first byte n-1, found an empty input".to_string()));
    };
    let mut text = format!("posts {}\n", u32::from(*first) + 1);
    for number in 0.. {
        let at = 8 + RECORD_BITS * number;
        match record(script, at) {
            Ok(Record::Add(a, b)) => text += &format!("add {a} {b}\n"),
            Ok(Record::Remove(a, b)) => text += &format!("remove {a} {b}\n"),
            Ok(Record::List(k)) => text += &format!("list {k}\n"),
            Ok(Record::End) => {
                text += "end\n";
                break;
            }
            Err(why) => {
                let found = match why {
                    Malformed::TooFewBits => "a record of 18 bits, found fewer bits to the end of input",
                    Malformed::ListWithB => "b = 0 in a list, found another b",
                    Malformed::EndWithNumbers => "a = b = 0 in an end, found another number",
                    Malformed::EightBitsAfterEnd => "fewer than 8 bits after the end, found 8 or more",
                    Malformed::OneAfterEnd => "bits 0 after the end, found a 1",
                };
                return (text, Err(format!("record {} at bit {at}: expected {found}", number + 1)));
            }
        }
    }
    (text, Ok(()))
}

#[cfg(test)]
mod tests {
    use super::{pack, unpack};

    const TEXT: &str = "posts 4\nadd 0 1\nadd 0 2\nadd 0 3\nlist 2\nend\n";
    const SCRIPT: [u8; 13] = [0x03, 0x40, 0, 0x50, 0, 0x24, 0, 0x0F, 0x01, 0, 0, 0, 0];

    #[test]
    fn the_listing_packs_and_unpacks() {
        assert_eq!(pack(TEXT).as_deref(), Ok(&SCRIPT[..]));
        assert_eq!(unpack(&SCRIPT), (TEXT.to_string(), Ok(())));
    }

    #[test]
    fn blank_lines_and_comments_are_ignored() {
        assert_eq!(pack("# a house\n\nposts 1 # n\n  end\n"), Ok(vec![0, 0, 0, 0]));
    }

    #[test]
    fn errors_name_the_line_and_what_was_expected() {
        let error = |text: &str| pack(text).unwrap_err();
        assert_eq!(error(""), "line 1: expected `posts N` with N from 1 to 256, found the end of the text");
        assert_eq!(error("posts 257\n"), "line 1: expected `posts N` with N from 1 to 256, found `posts 257`");
        assert_eq!(error("posts 2\nadd 0\n"), "line 2: expected `add A B` with A and B from 0 to 255, found `add 0`");
        assert_eq!(error("posts 2\nlist 0\n"), "line 2: expected `list K` with K from 1 to 256, found `list 0`");
        assert_eq!(
            error("posts 2\n\njoin 0 1\n"),
            "line 3: expected `add A B`, `remove A B`, `list K` or `end`, found `join 0 1`"
        );
        assert_eq!(error("posts 2\nend\nadd 0 1\n"), "line 3: expected nothing after `end`, found `add 0 1`");
        assert!(error("posts 2\nadd 0 1\n").starts_with("line 3: expected"));
    }

    #[test]
    fn malformed_scripts_are_named() {
        let (text, error) = unpack(&SCRIPT[..12]);
        assert_eq!(text, TEXT.trim_end_matches("end\n"));
        assert_eq!(
            error.unwrap_err(),
            "record 5 at bit 80: expected a record of 18 bits, found fewer bits to the end of input"
        );
        assert!(unpack(&[]).1.is_err());
        assert!(unpack(&[0; 65_537]).1.is_err());
    }
}
