//! The records of a schedule or of a survey as lines of text, and errors that name a record.

use crate::text::Unpacked;

/// What the library expects of every record.
pub const TWO_POSTS: &str = "two different posts";

/// What is wrong with a record: what was expected, and the refusal.
pub type Fault = (String, u64);

/// Where the records of a file are, and how an error names them.
pub struct Layout {
    /// The byte of the first record.
    pub start: usize,
    /// The bytes of a record.
    pub size: usize,
    /// The number of the first record.
    pub first: usize,
    /// What an error says of a record that is not whole, before what was expected.
    pub cut: &'static str,
}

/// Prints a line for each whole record of a file, also where the library would refuse it. The errors, a line for each,
/// name these records, with the refusal and what was expected, and a last one that is not whole.
pub fn print(file: &[u8], layout: &Layout, line: impl Fn(&[u8]) -> (String, Option<Fault>)) -> Unpacked {
    let mut text = String::new();
    let mut errors = Vec::new();
    for (place, bytes) in file[layout.start..].chunks(layout.size).enumerate() {
        let name = format!("record {} at byte {}", layout.first + place, layout.start + layout.size * place);
        if bytes.len() < layout.size {
            let (cut, size, found) = (layout.cut, layout.size, bytes.len());
            errors.push(format!("{name}: {cut}expected a record of {size} bytes, found {found}"));
            break;
        }
        let (line, fault) = line(bytes);
        if let Some((expected, refusal)) = fault {
            errors.push(format!("{name}: refusal {refusal}, expected {expected}, found `{line}`"));
        }
        text += &format!("{line}\n");
    }
    (text, if errors.is_empty() { Ok(()) } else { Err(errors.join("\n")) })
}
