//! The script format: a byte n−1, then records of 18 bits, packed, most significant first.

use super::packing::bit;

/// The most bytes of a script.
pub const MAX_BYTES: usize = 65_536;

/// The bits of a record: kind (2), a (8), b (8).
pub const RECORD_BITS: usize = 18;

#[derive(Clone, Copy, Debug, PartialEq, Eq)]
pub enum Record {
    Add(u8, u8),
    Remove(u8, u8),
    /// The first k nodes, k from 1 to 256.
    List(usize),
    End,
}

/// Why there is no record at a position.
#[derive(Clone, Copy, Debug, PartialEq, Eq)]
pub enum Malformed {
    TooFewBits,
    ListWithB,
    EndWithNumbers,
    EightBitsAfterEnd,
    OneAfterEnd,
}

/// The record at bit `at` of the whole script, its first byte included.
pub fn record(script: &[u8], at: usize) -> Result<Record, Malformed> {
    let end = 8 * script.len();
    if at + RECORD_BITS > end {
        return Err(Malformed::TooFewBits);
    }
    let field = |from: usize, width: usize| {
        (from..from + width).fold(0_usize, |value, i| 2 * value + usize::from(bit(script, i)))
    };
    let kind = field(at, 2);
    let a = field(at + 2, 8);
    let b = field(at + 10, 8);
    let rest = at + RECORD_BITS..end;
    match kind {
        1 => Ok(Record::Add(a as u8, b as u8)),
        2 => Ok(Record::Remove(a as u8, b as u8)),
        3 if b != 0 => Err(Malformed::ListWithB),
        3 => Ok(Record::List(a + 1)),
        _ if a != 0 || b != 0 => Err(Malformed::EndWithNumbers),
        _ if rest.len() >= 8 => Err(Malformed::EightBitsAfterEnd),
        _ if rest.into_iter().any(|i| bit(script, i)) => Err(Malformed::OneAfterEnd),
        _ => Ok(Record::End),
    }
}
