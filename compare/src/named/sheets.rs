//! The sheets that write makes, each loaded and written again.

use super::{all_links, board, spokes, Board};
use crate::calls::Calls;
use crate::memory::{Kind, Memory};

/// The link bytes of 42 posts where post 0 is linked to the posts 1 to 40: bits 0, 1, 3, 6, 10 and so on to 780.
pub const STAR_OF_40: [[u8; 12]; 9] = [
    [0xD2, 0x21, 0x04, 0x08, 0x08, 0x04, 0x01, 0x00, 0x20, 0x02, 0x00, 0x10],
    [0x00, 0x40, 0x00, 0x80, 0x00, 0x80, 0x00, 0x40, 0x00, 0x10, 0x00, 0x02],
    [0x00, 0x00, 0x20, 0x00, 0x01, 0x00, 0x00, 0x04, 0x00, 0x00, 0x08, 0x00],
    [0x00, 0x08, 0x00, 0x00, 0x04, 0x00, 0x00, 0x01, 0x00, 0x00, 0x00, 0x20],
    [0x00, 0x00, 0x02, 0x00, 0x00, 0x00, 0x10, 0x00, 0x00, 0x00, 0x40, 0x00],
    [0x00, 0x00, 0x80, 0x00, 0x00, 0x00, 0x80, 0x00, 0x00, 0x00, 0x40, 0x00],
    [0x00, 0x00, 0x10, 0x00, 0x00, 0x00, 0x02, 0x00, 0x00, 0x00, 0x00, 0x20],
    [0x00, 0x00, 0x00, 0x01, 0x00, 0x00, 0x00, 0x00, 0x04, 0x00, 0x00, 0x00],
    [0x00, 0x08, 0x00, 0x00, 0x00, 0x00, 0x00, 0x00, 0x00, 0x00, 0x00, 0x00],
];

/// A sheet of this length whose bytes are 0 but for these, each with its place.
pub fn sparse(length: usize, bytes: &[(usize, u8)]) -> Vec<u8> {
    let mut sheet = vec![0; length];
    bytes.iter().for_each(|&(place, byte)| sheet[place] = byte);
    sheet
}

/// n posts in a circle, each linked to the 20 on either side.
fn circle(version: &dyn Calls, n: usize) -> Board<'_> {
    let after = |p: usize| spokes(p, (1..=20).map(move |step| (p + step) % n));
    board(version, n, &(0..n).flat_map(after).collect::<Vec<_>>())
}

/// The sheet of that circle. In the order of their bits the pairs of a lower `high` come first, and among them those of
/// a lower `low`.
fn circle_sheet(n: usize) -> Vec<u8> {
    let distances = (1..n).flat_map(|high| (0..high).map(move |low| high - low));
    let bits: Vec<u8> = distances.map(|distance| u8::from(distance <= 20 || distance >= n - 20)).collect();
    let byte = |bits: &[u8]| bits.iter().fold(0, |byte, bit| byte << 1 | bit) << (8 - bits.len());
    [vec![(n - 1) as u8], bits.chunks(8).map(byte).collect()].concat()
}

/// A case's name, the sheet that is due, and the board.
type Case = (&'static str, fn() -> Vec<u8>, fn(&dyn Calls) -> Board<'_>);

const CASES: [Case; 19] = [
    ("one post is the byte 0", || vec![0], |version| board(version, 1, &[])),
    ("two posts that are not linked, 7 spare bits", || vec![1, 0b0000_0000], |version| board(version, 2, &[])),
    ("two posts that are linked, 7 spare bits", || vec![1, 0b1000_0000], |version| board(version, 2, &[(0, 1)])),
    ("three posts, 5 spare bits", || vec![2, 0b1010_0000], |version| board(version, 3, &[(0, 1), (1, 2)])),
    (
        "01's star of four posts, 2 spare bits",
        || vec![3, 0b1101_0000],
        |version| board(version, 4, &[(0, 1), (0, 2), (0, 3)]),
    ),
    ("all links of four posts", || vec![3, 0b1111_1100], |version| board(version, 4, &all_links(4))),
    (
        "five posts, 6 spare bits",
        || vec![4, 0b1000_0001, 0b0100_0000],
        |version| board(version, 5, &[(0, 1), (1, 4), (3, 4)]),
    ),
    (
        "six posts, 1 spare bit",
        || vec![5, 0b1000_0000, 0b1000_0010],
        |version| board(version, 6, &[(0, 1), (2, 4), (4, 5)]),
    ),
    (
        "seven posts, 3 spare bits",
        || vec![6, 0b0010_0000, 0b0000_0001, 0b0000_1000],
        |version| board(version, 7, &[(1, 2), (0, 6), (5, 6)]),
    ),
    (
        "eight posts, 4 spare bits",
        || vec![7, 0b0001_0000, 0b1000_0000, 0b0000_1000, 0b0001_0000],
        |version| board(version, 8, &[(0, 3), (2, 4), (5, 6), (6, 7)]),
    ),
    (
        "16 posts, no spare bits, the last two linked",
        || vec![15, 0x80, 0, 0, 0, 0x10, 0, 0, 0, 0, 0, 0, 0, 0, 0x40, 0x01],
        |version| board(version, 16, &[(0, 1), (7, 8), (0, 15), (14, 15)]),
    ),
    (
        "17 posts, no spare bits, all linked but the last two",
        || [vec![16], vec![0xFF; 16], vec![0xFE]].concat(),
        |version| board(version, 17, &all_links(17)[..135]),
    ),
    (
        "each of 41 posts has 40 links",
        || [vec![40], vec![0xFF; 102], vec![0xF0]].concat(),
        |version| board(version, 41, &all_links(41)),
    ),
    (
        "post 0 of 42 has 40 links",
        || [vec![41], STAR_OF_40.concat()].concat(),
        |version| board(version, 42, &spokes(0, 1..=40)),
    ),
    (
        "the last of 42 posts has 40 links",
        || [vec![41], vec![0; 102], vec![0x0F, 0xFF, 0xFF, 0xFF, 0xFF, 0xF0]].concat(),
        |version| board(version, 42, &spokes(41, 0..=39)),
    ),
    ("256 posts without links", || sparse(4_081, &[(0, 255)]), |version| board(version, 256, &[])),
    (
        "256 posts, no spare bits, the last two linked",
        || sparse(4_081, &[(0, 255), (1, 0x80), (1_032, 0x01), (4_049, 0x40), (4_080, 0x01)]),
        |version| board(version, 256, &[(0, 1), (127, 128), (0, 255), (254, 255)]),
    ),
    ("256 posts in a circle have 40 links each", || circle_sheet(256), |version| circle(version, 256)),
    ("255 posts in a circle have 40 links each, 7 spare bits", || circle_sheet(255), |version| circle(version, 255)),
];

/// Writes over other bytes; an error where that is refused, makes another sheet or alters anything else.
fn check_write(board: &mut Board, sheet: &[u8]) -> Result<(), String> {
    for other in [0xA5, 0x5A] {
        board.lent.snapshot = vec![other; sheet.len()];
        let due = Memory { snapshot: sheet.to_vec(), ..board.lent.clone() };
        let refusal = board.call(Kind::Write, 0, 0);
        if refusal != 0 {
            return Err(format!("write is refusal {refusal}"));
        }
        board.lent.difference(&due).map_or(Ok(()), Err)?;
    }
    Ok(())
}

/// Loads a sheet on a falsified board whose posts are all linked, and writes it again; an error where a call is refused,
/// the links are not the sheet's or the second sheet is another.
fn check_load(mut board: Board, sheet: &[u8]) -> Result<(), String> {
    board.falsify();
    board.lent.edges.fill(255);
    board.lent.snapshot = sheet.to_vec();
    let refusal = board.call(Kind::Load, 0, 0);
    if refusal != 0 {
        return Err(format!("load is refusal {refusal}"));
    }
    let due = Memory { edges: sheet[1..].to_vec(), ..board.lent.clone() };
    board.lent.difference(&due).map_or(Ok(()), Err)?;
    check_write(&mut board, sheet)
}

/// Runs every case on a version and prints its name.
pub fn run(version: &dyn Calls) -> Result<(), String> {
    for (name, sheet, case) in CASES {
        let sheet = sheet();
        let mut board = case(version);
        board.falsify();
        let fails = |how: &str, what: String| format!("case `{name}` on {}, {how}: {what}", version.name());
        check_write(&mut board, &sheet).map_err(|what| fails("written", what))?;
        check_load(Board::new(version, board.n), &sheet).map_err(|what| fails("loaded and written again", what))?;
        println!("case on {}: sheet: {name}: ok", version.name());
    }
    Ok(())
}
