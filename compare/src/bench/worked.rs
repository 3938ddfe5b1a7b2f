//! How many nodes a list of 8 works out after a load and after one edit, each version from its own
//! calls alone, and the time of a load and that list.

use super::board::Board;
use super::cases::Case;
use super::time::{time, BATCH};
use super::{Make, DENSE, SEED};
use crate::calls::Calls;
use crate::plain::graph::Graph;
use crate::plain::limits::MAX_DEGREE;
use crate::rng::Rng;

/// The boards over which the work is averaged.
const BOARDS: usize = 8;

const MAKERS: [(&str, Make); 2] = [("random", Board::random), ("clustered", Board::clustered)];

/// Prints the table.
pub fn run(versions: &[&dyn Calls]) {
    println!("nodes that a list of 8 works out, averages of {BOARDS} boards, each wholly settled before its edit,");
    println!("and the time of a load and that list, medians in nanoseconds");
    let titles = ["after a load", "after a removal", "an addition"];
    println!("{:<21}{:>15}{:>17}{:>17}{:>30}", "", titles[0], titles[1], titles[2], "load and list");
    print!("{:<10}{:>4}{:>7}", "board", "n", "links");
    (0..3).for_each(|_| print!("{:>9}{:>8}", "library", "tuned"));
    println!("{:>10}{:>10}{:>7}", "library", "tuned", "ratio");
    for (n, links) in DENSE {
        for (name, make) in MAKERS {
            print!("{name:<10}{n:>4}{links:>7}");
            print_line(versions, &boards(make, n, links));
        }
    }
}

/// A board, a joined pair to remove, and an absent pair to add, where one is within the limit.
struct Sample {
    board: Board,
    joined: Option<(usize, usize)>,
    absent: Option<(usize, usize)>,
}

fn boards(make: Make, n: usize, links: usize) -> Vec<Sample> {
    let mut rng = Rng::new(SEED);
    let mut sample = || {
        let board = make(&mut rng, n, links);
        let graph = Graph::read(n, &board.edges);
        let mut absent = board.pairs(false);
        absent.retain(|&(a, b)| graph.degree(a) < MAX_DEGREE && graph.degree(b) < MAX_DEGREE);
        let mut one = |pairs: Vec<(usize, usize)>| (!pairs.is_empty()).then(|| rng.pick(&pairs));
        Sample { joined: one(board.pairs(true)), absent: one(absent), board }
    };
    (0..BOARDS).map(|_| sample()).collect()
}

fn load_and_list(board: &mut Board, version: &dyn Calls) -> u64 {
    board.load(version);
    board.list(version)
}

/// What a list of 8 works out after an edit of this pair, every node settled before it.
fn after_edit(
    board: &Board,
    version: &dyn Calls,
    (a, b): (usize, usize),
    edit: fn(&mut Board, &dyn Calls) -> u64,
) -> u64 {
    let mut board = Board { a: a as u64, b: b as u64, entries: vec![0; 2 * board.n], ..board.clone() };
    load_and_list(&mut board, version);
    board.pour();
    assert_eq!(edit(&mut board, version), 0, "the edit is accepted");
    board.pour_back();
    board.entries = vec![0; 16];
    board.list(version)
}

/// The average with one decimal, or a dash where there is nothing.
fn average(counts: Vec<u64>) -> String {
    if counts.is_empty() {
        return "-".to_string();
    }
    format!("{:.1}", counts.iter().sum::<u64>() as f64 / counts.len() as f64)
}

/// The three averages of a version.
fn averages(version: &dyn Calls, samples: &[Sample]) -> [String; 3] {
    let removed = |sample: &Sample| sample.joined.map(|pair| after_edit(&sample.board, version, pair, Board::remove));
    let added = |sample: &Sample| sample.absent.map(|pair| after_edit(&sample.board, version, pair, Board::add));
    [
        average(samples.iter().map(|sample| load_and_list(&mut sample.board.clone(), version)).collect()),
        average(samples.iter().filter_map(removed).collect()),
        average(samples.iter().filter_map(added).collect()),
    ]
}

fn print_line(versions: &[&dyn Calls], samples: &[Sample]) {
    let boards = (0..BATCH).map(|i| samples[i % BOARDS].board.clone()).collect();
    let times = time(&Case { name: "load and list", boards, call: load_and_list }, versions);
    let tuned = averages(versions[0], samples);
    let dash = ["-"; 3].map(str::to_string);
    let library = versions.get(1).map_or(dash, |version| averages(*version, samples));
    for (library, tuned) in library.iter().zip(&tuned) {
        print!("{library:>9}{tuned:>8}");
    }
    match times.get(1) {
        Some(library) => println!("{library:>10.0}{:>10.0}{:>7.2}", times[0], library / times[0]),
        None => println!("{:>10}{:>10.0}{:>7}", "-", times[0], "-"),
    }
}
