//! The benchmark: each call on the same boards, the library beside the tuned version, medians and their ratio; then how
//! many nodes a list works out, searches beside those by blocks, and the calls of schedules and of surveys. Nothing is asserted of a time.

pub(crate) mod board;
pub(crate) mod cases;
mod files;
pub(crate) mod schedules;
pub(crate) mod searches;
pub(crate) mod surveys;
mod time;
mod worked;

use crate::calls::Calls;
use crate::rng::Rng;
use crate::tuned::BY_ROWS;
use board::Board;
use cases::{cases, Case};
use time::{time, time_whole, BATCH, ROUNDS};

const SIZES: [usize; 3] = [16, 64, 256];
const LINKS: [usize; 4] = [4, 16, 32, 40];
/// The sizes and the links of the clustered boards, and of the boards of which the work of a list is counted.
const DENSE: [(usize, usize); 4] = [(64, 32), (64, 40), (256, 32), (256, 40)];
/// The calls that are timed on clustered boards too.
const CLUSTERED: [&str; 6] = ["load", "preview of an add", "preview of a remove", "add", "remove", "nearest, far"];
/// The boards of a size and a number of links depend on it alone.
const SEED: u64 = 2005;

/// Makes a board of n nodes with about so many links at a node.
type Make = fn(&mut Rng, usize, usize) -> Board;

/// Every call on the board that is made for n nodes and `links` links.
fn cases_of(make: Make, n: usize, links: usize) -> Vec<Case> {
    let mut rng = Rng::new(SEED);
    let board = make(&mut rng, n, links);
    cases(&mut rng, board)
}

/// Prints the tables.
pub fn run(library: Option<&dyn Calls>) {
    let mut versions: Vec<&dyn Calls> = vec![&BY_ROWS];
    versions.extend(library);
    if library.is_none() {
        println!("the library is not linked: only the tuned version is timed");
    }
    println!("medians of {ROUNDS} rounds of {BATCH} calls, in nanoseconds a call");
    println!("{:<20}{:>5}{:>8}{:>12}{:>12}{:>8}", "call", "n", "links", "library", "tuned", "ratio");
    let mut summary = Vec::new();
    for n in SIZES {
        for links in LINKS.into_iter().filter(|&links| links < n) {
            for case in cases_of(Board::random, n, links) {
                let times = time(&case, &versions);
                print_line(case.name, n, links, &times);
                if case.name == "list 8, one edit" && n == 256 {
                    let whole = time_whole(&case.boards[0], &versions);
                    print_line("score every node", n, links, &whole);
                    summary.extend(gains(&versions, n, links, &whole, &times));
                }
            }
        }
    }
    println!("clustered boards: rows of seats, in which the neighbours of a node are mostly linked");
    for (n, links) in DENSE {
        for case in cases_of(Board::clustered, n, links) {
            if CLUSTERED.contains(&case.name) {
                print_line(case.name, n, links, &time(&case, &versions));
            }
        }
    }
    for line in summary {
        println!("{line}");
    }
    searches::run(library);
    worked::run(&versions);
    schedules::run(&versions);
    surveys::run(&versions);
}

/// A line for each version: how much faster the list is than scoring every node.
fn gains(versions: &[&dyn Calls], n: usize, links: usize, whole: &[f64], list: &[f64]) -> Vec<String> {
    let line = |(version, times): (&&dyn Calls, f64)| {
        let name = version.name();
        format!(
            "{name}: list 8 after one edit, n = {n}, {links} links: {times:.1} times faster than scoring every node"
        )
    };
    versions.iter().zip(whole.iter().zip(list).map(|(whole, list)| whole / list)).map(line).collect()
}

/// A line of a table; `size` is how many links a node has, or how many records a schedule or a survey.
fn print_line(name: &str, n: usize, size: usize, times: &[f64]) {
    let tuned = times[0];
    match times.get(1) {
        Some(library) => println!("{name:<20}{n:>5}{size:>8}{library:>12.0}{tuned:>12.0}{:>8.2}", library / tuned),
        None => println!("{name:<20}{n:>5}{size:>8}{:>12}{tuned:>12.0}{:>8}", "-", "-"),
    }
}
