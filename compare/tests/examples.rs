//! The texts of the examples folder: a house as a script, a week as a schedule, a walk as a survey.

use compare::calls::Calls;
use compare::plain::calls::Plain;
use compare::plain::graph::Graph;
use compare::plain::packing::edge_bytes;
use compare::plain::paths;
use compare::plain::replay::replay;
use compare::{schedule_text, sheet_text, survey_text, text};
use std::fs;

const PLAIN: Plain = Plain { name: "plain", scorer: paths::score };
const POSTS: usize = 16;
const NONE: u64 = 65_536;
const NO_RECORD: u64 = 1 << 63;
/// The strength from which the house of the walk links two posts.
const THRESHOLD: u64 = 120;

/// The links of the walk, found by hand, in bit order.
#[rustfmt::skip]
const LINKS: [(usize, usize); 20] = [
    (0, 1), (0, 2), (1, 2), (0, 3), (1, 3), (1, 4), (0, 5), (1, 5), (4, 5), (5, 6),
    (6, 7), (7, 8), (2, 9), (9, 10), (3, 11), (11, 12), (4, 13), (7, 13), (13, 14), (14, 15),
];

/// The list of five on these links, worked out by hand. Of its pairs of neighbours that are not linked, post 1 has two
/// with no common neighbour and four with one, 5 has three and one, 7 and 13 have three, 2 has two: 4, 7/2, 3, 3 and 2.
/// Post 0 is worked out too: its ceiling is 3 and its score 3/2.
const LISTED: &str = "head 5 0 6
1 21371725828252800
5 18700260099721200
7 16028794371189600
13 16028794371189600
2 10685862914126400
end
";

fn example(name: &str) -> String {
    let path = format!("{}/../examples/{name}", env!("CARGO_MANIFEST_DIR"));
    fs::read_to_string(&path).unwrap_or_else(|error| panic!("{path}: {error}"))
}

fn week() -> Vec<u8> {
    schedule_text::pack(&example("week.txt")).unwrap()
}

/// A minute of the tour week; monday is day 0.
fn at(day: u16, hours: u16, minutes: u16) -> u16 {
    1_440 * day + 60 * hours + minutes
}

/// The links of the week at a minute.
fn graph(minute: u16) -> Graph {
    let mut snapshot = vec![255; 1 + edge_bytes(POSTS)];
    assert_eq!(PLAIN.schedule_write(&week(), minute, &mut snapshot), 0);
    Graph::read(POSTS, &snapshot[1..])
}

fn next(minute: u16) -> u64 {
    PLAIN.schedule_next(&week(), minute)
}

fn walk() -> Vec<u8> {
    survey_text::pack(&example("walk.txt")).unwrap()
}

/// The sheet of the walk at a threshold.
fn walk_sheet(threshold: u64) -> Vec<u8> {
    sheet_text::of_survey(&PLAIN, POSTS as u64, threshold, &walk()).unwrap()
}

#[test]
fn the_house_prints_what_is_stored() {
    assert_eq!(replay(&text::pack(&example("house.txt")).unwrap()), example("house.out"));
}

#[test]
fn the_week_unpacks_to_the_same_records() {
    let (text, done) = schedule_text::unpack(&week());
    assert_eq!((done, schedule_text::pack(&text)), (Ok(()), Ok(week())));
}

#[test]
fn no_minute_of_the_week_is_crowded_and_its_end_is_empty() {
    for minute in (0..10_080).step_by(5) {
        assert!(!graph(minute).any_crowded());
    }
    assert_eq!(graph(10_080), Graph::empty(POSTS));
    assert_eq!(next(10_080), NONE);
}

#[test]
fn the_side_boxes_are_closed_at_matinees() {
    for day in [2, 5] {
        for (a, b) in [(2, 9), (9, 10), (3, 11), (11, 12)] {
            assert!(!graph(at(day, 14, 30)).has(a, b));
            assert!(graph(at(day, 20, 0)).has(a, b));
        }
        assert!(graph(at(day, 14, 30)).has(4, 13));
    }
}

#[test]
fn the_fire_doors_cut_a_link_while_the_curtain_is_up() {
    let open = [(18, 29, false), (18, 30, true), (19, 29, true), (19, 30, false), (20, 50, true), (21, 5, false)];
    for (hours, minutes, due) in open {
        assert_eq!(graph(at(1, hours, minutes)).has(8, 15), due);
    }
}

#[test]
fn the_next_changes_of_the_week() {
    let due = [
        (at(0, 0, 0), at(0, 9, 0)),     // the fit-up begins
        (at(0, 9, 0), at(0, 11, 0)),    // the projector
        (at(0, 14, 0), at(1, 18, 30)),  // the stalls are rigged, then nothing until the first evening
        (at(1, 18, 30), at(1, 19, 30)), // the curtain rises
        (at(2, 13, 30), at(2, 14, 0)),  // the matinee's
        (at(2, 16, 40), at(2, 17, 0)),  // the matinee ends
        (at(3, 23, 0), at(4, 18, 30)),  // nothing from thursday's end to friday's doors
        (at(5, 16, 40), at(5, 18, 30)), // on saturday the circle and the doors stay open between the performances
        (at(5, 23, 30), at(5, 24, 0)),  // the doors to the foyer
        (at(6, 12, 0), at(6, 14, 0)),   // the get-out ends
        (at(6, 14, 0), at(6, 24, 0)),   // only the foyer repeater is left
    ];
    for (minute, change) in due {
        assert_eq!(next(minute), u64::from(change), "after minute {minute}");
    }
    assert_eq!(next(at(6, 24, 0)), NONE);
}

#[test]
fn the_walk_unpacks_to_the_same_records() {
    let (text, done) = survey_text::unpack(&walk());
    assert_eq!((done, survey_text::pack(&text)), (Ok(()), Ok(walk())));
}

#[test]
fn the_latest_measurements_of_the_walk_count() {
    let due = [
        (0, 1, 0, 230),    // measured once
        (14, 15, 21, 120), // measured once, just enough
        (2, 3, 23, 60),    // the set between the wings
        (0, 4, 24, 115),   // the projector hangs further back
        (3, 11, 28, 138),  // twice on the second walk
        (10, 13, 29, 105), // better, still too weak
        (0, 5, 30, 120),   // weaker, just enough
        (5, 7, 31, 95),    // a page of the first walk came after it
        (6, 8, 32, 119),   // just too weak
        (8, 15, 33, 40),   // the fire doors
        (7, 13, 34, 128),  // not tried before
        (11, 12, 36, 190), // a page of the second walk, which the third passed by
    ];
    for (a, b, position, strength) in due {
        for (x, y) in [(a, b), (b, a)] {
            assert_eq!(PLAIN.survey_position(&walk(), POSTS as u64, x, y), position, "{x} and {y}");
        }
        let linked = |threshold| Graph::read(POSTS, &walk_sheet(threshold)[1..]).has(a as usize, b as usize);
        assert!(linked(strength) && !linked(strength + 1), "{a} and {b}");
    }
    assert_eq!(PLAIN.survey_position(&walk(), POSTS as u64, 9, 11), NO_RECORD);
}

#[test]
fn the_walk_has_these_links() {
    let graph = Graph::read(POSTS, &walk_sheet(THRESHOLD)[1..]);
    for b in 0..POSTS {
        for a in 0..b {
            assert_eq!(graph.has(a, b), LINKS.contains(&(a, b)), "{a} and {b}");
        }
    }
}

#[test]
fn the_walk_is_listed() {
    let script = sheet_text::script(5, &walk_sheet(THRESHOLD)).unwrap();
    let adds: String = LINKS.iter().map(|(a, b)| format!("add {a} {b} 0\n")).collect();
    let printed = replay(&text::pack(&script).unwrap());
    assert_eq!(printed, format!("posts {POSTS}\n{adds}{LISTED}"));
    assert_eq!(printed, example("walk.out"));
}
