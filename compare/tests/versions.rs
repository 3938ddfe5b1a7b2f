//! The versions of this package agree with each other, on the named cases and on random histories.

use compare::plain::calls::Plain;
use compare::plain::{derived, paths};
use compare::{
    named, run,
    tuned::{BY_BLOCKS, BY_ROWS},
};

#[test]
fn the_named_cases_hold_of_every_version() {
    named::run(&Plain { name: "plain (paths)", scorer: paths::score }).unwrap();
    named::run(&Plain { name: "plain (derived form)", scorer: derived::score }).unwrap();
    named::run(&BY_ROWS).unwrap();
    named::run(&BY_BLOCKS).unwrap();
}

#[test]
fn the_tuned_version_agrees_with_the_plain_one() {
    for version in [&BY_ROWS, &BY_BLOCKS] {
        run::run(version, 7, 3_000).unwrap_or_else(|difference| panic!("{difference}"));
    }
}
