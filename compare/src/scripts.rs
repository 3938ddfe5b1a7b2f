//! The comparison of a script program with the plain one, on random scripts, whole and damaged.

use crate::boards::node_count;
use crate::plain::packing::{bit, put_bit};
use crate::plain::replay::replay;
use crate::rng::Rng;
use crate::text::Packer;
use std::io::Write;
use std::process::{Command, Stdio};
use std::thread;

/// A whole script: nodes mostly of the board, one of them often, so that it reaches its limit; lists mostly within it.
fn whole(rng: &mut Rng) -> Vec<u8> {
    let n = node_count(rng);
    let busy = rng.below(n);
    let node = |rng: &mut Rng| match rng.below(100) {
        0..=19 => busy,
        20..=96 => rng.below(n),
        _ => rng.below(256),
    };
    let mut packer = Packer::default();
    packer.push(8, n - 1);
    let records = if rng.chance(70) { rng.between(0, 40) } else { rng.between(41, 1200) };
    for _ in 0..records {
        match rng.below(20) {
            0..=12 => packer.record(1, node(rng), node(rng)),
            13..=17 => packer.record(2, node(rng), node(rng)),
            18 => packer.record(3, rng.below(256), 0),
            _ => packer.record(3, rng.below(n.min(8)), 0),
        }
    }
    packer.record(0, 0, 0);
    packer.bytes
}

/// A script with something wrong, or merely another one.
fn damaged(rng: &mut Rng) -> Vec<u8> {
    let mut script = whole(rng);
    match rng.below(6) {
        0 => {
            let length = rng.below(script.len() + 1);
            script.truncate(length);
        }
        1 => {
            let more = rng.between(1, 3);
            script.extend(vec![0; more]);
        }
        2 => {
            let last = 8 * script.len() - 1;
            put_bit(&mut script, last, true);
        }
        3 => {
            let length = rng.below(60);
            script = rng.bytes(length);
        }
        _ => {
            let index = rng.below(8 * script.len());
            let value = !bit(&script, index);
            put_bit(&mut script, index, value);
        }
    }
    script
}

/// What the program prints for a script on its standard input.
fn printed(program: &str, script: &[u8]) -> Result<Vec<u8>, String> {
    let failed = |error: std::io::Error| format!("{program}: {error}");
    let mut child = Command::new(program).stdin(Stdio::piped()).stdout(Stdio::piped()).spawn().map_err(failed)?;
    let mut input = child.stdin.take().expect("standard input is piped");
    let script = script.to_vec();
    // a program may stop reading before the end of its input, so a failed write is none of ours
    let writer = thread::spawn(move || input.write_all(&script));
    let output = child.wait_with_output().map_err(failed)?;
    let _ = writer.join();
    Ok(output.stdout)
}

/// Compares `count` scripts from `seed`; answers how many ran to their end.
pub fn run(program: &str, seed: u64, count: usize) -> Result<usize, String> {
    let mut rng = Rng::new(seed);
    let mut ended = 0;
    for number in 1..=count {
        let script = if rng.chance(60) { whole(&mut rng) } else { damaged(&mut rng) };
        let due = replay(&script);
        let found = printed(program, &script)?;
        if found != due.as_bytes() {
            let found = String::from_utf8_lossy(&found).into_owned();
            let line = due.lines().zip(found.lines()).take_while(|(x, y)| x == y).count();
            let bytes: String = script.iter().take(64).map(|byte| format!(" {byte:02x}")).collect();
            return Err(format!(
                "DIFFERENCE at seed {seed}, script {number}, line {}: {:?} against {:?} of plain\n  {} bytes:{bytes}",
                line + 1,
                found.lines().nth(line).unwrap_or("(nothing)"),
                due.lines().nth(line).unwrap_or("(nothing)"),
                script.len()
            ));
        }
        ended += usize::from(due.ends_with("end\n"));
    }
    Ok(ended)
}
