//! The script program: from the bytes of a script to the lines that it prints.

use super::edit::{add, remove};
use super::list::list;
use super::packing::{edge_bytes, mark_bytes, scratch_bytes};
use super::paths;
use super::refusal::Refusal;
use super::script::{record, Record, MAX_BYTES, RECORD_BITS};
use super::state::State;
use std::fmt::Write;

fn number(answer: Result<(), Refusal>) -> u64 {
    answer.map_or_else(Refusal::number, |()| 0)
}

pub fn replay(script: &[u8]) -> String {
    let mut out = String::new();
    if script.is_empty() || script.len() > MAX_BYTES {
        return "bad\n".to_string();
    }
    let n = usize::from(script[0]) + 1;
    let (mut edges, mut figures, mut marks) = (vec![0; edge_bytes(n)], vec![0; n], vec![0; mark_bytes(n)]);
    writeln!(out, "posts {n}").unwrap();
    let mut at = 8;
    loop {
        let state = State { edges: &mut edges, figures: &mut figures, marks: &mut marks };
        match record(script, at) {
            Ok(Record::Add(a, b)) => {
                let refusal = number(add(state, a.into(), b.into()));
                writeln!(out, "add {a} {b} {refusal}").unwrap();
            }
            Ok(Record::Remove(a, b)) => {
                let refusal = number(remove(state, a.into(), b.into()));
                writeln!(out, "remove {a} {b} {refusal}").unwrap();
            }
            Ok(Record::List(k)) => {
                let mut entries = vec![0; 2 * k];
                let mut scratch = vec![0; scratch_bytes(n)];
                match list(state, &mut entries, &mut scratch, paths::score) {
                    Ok(recomputed) => {
                        writeln!(out, "head {k} 0 {recomputed}").unwrap();
                        for entry in entries.chunks(2) {
                            writeln!(out, "{} {}", entry[0], entry[1]).unwrap();
                        }
                    }
                    Err(refusal) => writeln!(out, "head {k} {} 0", refusal.number()).unwrap(),
                }
            }
            Ok(Record::End) => {
                out.push_str("end\n");
                return out;
            }
            Err(_) => {
                out.push_str("bad\n");
                return out;
            }
        }
        at += RECORD_BITS;
    }
}
