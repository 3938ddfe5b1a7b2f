//! The command line.

use compare::calls::Calls;
use compare::plain::replay::replay;
use compare::{bench, ffi, named, run, schedule_text, scripts, sheet_text, stack, survey_text, text, tuned};
use std::env;
use std::fs::File;
use std::io::{self, Read, Write};
use std::process::ExitCode;
use std::time::{Instant, SystemTime, UNIX_EPOCH};

const USAGE: &str = "usage:
  compare compare [SEED [CALLS]]        the library against the plain version; SEED may be `random`
  compare compare-tuned [SEED [CALLS]]  the tuned version against the plain version
  compare compare-replay PROGRAM [SEED [SCRIPTS]]
                                        a script program against the plain one, on random scripts
  compare bench                         tables of times and of the work of a list, the library
                                        beside the tuned version
  compare stack                         a table of the bytes of stack that each call of the library
                                        needs, by n
  compare pack [FILE]                   a text to a script; reads standard input without FILE
  compare unpack [FILE]                 a script to a text
  compare pack-schedule [FILE]          a text of opening hours to a schedule
  compare unpack-schedule [FILE]        a schedule to a text
  compare pack-survey [FILE]            a text of what was heard to a survey
  compare unpack-survey [FILE]          a survey to a text
  compare survey-sheet N THRESHOLD [FILE]
                                        the sheet of a survey for N posts, by the library
  compare schedule-sheet MINUTE [FILE]  the sheet of a schedule at a minute, by the library; MINUTE
                                        is a number, or a day and a time such as `wed 14:30`
  compare sheet-script K [FILE]         a sheet to the text of a script that lists K posts
  compare replay-plain [FILE]           what the script program prints for a script";

const DEFAULT_SEED: u64 = 1;
const DEFAULT_CALLS: usize = 60_000;
const DEFAULT_SCRIPTS: usize = 500;

fn main() -> ExitCode {
    let words: Vec<String> = env::args().skip(1).collect();
    let words: Vec<&str> = words.iter().map(String::as_str).collect();
    let done = match words.split_first() {
        Some((&"compare", rest)) => library().and_then(|version| comparison(version, rest)),
        Some((&"compare-tuned", rest)) => comparison(&tuned::BY_ROWS, rest),
        Some((&"compare-replay", [program, rest @ ..])) => scripts_comparison(program, rest),
        Some((&"bench", [])) => {
            bench::run(ffi::linked());
            Ok(())
        }
        Some((&"stack", [])) => stack_table(),
        Some((&"pack", rest)) => pack(rest, text::pack),
        Some((&"unpack", rest)) => unpack(rest, text::unpack),
        Some((&"pack-schedule", rest)) => pack(rest, schedule_text::pack),
        Some((&"unpack-schedule", rest)) => unpack(rest, schedule_text::unpack),
        Some((&"pack-survey", rest)) => pack(rest, survey_text::pack),
        Some((&"unpack-survey", rest)) => unpack(rest, survey_text::unpack),
        Some((&"survey-sheet", [n, threshold, rest @ ..])) => survey_sheet(n, threshold, rest),
        Some((&"schedule-sheet", rest @ [_, ..])) => schedule_sheet(rest),
        Some((&"sheet-script", [k, rest @ ..])) => sheet_script(k, rest),
        Some((&"replay-plain", rest)) => input(rest).and_then(|script| print(replay(&script).as_bytes())),
        _ => Err(USAGE.to_string()),
    };
    match done {
        Ok(()) => ExitCode::SUCCESS,
        Err(message) => {
            eprintln!("{message}");
            ExitCode::FAILURE
        }
    }
}

fn library() -> Result<&'static dyn Calls, String> {
    linked(ffi::linked())
}

/// What is there where the library is linked.
fn linked(version: Option<&'static dyn Calls>) -> Result<&'static dyn Calls, String> {
    version.ok_or_else(|| {
        "the library is not linked: run tools/build, and build again".to_string()
    })
}

fn number(word: &str) -> Result<u64, String> {
    word.parse().map_err(|_| format!("expected a number, found `{word}`\n{USAGE}"))
}

/// The seed and the number of things to compare that the words give.
fn seed_and_count(words: &[&str], default_count: usize) -> Result<(u64, usize), String> {
    let seed = match words.first() {
        Some(&"random") => SystemTime::now().duration_since(UNIX_EPOCH).map_or(0, |past| past.as_nanos() as u64),
        Some(word) => number(word)?,
        None => DEFAULT_SEED,
    };
    let count = words.get(1).map_or(Ok(default_count), |word| number(word).map(|count| count as usize))?;
    Ok((seed, count))
}

/// The named cases, then random histories.
fn comparison(version: &dyn Calls, words: &[&str]) -> Result<(), String> {
    let (seed, calls) = seed_and_count(words, DEFAULT_CALLS)?;
    println!("seed {seed}, {calls} calls, {} against plain", version.name());
    named::run(version)?;
    let start = Instant::now();
    let tally = run::run(version, seed, calls)?;
    println!("{}", tally.table());
    println!(
        "{} calls agree in every answer and every lent byte: {} histories and {} single calls, {:.1} s",
        tally.calls,
        tally.histories,
        tally.singles,
        start.elapsed().as_secs_f64()
    );
    Ok(())
}

/// The stack that the library's calls need.
fn stack_table() -> Result<(), String> {
    stack::run(library()?, linked(ffi::empty())?)
}

/// Random scripts, whole and damaged.
fn scripts_comparison(program: &str, words: &[&str]) -> Result<(), String> {
    let (seed, count) = seed_and_count(words, DEFAULT_SCRIPTS)?;
    println!("seed {seed}, {count} scripts, {program} against plain");
    let ended = scripts::run(program, seed, count)?;
    println!("{count} scripts print the same: {ended} to their end, {} malformed", count - ended);
    Ok(())
}

/// The bytes of the named file, or of standard input.
fn input(words: &[&str]) -> Result<Vec<u8>, String> {
    let mut bytes = Vec::new();
    match words {
        [] => io::stdin().read_to_end(&mut bytes).map_err(|error| format!("standard input: {error}"))?,
        [path] => File::open(path)
            .and_then(|mut file| file.read_to_end(&mut bytes))
            .map_err(|error| format!("{path}: {error}"))?,
        _ => return Err(USAGE.to_string()),
    };
    Ok(bytes)
}

fn print(bytes: &[u8]) -> Result<(), String> {
    io::stdout().write_all(bytes).map_err(|error| format!("standard output: {error}"))
}

/// A message with the name of the file that it is about.
fn named_input(words: &[&str], message: String) -> String {
    format!("{}: {message}", words.first().unwrap_or(&"standard input"))
}

/// Prints what is made of the input's bytes.
fn convert(words: &[&str], made: impl FnOnce(&[u8]) -> Result<Vec<u8>, String>) -> Result<(), String> {
    let made = made(&input(words)?).map_err(|message| named_input(words, message))?;
    print(&made)
}

/// The bytes that a packer makes of a text.
fn pack(words: &[&str], packer: fn(&str) -> Result<Vec<u8>, String>) -> Result<(), String> {
    convert(words, |bytes| packer(std::str::from_utf8(bytes).map_err(|_| "expected text in UTF-8")?))
}

/// The sheet of a survey, by the library.
fn survey_sheet(n: &str, threshold: &str, words: &[&str]) -> Result<(), String> {
    let (version, n, threshold) = (library()?, number(n)?, number(threshold)?);
    convert(words, |survey| sheet_text::of_survey(version, n, threshold, survey))
}

/// The sheet of a schedule at the minute with which the words begin, by the library.
fn schedule_sheet(words: &[&str]) -> Result<(), String> {
    let version = library()?;
    let (minute, words) = schedule_text::leading_minute(words)?;
    convert(words, |schedule| sheet_text::of_schedule(version, minute, schedule))
}

/// The script's text of a sheet.
fn sheet_script(k: &str, words: &[&str]) -> Result<(), String> {
    let k = sheet_text::listed(k)?;
    convert(words, |sheet| sheet_text::script(k, sheet).map(String::into_bytes))
}

/// The text that an unpacker makes of bytes, and its errors.
fn unpack(words: &[&str], unpacker: fn(&[u8]) -> text::Unpacked) -> Result<(), String> {
    let (text, done) = unpacker(&input(words)?);
    print(text.as_bytes())?;
    done.map_err(|message| named_input(words, message))
}
