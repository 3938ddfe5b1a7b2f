//! The comparison of the proved library with an independent plain Rust version, a benchmark of
//! both, and the tools that write and read scripts, schedules, surveys and sheets.

pub mod bench;
mod boards;
pub mod calls;
mod crowd;
mod damage;
pub mod ffi;
mod generate;
mod lines;
mod memory;
pub mod named;
mod nearest_check;
mod pinned_check;
pub mod plain;
mod preview_check;
mod reconciles;
mod record_damage;
mod record_pairs;
mod record_text;
mod rng;
pub mod run;
mod schedule_check;
mod schedule_damage;
pub mod schedule_text;
mod schedules;
pub mod scripts;
mod searches;
pub mod sheet_text;
mod sparse;
pub mod stack;
mod survey_damage;
pub mod survey_text;
mod surveys;
pub mod text;
pub mod tuned;
