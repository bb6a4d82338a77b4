//! The proved simulator and the reference, run side by side: schedules, loads
//! and reports through the programs, raw calls through the library, the search
//! for newlines, and what each of them costs.
//!
//! Both sides render document 01. Where they differ, one of them is wrong; what
//! is found is saved: a schedule, which `--replay` shows again, or a call or
//! bytes to look at.
//!
//! The program `compare` compares: without words as the gate does, always the
//! same; with `--rounds N --seed S` for longer; with `--replay FILE` one
//! schedule. The program `bench`, built with `--release`, prints ratios of
//! speeds. Both need the proved programs and archives in the repository's
//! `target`, and `./fever compare` and `./fever bench` put them there first.

#![deny(missing_docs)]
#![forbid(unsafe_code)]

pub mod adversary;
pub mod by_generator;
pub mod by_library;
pub mod by_program;
pub mod by_search;
pub mod calls;
pub mod carry_counts;
pub mod clauses;
pub mod counts;
pub mod damage;
pub mod difference;
pub mod draws;
pub mod history;
pub mod kinds;
pub mod lent;
pub mod lies;
pub mod list;
pub mod load_counts;
pub mod measure;
pub mod near;
pub mod openings;
pub mod options;
pub mod pending;
pub mod program;
pub mod readers;
pub mod reference_calls;
pub mod report;
pub mod report_counts;
pub mod retell;
pub mod scene;
pub mod schedules;
pub mod search_counts;
pub mod shorten;
pub mod stored;
pub mod summary;
pub mod text;
pub mod trace;
pub mod traffic_counts;
pub mod turn_counts;
pub mod wild;
pub mod words;
