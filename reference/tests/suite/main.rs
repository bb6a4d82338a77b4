//! The tests of the reference, one subject a module.

mod carrying;
mod checks;
mod common;
mod generator;
mod limits;
mod lines;
mod loads;
mod near_misses;
mod newlines;
mod pieces;
mod printout;
mod reports;
mod rules;
mod schedules;
mod settings;
mod stream;
mod traffic;
mod turns;
mod watching;
mod wild;
