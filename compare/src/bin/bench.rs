//! What the proved simulator costs beside the reference, as a table of ratios.

#![forbid(unsafe_code)]

use compare::measure::{calls, lines, loads, programs, search, ticks, traffic, Row};
use std::process::ExitCode;

fn main() -> ExitCode {
    println!("speed of the proved code over the reference's: 1.00 is equal, more is faster");
    println!("(rows with 'beside' say what the proved code is set beside instead)");
    println!("(rows with 'cost' set one side beside itself: 1.00 is no growth)");
    for rows in [programs::rows, loads::rows] {
        match rows() {
            Ok(rows) => print(&rows),
            Err(error) => {
                eprintln!("{error}");
                return ExitCode::FAILURE;
            }
        }
    }
    print(&search::rows());
    print(&lines::rows());
    print(&calls::rows());
    print(&ticks::rows());
    print(&traffic::rows());
    ExitCode::SUCCESS
}

fn print(rows: &[Row]) {
    for row in rows {
        println!("{row}");
    }
}
