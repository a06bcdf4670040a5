//! Prints how long the proved library, the independent comparer and a solver take for the same
//! work, in one run. The ratios are what to look at: the times depend on the machine, the ratios
//! hardly do.

mod child;
mod comparing;
mod families;
mod inputs;
mod judging;
mod nodes;
mod reading;
mod rows;
mod solving;
mod summary;
mod table;
mod texts;
mod timing;

use std::process::ExitCode;

/// Prints all tables, or with the word `solver` the last one alone.
fn main() -> ExitCode {
    let arguments: Vec<String> = std::env::args().skip(1).collect();
    match arguments.first().map(String::as_str) {
        Some("compare") => {
            child::run(&arguments[1..]);
            ExitCode::SUCCESS
        }
        Some("solver") => beside_solver(),
        _ => {
            beside_independent();
            beside_solver()
        }
    }
}

/// The tables beside the independent comparer.
fn beside_independent() {
    println!("Time for each call: the product, the independent comparer, and their ratio.");
    println!("A ratio below 1 says that the product was faster.");
    reading::report();
    texts::report();
    judging::report();
    comparing::report();
}

/// The table beside the solver; a disagreement is a failure.
fn beside_solver() -> ExitCode {
    match solving::report() {
        Ok(()) => ExitCode::SUCCESS,
        Err(disagreement) => {
            eprintln!("Disagreement. {disagreement}.");
            ExitCode::FAILURE
        }
    }
}
