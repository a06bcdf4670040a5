//! The solver, as a program of its own.

use crate::formula::{Formula, Literal};
use std::collections::HashSet;
use std::io::Write;
use std::process::{Command, Stdio};
use std::time::{Duration, Instant};

/// What the solver says of a formula.
pub enum Answer {
    /// It can hold, with these literals.
    Model(HashSet<Literal>),
    /// It cannot hold.
    None,
    /// It did not answer in time.
    TimedOut,
}

/// The solver's answer, and the time from its start to its end. The limit is rounded up to whole
/// seconds.
pub fn solve(formula: &Formula, limit: Duration) -> (Answer, Duration) {
    let text = formula.text();
    let seconds = limit.as_secs_f64().ceil().max(1.0) as u64;
    let start = Instant::now();
    let mut solver = Command::new("cadical")
        .args(["-q", "-t", &seconds.to_string()])
        .stdin(Stdio::piped())
        .stdout(Stdio::piped())
        .spawn()
        .unwrap_or_else(|error| panic!("cadical cannot be started: {error}"));
    let mut input = solver.stdin.take().expect("the input is piped");
    // A solver whose time runs out stops reading; its status tells.
    input.write_all(text.as_bytes()).ok();
    drop(input);
    let output = solver.wait_with_output().expect("cadical ends");
    let time = start.elapsed();
    let said = String::from_utf8_lossy(&output.stdout);
    let answer = match output.status.code() {
        Some(10) => Answer::Model(model(&said)),
        Some(20) => Answer::None,
        Some(0) => Answer::TimedOut,
        other => panic!("cadical ended with status {other:?}: {said}"),
    };
    (answer, time)
}

/// The literals of the lines that start with `v`.
fn model(said: &str) -> HashSet<Literal> {
    let lines = said.lines().filter_map(|line| line.strip_prefix("v "));
    let words = lines.flat_map(str::split_whitespace);
    let numbers = words.map(|word| word.parse().expect("a model is made of numbers"));
    numbers.map(Literal).collect()
}
