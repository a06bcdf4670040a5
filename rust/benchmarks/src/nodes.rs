//! How many nodes a search visits: the calls of the product's recursive functions, counted by
//! valgrind's tool callgrind.

use crate::child::{arguments, printed};
use crate::inputs::Pair;
use std::collections::HashMap;
use std::path::Path;
use std::process::Command;
use std::time::Duration;

/// The functions of the search, as their names end in the library.
const FUNCTIONS: [&str; 2] = ["grow", "links"];

/// Counting takes some fifty times as long as the compare; it is given up after this time.
const LIMIT: Duration = Duration::from_secs(60);

/// The calls of each function that was called at all, in words; none where that takes too long.
pub fn counted(pair: &Pair, bound: usize) -> Option<String> {
    let profile = std::env::temp_dir().join(format!("nodes.{}", std::process::id()));
    let program = std::env::current_exe().expect("this program has a path");
    let mut valgrind = Command::new("valgrind");
    valgrind
        .args(["--quiet", "--tool=callgrind"])
        .arg(format!("--callgrind-out-file={}", profile.display()))
        .arg(program)
        .args(arguments(pair, bound, LIMIT, "once"));
    let text = printed(&mut valgrind).map(|_| read(&profile));
    std::fs::remove_file(&profile).ok();
    let calls = calls(&text?);
    let of_one = |name: &&str| {
        let number: u64 = calls
            .iter()
            .filter(|(function, _)| is_named(function, name))
            .map(|(_, number)| number)
            .sum();
        (number > 0).then(|| format!("{name} {number}"))
    };
    let counts: Vec<String> = FUNCTIONS.iter().filter_map(of_one).collect();
    Some(counts.join(", "))
}

/// The profile's text.
fn read(profile: &Path) -> String {
    std::fs::read_to_string(profile).expect("callgrind wrote its profile")
}

/// Whether a function's path ends with this name. A call within a call of the same function has an
/// apostrophe and a number behind it.
fn is_named(function: &str, name: &str) -> bool {
    let (path, _) = function.split_once('\'').unwrap_or((function, ""));
    path.rsplit("::").next() == Some(name)
}

/// How often each function is called. A line `cfn=(number) name` says which function the line
/// `calls=...` behind it is about; the name stands there only the first time.
fn calls(profile: &str) -> HashMap<String, u64> {
    let mut names: HashMap<&str, &str> = HashMap::new();
    let mut calls = HashMap::new();
    let mut called = "";
    for line in profile.lines() {
        let (key, rest) = line.split_once('=').unwrap_or((line, ""));
        if key == "fn" || key == "cfn" {
            let (number, name) = rest.split_once(' ').unwrap_or((rest, ""));
            if !name.is_empty() {
                names.insert(number, name);
            }
            if key == "cfn" {
                called = names.get(number).copied().unwrap_or("");
            }
        }
        if key == "calls" {
            let number = rest.split(' ').next().and_then(|word| word.parse().ok());
            let number: u64 = number.expect("a number of calls");
            *calls.entry(called.to_string()).or_default() += number;
        }
    }
    calls
}

#[cfg(test)]
mod tests {
    use super::*;

    #[test]
    fn calls_are_added_up_by_name() {
        let profile = "fn=(1) searching::start\n12 3\ncfn=(2) searching::fill\ncalls=1 40\n12 90\n\
            fn=(2)\n40 7\ncfn=(4) searching::fill'2\ncalls=11 40\n44 80\ncfn=(3) fillings::filled\ncalls=5 1\n1 1\n";
        let calls = calls(profile);
        let of = |name| -> u64 {
            let named = calls
                .iter()
                .filter(|(function, _)| is_named(function, name));
            named.map(|(_, number)| number).sum()
        };
        assert_eq!((of("fill"), of("filled"), of("start")), (12, 5, 0));
    }
}
