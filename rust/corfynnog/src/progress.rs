//! What a long search shows while it runs: on a terminal the level that is being tried, elsewhere
//! a line for each level that takes long.

use std::io::{stderr, IsTerminal, Write};
use std::time::Duration;

/// Takes back what stands on the line.
const WIPE: &str = "\r\x1b[2K";

/// A level that takes longer is told off a terminal too.
pub const LONG: Duration = Duration::from_secs(10);

/// What a search looks for.
#[derive(Clone, Copy, Debug, PartialEq, Eq)]
pub enum Aim {
    /// A site that old allows and new forbids.
    Difference,
    /// A site that old allows.
    SiteOfOld,
}

impl Aim {
    /// That nothing was found below a level, in words; nothing is below the first.
    fn passed(self, level: u8) -> Option<String> {
        let sites = match level {
            0 => return None,
            1 => "without objects".to_string(),
            2 => "with up to 1 object".to_string(),
            _ => format!("with up to {} objects", level - 1),
        };
        Some(match self {
            Aim::Difference => format!("no difference {sites}"),
            Aim::SiteOfOld => format!("OLD allows no site {sites}"),
        })
    }
}

/// Where a search stands, in words.
fn standing(aim: Aim, level: u8, bound: u8) -> String {
    let passed = aim.passed(level).map(|words| format!("{words}; "));
    format!("{}trying {level} of {bound}", passed.unwrap_or_default())
}

/// One line on the terminal that is written over, or lines elsewhere.
pub struct Progress {
    on_terminal: bool,
}

impl Progress {
    /// Looks once whether anybody watches.
    pub fn start() -> Progress {
        Progress {
            on_terminal: stderr().is_terminal(),
        }
    }

    /// A level is about to be searched, all below it are settled.
    pub fn level(&self, aim: Aim, level: u8, bound: u8) {
        if self.on_terminal {
            show(&format!("{WIPE}{} ...", standing(aim, level, bound)));
        }
    }

    /// A level takes long.
    pub fn long(&self, aim: Aim, level: u8, bound: u8) {
        if !self.on_terminal {
            let (words, seconds) = (standing(aim, level, bound), LONG.as_secs());
            show(&format!("corfynnog: {words} for over {seconds} s ...\n"));
        }
    }

    /// The answer is next: the line is free for it.
    pub fn end(&self) {
        if self.on_terminal {
            show(WIPE);
        }
    }
}

/// Nobody who watches any more is no reason to stop.
fn show(text: &str) {
    let mut out = stderr();
    let _ = out.write_all(text.as_bytes()).and_then(|()| out.flush());
}

#[cfg(test)]
mod tests {
    use super::*;

    #[test]
    fn where_a_search_stands() {
        for (aim, level, words) in [
            (Aim::Difference, 0, "trying 0 of 8"),
            (
                Aim::Difference,
                1,
                "no difference without objects; trying 1 of 8",
            ),
            (
                Aim::Difference,
                2,
                "no difference with up to 1 object; trying 2 of 8",
            ),
            (
                Aim::SiteOfOld,
                8,
                "OLD allows no site with up to 7 objects; trying 8 of 8",
            ),
        ] {
            assert_eq!(standing(aim, level, 8), words);
        }
    }
}
