//! The commands, one file each.

mod check;
mod compare;
mod compile;
mod convert;
mod evaluate;
mod judge;
mod make;
mod marked;
mod several;
mod show;

use crate::args::Command;
use crate::outcome::Outcome;
use crate::trouble::Trouble;

impl Command {
    /// The command's name.
    pub fn name(&self) -> &'static str {
        match self {
            Command::Compare { .. } => "compare",
            Command::Judge { .. } => "judge",
            Command::Compile { .. } => "compile",
            Command::Evaluate { .. } => "evaluate",
            Command::Check { .. } => "check",
            Command::Show { .. } => "show",
            Command::Make { .. } => "make",
            Command::Convert { .. } => "convert",
            Command::Marked => "marked",
        }
    }

    /// Runs it.
    pub fn run(&self) -> Result<Outcome, Trouble> {
        match self {
            Command::Compare {
                old,
                new,
                bound,
                out,
                all,
                timeout,
            } => {
                let options = compare::Options {
                    bound: bound.as_deref(),
                    out: out.as_deref(),
                    all: *all,
                    timeout: *timeout,
                };
                compare::run(old, new, &options)
            }
            Command::Judge {
                diagram,
                records,
                all,
            } => judge::run(diagram, records, *all),
            Command::Compile { diagram } => compile::run(diagram),
            Command::Evaluate { diagram, record } => evaluate::run(diagram, record),
            Command::Check { files } => check::run(files),
            Command::Show { file } => show::run(file),
            Command::Make { site, out } => make::run(site, out),
            Command::Convert { file, out } => convert::run(file, out),
            Command::Marked => marked::run(),
        }
    }
}
