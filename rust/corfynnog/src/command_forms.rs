//! The commands, with the files and options that each takes.

use crate::disk::STANDARD_INPUT;
use crate::lists::listed;
use crate::options::{Words, COMMON};
use crate::shown::shown;

/// What a command takes.
#[derive(Debug)]
pub struct Form {
    pub name: &'static str,
    /// Its files, by the names that help gives them.
    pub files: &'static [&'static str],
    /// The last file may be followed by more of its kind.
    pub several: bool,
    /// Its options besides those that every command has.
    pub options: &'static [&'static str],
}

/// All commands, in the order of the help.
pub const COMMANDS: [Form; 9] = [
    form(
        "compare",
        &["OLD", "NEW"],
        &["--bound", "--out", "--all", "--timeout"],
    ),
    with_several(form("judge", &["DIAGRAM", "RECORD"], &["--all"])),
    form("compile", &["DIAGRAM"], &[]),
    form("evaluate", &["DIAGRAM", "RECORD"], &[]),
    with_several(form("check", &["FILE"], &[])),
    form("show", &["FILE"], &[]),
    form("make", &["SITE"], &["--out"]),
    form("convert", &["FILE"], &["--out"]),
    form("marked", &[], &[]),
];

/// A command that takes exactly these files.
const fn form(
    name: &'static str,
    files: &'static [&'static str],
    options: &'static [&'static str],
) -> Form {
    Form {
        name,
        files,
        several: false,
        options,
    }
}

/// The same, with any number of files of the last kind.
const fn with_several(form: Form) -> Form {
    Form {
        several: true,
        ..form
    }
}

/// The command of that name.
pub fn form_named(name: &str) -> Option<&'static Form> {
    COMMANDS.iter().find(|form| form.name == name)
}

impl Form {
    /// The words are those that the command takes.
    pub fn try_words(&self, words: &Words) -> Result<(), String> {
        self.try_files(words)?;
        self.try_options(words)?;
        words.try_output()
    }

    /// As many files as it takes, standard input once among them.
    fn try_files(&self, words: &Words) -> Result<(), String> {
        let (name, all) = (self.name, self.files.join(" and "));
        if let Some(missing) = self.files.get(words.files.len()) {
            return Err(format!("'{name}' needs {all}; {missing} is missing."));
        }
        if let Some(extra) = words.files.get(self.files.len()).filter(|_| !self.several) {
            let extra = shown(extra);
            return Err(match self.files.is_empty() {
                true => format!("'{name}' takes no file; '{extra}' is too much."),
                false => format!("'{name}' takes {all} only; '{extra}' is too much."),
            });
        }
        let inputs = words
            .files
            .iter()
            .filter(|f| f.as_os_str() == STANDARD_INPUT);
        match inputs.count() {
            0 | 1 => Ok(()),
            _ => Err("Standard input, '-', can be read only once.".to_string()),
        }
    }

    /// Only options that it has.
    fn try_options(&self, words: &Words) -> Result<(), String> {
        let foreign = |option: &&str| !COMMON.contains(option) && !self.options.contains(option);
        let Some(option) = words.options().find(foreign) else {
            return Ok(());
        };
        let having = COMMANDS
            .iter()
            .filter(|form| form.options.contains(&option));
        let having: Vec<String> = having.map(|form| format!("'{}'", form.name)).collect();
        let verb = match having.len() {
            1 => "has",
            _ => "have",
        };
        let (name, having) = (self.name, listed(&having));
        Err(format!("'{name}' has no option {option}; {having} {verb}."))
    }
}
