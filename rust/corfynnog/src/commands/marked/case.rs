//! One row of the table, run with the diagram files and with the diagram texts.

use super::answer::Answer;
use super::asking::{ask, Came};
use super::files::Form;
use super::question::Question;
use super::table::Row;

/// What stands in front of an answer that the texts alone have.
const AS_TEXT: &str = ", as text ";

/// A row and what came.
pub struct Case<'a> {
    pub row: Row<'a>,
    pub came: String,
    /// What came is what the documents say.
    pub fits: bool,
}

impl<'a> Case<'a> {
    /// Runs a row; one that is not understood does not fit.
    pub fn of(row: Row<'a>) -> Case<'a> {
        let (came, fits) = run(&row).unwrap_or_else(|why| (why, false));
        Case { row, came, fits }
    }
}

/// What came in words, and whether it fits; why not where there is no answer.
fn run(row: &Row) -> Result<(String, bool), String> {
    let not_understood = |why| format!("the row is not understood: {why}");
    let question = Question::read(row.asked).map_err(not_understood)?;
    let (of_file, of_text) = expected(row.expected).map_err(not_understood)?;
    let (file, text) = (ask(&question, Form::File)?, ask(&question, Form::Text)?);
    let fits = fits(&file, &of_file) && fits(&text, &of_text);
    let (file, text) = (in_words(&file), in_words(&text));
    let came = match file == text {
        true => file,
        false => format!("{file}{AS_TEXT}{text}"),
    };
    Ok((came, fits))
}

/// The answers that the documents have for files and for texts.
fn expected(text: &str) -> Result<(Answer, Answer), String> {
    let (of_file, of_text) = text.split_once(AS_TEXT).unwrap_or((text, text));
    Ok((Answer::read(of_file)?, Answer::read(of_text)?))
}

/// The answer is the one expected, and a site that was handed out shows a difference.
fn fits(came: &Came, expected: &Answer) -> bool {
    let verdicts = came.verdicts.as_ref();
    came.answer.fits(expected) && verdicts.is_none_or(|v| v.are_of_a_difference())
}

/// The answer, and how a site is judged.
fn in_words(came: &Came) -> String {
    match &came.verdicts {
        Some(verdicts) => format!("{} ({})", came.answer, verdicts.in_words()),
        None => came.answer.to_string(),
    }
}
