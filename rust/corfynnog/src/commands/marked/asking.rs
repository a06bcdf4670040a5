//! A question, put to the proved code.

use boundary::{try_run, Call, Reply, HAND_OUT_ROOM};

use super::answer::Answer;
use super::files::{Diagram, Form, Record};
use super::question::{Pair, Question};
use crate::disk::Loaded;
use crate::early_end::end_without_memory;
use crate::proved::record_of;

/// What came: the answer, and of a site that was handed out how old and new judge it.
pub struct Came {
    pub answer: Answer,
    pub verdicts: Option<Verdicts>,
}

/// The judgements of a site, 0 or the lowest rule broken.
pub struct Verdicts {
    old: (&'static str, u8),
    new: (&'static str, u8),
}

impl Verdicts {
    /// Old allows the site and new forbids it.
    pub fn are_of_a_difference(&self) -> bool {
        self.old.1 == 0 && self.new.1 != 0
    }

    /// `0 under p, 6 under q`
    pub fn in_words(&self) -> String {
        let ((old, under_old), (new, under_new)) = (self.old, self.new);
        format!("{under_old} under {old}, {under_new} under {new}")
    }
}

/// What comes when diagrams are loaded in one form; words where it is no answer.
pub fn ask(question: &Question, form: Form) -> Result<Came, String> {
    match question {
        Question::Load(diagram) => plain(&run(&[diagram.load(0, form)])),
        Question::Judge(diagram, record) => plain(&judge(diagram, record.file, form)),
        Question::Compare { pair, bound } => compared(pair, *bound, form),
        Question::HandOut { pair, bound, room } => handed_out(pair, *bound, *room, form),
    }
}

/// The library's replies; without memory for it there is nothing to tell of any case.
fn run(calls: &[Call]) -> Vec<Reply> {
    try_run(calls).unwrap_or_else(|_| end_without_memory())
}

/// The answer to the last of some calls, or the first refusal of one.
fn plain(replies: &[Reply]) -> Result<Came, String> {
    let refusal = replies.iter().find_map(Reply::refusal);
    let answer = match (refusal, replies.last()) {
        (Some(number), _) => Answer::Refused(number),
        (None, Some(Reply::Done | Reply::Written { .. })) => Answer::Accepted,
        (None, Some(Reply::Rule(rule))) => Answer::Rule(*rule),
        (None, Some(Reply::NoDifference)) => Answer::NoDifference,
        (None, Some(Reply::Difference(objects))) => Answer::Difference {
            objects: *objects,
            record: None,
        },
        _ => return Err("a reply that this program cannot explain".to_string()),
    };
    Ok(Came {
        answer,
        verdicts: None,
    })
}

/// The replies to a load and a judge.
fn judge(diagram: &Diagram, file: &[u8], form: Form) -> Vec<Reply> {
    run(&[diagram.load(0, form), Call::Judge { place: 0, file }])
}

/// The replies to two loads, a compare and a hand out.
fn search(pair: &Pair, bound: u8, room: u32, form: Form) -> Vec<Reply> {
    run(&[
        pair.old.load(0, form),
        pair.new.load(1, form),
        Call::Compare { bound },
        Call::HandOut { room },
    ])
}

/// Compares; a difference comes with its site, of as many objects as were told.
fn compared(pair: &Pair, bound: u8, form: Form) -> Result<Came, String> {
    let replies = search(pair, bound, HAND_OUT_ROOM, form);
    let came = plain(&replies[..replies.len().min(3)])?;
    let Answer::Difference { objects, .. } = came.answer else {
        return Ok(came);
    };
    let Some(Reply::Written { file, .. }) = replies.get(3) else {
        return Err(format!("{}, but no site is handed out", came.answer));
    };
    let site = record_of(&Loaded::site(file))
        .map_err(|_| format!("{}, but no record file", came.answer))?;
    if site.types.len() != usize::from(objects) {
        let count = site.types.len();
        return Err(format!("{}, but a site of {count}", came.answer));
    }
    let record = Record::name_of(file);
    Ok(Came {
        answer: Answer::Difference { objects, record },
        verdicts: Some(verdicts(pair, file, form)?),
    })
}

/// Hands out what compare finds into a buffer of so many bytes.
fn handed_out(pair: &Pair, bound: u8, room: u32, form: Form) -> Result<Came, String> {
    let replies = search(pair, bound, room, form);
    let mut came = plain(&replies)?;
    if let Some(Reply::Written { file, .. }) = replies.last() {
        came.verdicts = Some(verdicts(pair, file, form)?);
    }
    Ok(came)
}

/// How old and new judge a site that was handed out.
fn verdicts(pair: &Pair, file: &[u8], form: Form) -> Result<Verdicts, String> {
    let verdict = |diagram: &Diagram| match judge(diagram, file, form)[..] {
        [Reply::Done, Reply::Rule(rule)] => Ok((diagram.name, rule)),
        _ => Err(format!("a site that {} does not judge", diagram.name)),
    };
    Ok(Verdicts {
        old: verdict(pair.old)?,
        new: verdict(pair.new)?,
    })
}

#[cfg(test)]
mod tests {
    use super::*;

    #[test]
    fn a_difference_is_legal_for_old_alone() {
        for (under_old, under_new, is) in [(0, 6, true), (0, 0, false), (7, 6, false)] {
            let verdicts = Verdicts {
                old: ("p", under_old),
                new: ("q", under_new),
            };
            assert_eq!(verdicts.are_of_a_difference(), is);
        }
    }
}
