//! The search, level by level: a long one is seen to move, and a time limit ends it between or
//! within levels.

use std::sync::mpsc::{channel, Receiver, RecvTimeoutError};
use std::thread;
use std::time::{Duration, Instant};

use boundary::{has_room, SPARE_BYTES};

use crate::disk::Loaded;
use crate::progress::{Aim, Progress, LONG};
use crate::proved::{self, Witness};
use crate::trouble::Trouble;

/// The stack of the thread that asks level by level; the library has one of its own.
const STACK_BYTES: usize = 2 << 20;

/// What a search comes to.
pub enum Found {
    NoDifference,
    Difference(Witness),
    /// The time was up; up to this many objects there is no difference.
    NotSettled(Option<u8>),
}

/// The time that a run has for all its searches, and who watches.
pub struct Watch {
    end: Option<Instant>,
    progress: Progress,
}

/// The answer at one level.
type Answer = Result<Option<Witness>, Trouble>;

impl Watch {
    /// The time starts; without a limit it does not end.
    pub fn start(limit: Option<Duration>) -> Watch {
        Watch {
            end: limit.and_then(|limit| Instant::now().checked_add(limit)),
            progress: Progress::start(),
        }
    }

    /// Raises the bound from 0 on until there is an answer or the time is up.
    pub fn search(
        &self,
        aim: Aim,
        old: &Loaded,
        new: &Loaded,
        bound: u8,
    ) -> Result<Found, Trouble> {
        let answers = answers(old.clone(), new.clone(), bound)?;
        let mut found = Ok(Found::NoDifference);
        for level in 0..=bound {
            self.progress.level(aim, level, bound);
            let tell = || self.progress.long(aim, level, bound);
            found = match wait(&answers, self.end, LONG, tell) {
                Ok(Some(Ok(None))) => continue,
                Ok(Some(Ok(Some(witness)))) => Ok(Found::Difference(witness)),
                Ok(Some(Err(trouble))) | Err(trouble) => Err(trouble),
                Ok(None) => Ok(Found::NotSettled(level.checked_sub(1))),
            };
            break;
        }
        self.progress.end();
        found
    }
}

/// The next answer; none where the time is up before it or was so from the start. Where the answer
/// takes longer than `long`, that is told once.
fn wait<T>(
    answers: &Receiver<T>,
    end: Option<Instant>,
    long: Duration,
    tell: impl FnOnce(),
) -> Result<Option<T>, Trouble> {
    let is_over = |end: Option<Instant>| end.is_some_and(|end| end <= Instant::now());
    let next = Instant::now() + long;
    let mut tell = Some(tell);
    while !is_over(end) {
        let until = match (&tell, end) {
            (None, end) => end,
            (Some(_), end) => Some(end.map_or(next, |end| end.min(next))),
        };
        match receive(answers, until) {
            Ok(answer) => return Ok(Some(answer)),
            Err(RecvTimeoutError::Disconnected) => return Err(Trouble::Unexpected),
            Err(RecvTimeoutError::Timeout) if is_over(end) => break,
            Err(RecvTimeoutError::Timeout) => {
                if let Some(tell) = tell.take() {
                    tell();
                }
            }
        }
    }
    Ok(None)
}

/// What comes until then, or whenever it comes.
fn receive<T>(answers: &Receiver<T>, until: Option<Instant>) -> Result<T, RecvTimeoutError> {
    match until {
        Some(until) => answers.recv_timeout(until.saturating_duration_since(Instant::now())),
        None => answers.recv().map_err(|_| RecvTimeoutError::Disconnected),
    }
}

/// The answers at each level, from a thread of their own; it ends with the first that is not "no
/// difference", when nobody waits any more, or with the program.
fn answers(old: Loaded, new: Loaded, bound: u8) -> Result<Receiver<Answer>, Trouble> {
    let (sender, receiver) = channel();
    let search = move || {
        for level in 0..=bound {
            let answer = proved::compare(&old, &new, level);
            let last = !matches!(answer, Ok(None));
            if sender.send(answer).is_err() || last {
                return;
            }
        }
    };
    if !has_room(STACK_BYTES + SPARE_BYTES) {
        return Err(Trouble::NoMemory);
    }
    let thread = thread::Builder::new().stack_size(STACK_BYTES);
    match thread.spawn(search) {
        Ok(_) => Ok(receiver),
        Err(_) => Err(Trouble::NoMemory),
    }
}

#[cfg(test)]
mod tests {
    use super::*;

    /// Waits for the number 7, which is sent after so many milliseconds; how often it is told.
    fn waited(sent: u64, limit: Option<u64>, long: u64) -> (Option<u8>, usize) {
        let (sender, receiver) = channel();
        let milliseconds = Duration::from_millis;
        thread::spawn(move || {
            thread::sleep(milliseconds(sent));
            let _ = sender.send(7);
        });
        let end = limit.map(|limit| Instant::now() + milliseconds(limit));
        let mut told = 0;
        let answer = wait(&receiver, end, milliseconds(long), || told += 1);
        (answer.ok().flatten(), told)
    }

    #[test]
    fn an_answer_is_waited_for_as_long_as_there_is_time() {
        let hour = 3_600_000;
        assert_eq!(waited(0, None, hour), (Some(7), 0));
        assert_eq!(waited(40, None, 1), (Some(7), 1));
        assert_eq!(waited(40, Some(hour), 1), (Some(7), 1));
        assert_eq!(waited(hour, Some(20), hour), (None, 0));
        assert_eq!(waited(hour, Some(40), 1), (None, 1));
    }

    #[test]
    fn no_answer_is_taken_when_the_time_is_up() {
        let (sender, receiver) = channel();
        let _ = sender.send(7);
        assert_eq!(
            wait(&receiver, Some(Instant::now()), LONG, || ()).ok(),
            Some(None)
        );
    }

    #[test]
    fn an_answer_that_cannot_come_is_trouble() {
        let (sender, receiver) = channel::<u8>();
        drop(sender);
        assert!(wait(&receiver, None, LONG, || ()).is_err());
    }
}
