//! Goes through a text word by word, and says what was expected where it finds something else.

use super::declarations::Name;
use super::fault::{TextFault, TextRule};
use super::language::Language;
use super::spelling::{front, read_in_words};
use super::tokens::{Read, Token, Tokens, NAME_MOST};
use super::wanted::{any_of, Wanted};

/// A part of a text, or where it is outside the grammar.
pub type Found<T> = Result<T, TextFault>;

/// The words and marks that are ahead.
pub struct Reader<'a> {
    language: &'static Language,
    tokens: Tokens<'a>,
    next: Token<'a>,
}

impl<'a> Reader<'a> {
    /// The whole text is ahead.
    pub fn of(text: &'a [u8], language: &'static Language) -> Reader<'a> {
        let mut tokens = Tokens::of(text, language.marks);
        let next = tokens.next();
        Reader {
            language,
            tokens,
            next,
        }
    }

    /// Takes the next word or mark, which is one of those wanted.
    pub fn step(&mut self, wanted: &[Wanted]) -> Found<Token<'a>> {
        let token = self.next;
        let mut fitting = wanted.iter().filter(|w| w.fits(token.read, self.language));
        let Some(fitting) = fitting.next() else {
            return Err(self.outside(token, wanted));
        };
        if fitting.is_name() {
            try_length(name_of(token))?;
        }
        self.next = self.tokens.next();
        Ok(token)
    }

    /// A name.
    pub fn name(&mut self, purpose: &'static str) -> Found<Name<'a>> {
        let token = self.step(&[Wanted::Name(purpose)])?;
        Ok(name_of(token))
    }

    /// A mark.
    pub fn mark(&mut self, mark: &'static str) -> Found<()> {
        self.step(&[Wanted::Mark(mark)]).map(|_| ())
    }

    /// What stands there is not what the grammar allows there.
    fn outside(&self, token: Token, wanted: &[Wanted]) -> TextFault {
        let (read, expected) = (read_in_words(token.read), any_of(wanted));
        let what = format!("{read}, expected {expected}");
        let fault = TextFault::of(TextRule::Grammar, token.at, what);
        match self.language.hint(token.read, wanted) {
            Some(to_do) => fault.with(to_do),
            None => fault,
        }
    }
}

/// A word that is known to be a name.
pub fn name_of(token: Token) -> Name {
    let text = match token.read {
        Read::Word(word) => word,
        _ => "",
    };
    Name { text, at: token.at }
}

/// A name has at most 16 bytes.
pub fn try_length(name: Name) -> Found<()> {
    if name.text.len() <= NAME_MOST {
        return Ok(());
    }
    let (shown, length) = (front(name.text), name.text.len());
    let what = format!("the name {shown} has {length} bytes, at most {NAME_MOST} are allowed");
    Err(TextFault::of(TextRule::Grammar, name.at, what).with("choose a shorter name"))
}
