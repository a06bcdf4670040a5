//! Associations and compositions.

use crate::diagram::Arrow;

use super::cardinality::NO_LIMITS;
use super::declarations::{Association, End};
use super::reader::{name_of, Found, Reader};
use super::tokens::{Read, Token};
use super::wanted::Wanted::{self, Mark, Name};

const ARROWS: [Wanted; 4] = [Mark("->"), Mark("<-"), Mark("<->"), Mark("--")];
const END_TYPE: Wanted = Name("of a class or interface");
const ROLE: Wanted = Name("for the role");

impl<'a> Reader<'a> {
    /// Behind `association` or `composition`.
    pub fn association(&mut self, form: &str) -> Found<Association<'a>> {
        let (left, arrow) = self.left_end()?;
        let right = self.right_end()?;
        Ok(Association {
            composition: form == "composition",
            arrow: match arrow.read {
                Read::Mark("->") => Arrow::Right,
                Read::Mark("<-") => Arrow::Left,
                Read::Mark("<->") => Arrow::Both,
                _ => Arrow::Plain,
            },
            arrow_at: arrow.at,
            left,
            right,
        })
    }

    /// Cardinality, type and role, and the arrow behind them.
    fn left_end(&mut self) -> Found<(End<'a>, Token<'a>)> {
        let mut limits = NO_LIMITS;
        let mut of = self.step(&[Mark("["), END_TYPE])?;
        if of.read == Read::Mark("[") {
            limits = self.limits()?;
            of = self.step(&[END_TYPE])?;
        }
        let [right, left, both, plain] = ARROWS;
        let mut arrow = self.step(&[Mark("("), right, left, both, plain])?;
        let mut role = None;
        if arrow.read == Read::Mark("(") {
            role = Some(name_of(self.step(&[ROLE])?));
            self.mark(")")?;
            arrow = self.step(&ARROWS)?;
        }
        let of = name_of(of);
        Ok((End { of, limits, role }, arrow))
    }

    /// Role, type and cardinality, and the semicolon behind them.
    fn right_end(&mut self) -> Found<End<'a>> {
        let mut role = None;
        let mut of = self.step(&[Mark("("), END_TYPE])?;
        if of.read == Read::Mark("(") {
            role = Some(name_of(self.step(&[ROLE])?));
            self.mark(")")?;
            of = self.step(&[END_TYPE])?;
        }
        let mut limits = NO_LIMITS;
        if self.step(&[Mark("["), Mark(";")])?.read == Read::Mark("[") {
            limits = self.limits()?;
            self.mark(";")?;
        }
        let of = name_of(of);
        Ok(End { of, limits, role })
    }
}
