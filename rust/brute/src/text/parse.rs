//! The grammar, a function for each production. None says that the text is outside the grammar,
//! has a name over 16 bytes or a cardinality that is not allowed: all of them are refused alike.

use super::cardinality::{between, is_integer, limit, ANY_NUMBER};
use super::parts::{AssociationPart, AttributePart, EndPart, Enumeration, Parent, Parts, TypePart};
use super::tokens::Token;
use crate::diagram::{Form, Kind, Limits};

/// "a quoted word of the listing is not a name"
const QUOTED: [&[u8]; 9] = [
    b"classdiagram",
    b"class",
    b"extends",
    b"implements",
    b"interface",
    b"enum",
    b"association",
    b"composition",
    b"abstract",
];

/// The arrows; an arrow's number is its index here and one.
const ARROWS: [&str; 4] = ["->", "<-", "<->", "--"];

/// The parts of a whole text.
pub fn parse<'t>(tokens: &[Token<'t>]) -> Option<Parts<'t>> {
    let mut parser = Parser { rest: tokens };
    let parts = parser.text()?;
    parser.rest.is_empty().then_some(parts)
}

/// The tokens that are not taken yet.
struct Parser<'a, 't> {
    rest: &'a [Token<'t>],
}

impl<'t> Parser<'_, 't> {
    /// Takes the next token.
    fn next(&mut self) -> Option<Token<'t>> {
        let (&first, rest) = self.rest.split_first()?;
        self.rest = rest;
        Some(first)
    }

    /// Takes the next token if it is this one.
    fn passes(&mut self, token: Token) -> bool {
        let is_next = self.rest.first() == Some(&token);
        if is_next {
            self.rest = &self.rest[1..];
        }
        is_next
    }

    /// Takes this mark if it is next.
    fn passes_mark(&mut self, mark: &'static str) -> bool {
        self.passes(Token::Mark(mark))
    }

    /// Takes this word if it is next.
    fn passes_word(&mut self, word: &str) -> bool {
        self.passes(Token::Word(word.as_bytes()))
    }

    /// Takes this mark, which must come.
    fn mark(&mut self, mark: &'static str) -> Option<()> {
        self.passes_mark(mark).then_some(())
    }

    /// Takes this word, which must come.
    fn word(&mut self, word: &str) -> Option<()> {
        self.passes_word(word).then_some(())
    }

    /// Takes a name.
    fn name(&mut self) -> Option<&'t [u8]> {
        match self.next()? {
            Token::Word(word) if !QUOTED.contains(&word) && word.len() <= 16 => Some(word),
            _ => None,
        }
    }

    /// Takes one name or several with commas between.
    fn names(&mut self) -> Option<Vec<&'t [u8]>> {
        let mut names = vec![self.name()?];
        while self.passes_mark(",") {
            names.push(self.name()?);
        }
        Some(names)
    }

    /// `classdiagram NAME { … }`
    fn text(&mut self) -> Option<Parts<'t>> {
        let mut parts = Parts::default();
        self.word("classdiagram")?;
        self.name()?;
        self.mark("{")?;
        while !self.passes_mark("}") {
            self.declaration(&mut parts)?;
        }
        Some(parts)
    }

    /// A class, an interface, an enumeration or an association.
    fn declaration(&mut self, parts: &mut Parts<'t>) -> Option<()> {
        match self.next()? {
            Token::Word(b"class") => parts.types.push(self.class(Kind::Class)?),
            Token::Word(b"abstract") => {
                self.word("class")?;
                parts.types.push(self.class(Kind::AbstractClass)?);
            }
            Token::Mark("<<") => {
                self.word("singleton")?;
                self.mark(">>")?;
                self.word("class")?;
                parts.types.push(self.class(Kind::SingletonClass)?);
            }
            Token::Word(b"interface") => parts.types.push(self.interface()?),
            Token::Word(b"enum") => parts.enumerations.push(self.enumeration()?),
            Token::Word(b"association") => {
                parts
                    .associations
                    .push(self.association(Form::Association)?);
            }
            Token::Word(b"composition") => {
                parts
                    .associations
                    .push(self.association(Form::Composition)?);
            }
            _ => return None,
        }
        Some(())
    }

    /// What follows `class`.
    fn class(&mut self, kind: Kind) -> Option<TypePart<'t>> {
        let name = self.name()?;
        let mut parents = self.parents("extends", false)?;
        parents.extend(self.parents("implements", true)?);
        let attributes = self.body()?;
        Some(TypePart {
            kind,
            name,
            parents,
            attributes,
        })
    }

    /// The parents behind a keyword, none where it does not stand here.
    fn parents(&mut self, keyword: &str, is_interface: bool) -> Option<Vec<Parent<'t>>> {
        if !self.passes_word(keyword) {
            return Some(Vec::new());
        }
        let parent = |name| Parent { name, is_interface };
        Some(self.names()?.into_iter().map(parent).collect())
    }

    /// `;` or attributes in braces.
    fn body(&mut self) -> Option<Vec<AttributePart<'t>>> {
        let mut attributes = Vec::new();
        if self.passes_mark(";") {
            return Some(attributes);
        }
        self.mark("{")?;
        while !self.passes_mark("}") {
            let (value_type, name) = (self.name()?, self.name()?);
            self.mark(";")?;
            attributes.push(AttributePart { value_type, name });
        }
        Some(attributes)
    }

    /// What follows `interface`.
    fn interface(&mut self) -> Option<TypePart<'t>> {
        let name = self.name()?;
        let parents = self.parents("extends", true)?;
        self.mark(";")?;
        Some(TypePart {
            kind: Kind::Interface,
            name,
            parents,
            attributes: Vec::new(),
        })
    }

    /// What follows `enum`: a name, then `;` or constants and a semicolon in braces.
    fn enumeration(&mut self) -> Option<Enumeration<'t>> {
        let name = self.name()?;
        let mut constants = Vec::new();
        if !self.passes_mark(";") {
            self.mark("{")?;
            constants = self.names()?;
            self.mark(";")?;
            self.mark("}")?;
        }
        Some(Enumeration { name, constants })
    }

    /// What follows `association` or `composition`.
    fn association(&mut self, form: Form) -> Option<AssociationPart<'t>> {
        let limits = self.cardinality()?;
        let type_name = self.name()?;
        let role = self.role()?;
        let left = EndPart {
            type_name,
            limits,
            role,
        };
        let arrow = self.arrow()?;
        let role = self.role()?;
        let type_name = self.name()?;
        let limits = self.cardinality()?;
        let right = EndPart {
            type_name,
            limits,
            role,
        };
        self.mark(";")?;
        Some(AssociationPart {
            form,
            arrow,
            left,
            right,
        })
    }

    /// The number of an arrow.
    fn arrow(&mut self) -> Option<u8> {
        let arrow = self.next()?;
        let at = ARROWS.iter().position(|&mark| arrow == Token::Mark(mark))?;
        u8::try_from(at + 1).ok()
    }

    /// A name in round brackets, or nothing.
    fn role(&mut self) -> Option<Option<&'t [u8]>> {
        if !self.passes_mark("(") {
            return Some(None);
        }
        let role = self.name()?;
        self.mark(")")?;
        Some(Some(role))
    }

    /// Limits in square brackets, or nothing.
    fn cardinality(&mut self) -> Option<Limits> {
        if !self.passes_mark("[") {
            return Some(ANY_NUMBER);
        }
        let limits = self.limits()?;
        self.mark("]")?;
        Some(limits)
    }

    /// `*`, `n`, `n..m` or `n..*`
    fn limits(&mut self) -> Option<Limits> {
        if self.passes_mark("*") {
            return Some(ANY_NUMBER);
        }
        let low = self.limit()?;
        if !self.passes_mark("..") {
            return between(low, low);
        }
        if self.passes_mark("*") {
            return Some(Limits { low, up: None });
        }
        between(low, self.limit()?)
    }

    /// An integer that may be a limit.
    fn limit(&mut self) -> Option<u16> {
        match self.next()? {
            Token::Word(word) if is_integer(word) => limit(word),
            _ => None,
        }
    }
}
