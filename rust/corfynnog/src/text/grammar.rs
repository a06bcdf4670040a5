//! A text by its grammar, from left to right: its declarations, or the first place where it is
//! outside the grammar, has a name that is too long, or a limit that is not allowed (refusal 23).

use crate::diagram::Kind;

use super::declarations::{Attribute, Declarations, Enumeration, Type};
use super::language::DIAGRAM_TEXT;
use super::reader::{name_of, Found, Reader};
use super::tokens::Read;
use super::wanted::Wanted::{self, Mark, Name, Word};

/// What a declaration starts with, or the end of the diagram.
const BODY: [Wanted; 8] = [
    Word("class"),
    Word("abstract"),
    Mark("<<"),
    Word("interface"),
    Word("enum"),
    Word("association"),
    Word("composition"),
    Mark("}"),
];

/// The declarations of a text that belongs to the grammar.
pub fn read(text: &[u8]) -> Found<Declarations<'_>> {
    Reader::of(text, &DIAGRAM_TEXT).text()
}

impl<'a> Reader<'a> {
    /// `classdiagram d { ... }`, and nothing behind it.
    fn text(&mut self) -> Found<Declarations<'a>> {
        self.step(&[Word("classdiagram")])?;
        let name = self.name("for the diagram")?;
        self.mark("{")?;
        let mut all = Declarations {
            name,
            types: Vec::new(),
            enumerations: Vec::new(),
            associations: Vec::new(),
        };
        loop {
            match self.step(&BODY)?.read {
                Read::Word("class") => all.types.push(self.class(Kind::Class)?),
                Read::Word("abstract") => {
                    self.step(&[Word("class")])?;
                    all.types.push(self.class(Kind::AbstractClass)?);
                }
                Read::Mark("<<") => {
                    self.step(&[Word("singleton")])?;
                    self.mark(">>")?;
                    self.step(&[Word("class")])?;
                    all.types.push(self.class(Kind::Singleton)?);
                }
                Read::Word("interface") => all.types.push(self.interface()?),
                Read::Word("enum") => all.enumerations.push(self.enumeration()?),
                Read::Word(form) => all.associations.push(self.association(form)?),
                _ => break,
            }
        }
        self.step(&[Wanted::End])?;
        Ok(all)
    }

    /// Behind `class`.
    fn class(&mut self, kind: Kind) -> Found<Type<'a>> {
        let mut class = Type {
            kind,
            name: self.name("for the class")?,
            superclasses: Vec::new(),
            interfaces: Vec::new(),
            attributes: Vec::new(),
        };
        let mut wanted = vec![Word("extends"), Word("implements"), Mark(";"), Mark("{")];
        loop {
            match self.step(&wanted)?.read {
                Read::Word("extends") => {
                    class.superclasses.push(self.name("of a class")?);
                    wanted = vec![Mark(","), Word("implements"), Mark(";"), Mark("{")];
                }
                Read::Word(_) => {
                    class.interfaces.push(self.name("of an interface")?);
                    wanted = vec![Mark(","), Mark(";"), Mark("{")];
                }
                Read::Mark(",") if class.interfaces.is_empty() => {
                    class.superclasses.push(self.name("of a class")?);
                }
                Read::Mark(",") => class.interfaces.push(self.name("of an interface")?),
                Read::Mark("{") => {
                    class.attributes = self.attributes()?;
                    return Ok(class);
                }
                _ => return Ok(class),
            }
        }
    }

    /// Behind a class's opening brace, up to the closing one.
    fn attributes(&mut self) -> Found<Vec<Attribute<'a>>> {
        let mut attributes = Vec::new();
        loop {
            let token = self.step(&[Name("of an attribute's type"), Mark("}")])?;
            if token.read == Read::Mark("}") {
                return Ok(attributes);
            }
            attributes.push(Attribute {
                value_type: name_of(token),
                name: self.name("for the attribute")?,
            });
            self.mark(";")?;
        }
    }

    /// Behind `interface`.
    fn interface(&mut self) -> Found<Type<'a>> {
        let mut interface = Type {
            kind: Kind::Interface,
            name: self.name("for the interface")?,
            superclasses: Vec::new(),
            interfaces: Vec::new(),
            attributes: Vec::new(),
        };
        let mut wanted = [Word("extends"), Mark(";")];
        while self.step(&wanted)?.read != Read::Mark(";") {
            interface.interfaces.push(self.name("of an interface")?);
            wanted = [Mark(","), Mark(";")];
        }
        Ok(interface)
    }

    /// Behind `enum`.
    fn enumeration(&mut self) -> Found<Enumeration<'a>> {
        let name = self.name("for the enumeration")?;
        let mut constants = Vec::new();
        if self.step(&[Mark(";"), Mark("{")])?.read == Read::Mark("{") {
            constants.push(self.name("for a constant")?);
            while self.step(&[Mark(","), Mark(";")])?.read == Read::Mark(",") {
                constants.push(self.name("for a constant")?);
            }
            self.mark("}")?;
        }
        Ok(Enumeration { name, constants })
    }
}
