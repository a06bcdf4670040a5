//! A diagram by its names and indices, as far as texts and reasons need it.

/// What a type is.
#[derive(Clone, Copy, Debug, PartialEq, Eq)]
pub enum Kind {
    Class,
    AbstractClass,
    Interface,
    Singleton,
}

impl Kind {
    /// The kind of a kind byte.
    pub fn of(number: usize) -> Kind {
        match number {
            0 => Kind::Class,
            1 => Kind::AbstractClass,
            2 => Kind::Interface,
            _ => Kind::Singleton,
        }
    }

    /// The kind byte.
    pub fn number(self) -> u8 {
        match self {
            Kind::Class => 0,
            Kind::AbstractClass => 1,
            Kind::Interface => 2,
            Kind::Singleton => 3,
        }
    }

    /// The kind in words.
    pub fn words(self) -> &'static str {
        match self {
            Kind::Class => "class",
            Kind::AbstractClass => "abstract class",
            Kind::Interface => "interface",
            Kind::Singleton => "singleton class",
        }
    }
}

/// Which links an association carries.
#[derive(Clone, Copy, Debug, PartialEq, Eq)]
pub enum Arrow {
    Right,
    Left,
    Both,
    Plain,
}

impl Arrow {
    /// The arrow of an arrow byte.
    pub fn of(number: usize) -> Arrow {
        match number {
            1 => Arrow::Right,
            2 => Arrow::Left,
            3 => Arrow::Both,
            _ => Arrow::Plain,
        }
    }

    /// The arrow byte.
    pub fn number(self) -> u8 {
        match self {
            Arrow::Right => 1,
            Arrow::Left => 2,
            Arrow::Both => 3,
            Arrow::Plain => 4,
        }
    }

    /// The arrow as text.
    pub fn text(self) -> &'static str {
        match self {
            Arrow::Right => "->",
            Arrow::Left => "<-",
            Arrow::Both => "<->",
            Arrow::Plain => "--",
        }
    }

    /// The links of its two roles come in pairs, one each way.
    pub fn mirrors(self) -> bool {
        matches!(self, Arrow::Both | Arrow::Plain)
    }
}

/// An enumeration, or a plain type with one unnamed value where there are no constants.
#[derive(Clone, Debug, PartialEq, Eq)]
pub struct ValueType {
    pub name: String,
    pub constants: Vec<String>,
}

#[derive(Clone, Debug, PartialEq, Eq)]
pub struct Type {
    pub kind: Kind,
    pub name: String,
    pub parents: Vec<usize>,
}

#[derive(Clone, Debug, PartialEq, Eq)]
pub struct Attribute {
    pub owner: usize,
    pub name: String,
    pub value_type: usize,
}

/// How many; no upper limit where `up` is none.
#[derive(Clone, Copy, Debug, PartialEq, Eq)]
pub struct Limits {
    pub low: usize,
    pub up: Option<usize>,
}

impl Limits {
    /// The number lies within the limits.
    pub fn allow(self, count: usize) -> bool {
        self.low <= count && self.up.is_none_or(|up| count <= up)
    }
}

#[derive(Clone, Debug, PartialEq, Eq)]
pub struct End {
    pub of: usize,
    pub limits: Limits,
    pub role: String,
}

#[derive(Clone, Debug, PartialEq, Eq)]
pub struct Association {
    pub composition: bool,
    pub arrow: Arrow,
    pub left: End,
    pub right: End,
}

/// One of the two ways through an association: side 0 from left to right, side 1 back.
#[derive(Clone, Copy, Debug)]
pub struct Way<'a> {
    pub role: &'a str,
    pub from: usize,
    pub to: usize,
    /// How many targets an object at the start has.
    pub targets: Limits,
    /// How many objects have a given object as their target.
    pub sources: Limits,
}

impl Association {
    /// The way of a side, carried or not.
    pub fn way(&self, side: u8) -> Way<'_> {
        let (start, end) = match side {
            0 => (&self.left, &self.right),
            _ => (&self.right, &self.left),
        };
        Way {
            role: &end.role,
            from: start.of,
            to: end.of,
            targets: end.limits,
            sources: start.limits,
        }
    }

    /// Links of that side's role may exist.
    pub fn carries(&self, side: u8) -> bool {
        match side {
            0 => self.arrow != Arrow::Left,
            _ => self.arrow != Arrow::Right,
        }
    }

    /// The largest limit at either end.
    pub fn largest_limit(&self) -> usize {
        let of_end = |end: &End| end.limits.up.unwrap_or(end.limits.low);
        of_end(&self.left).max(of_end(&self.right))
    }

    /// The side whose targets are counted by their sources, of a one-way arrow.
    pub fn counted_side(&self) -> Option<u8> {
        match self.arrow {
            Arrow::Right => Some(0),
            Arrow::Left => Some(1),
            Arrow::Both | Arrow::Plain => None,
        }
    }
}

#[derive(Clone, Debug, Default, PartialEq, Eq)]
pub struct Diagram {
    pub value_types: Vec<ValueType>,
    pub types: Vec<Type>,
    pub attributes: Vec<Attribute>,
    pub associations: Vec<Association>,
}

impl Diagram {
    /// The index of a type by its name.
    pub fn type_named(&self, name: &str) -> Option<usize> {
        self.types.iter().position(|t| t.name == name)
    }

    /// A type is the other one, or the other one is reached from it through parents. Each type is
    /// met once: there may be millions of ways up to one.
    pub fn reaches(&self, from: usize, to: usize) -> bool {
        let mut reached = vec![false; self.types.len()];
        let mut open = vec![from];
        while let Some(of) = open.pop() {
            if !std::mem::replace(&mut reached[of], true) {
                open.extend(&self.types[of].parents);
            }
        }
        reached[to]
    }

    /// An object of that type name is an instance of the type.
    pub fn is_instance(&self, type_name: &str, of: usize) -> bool {
        self.type_named(type_name)
            .is_some_and(|own| self.reaches(own, of))
    }

    /// The indices of an attribute's declarations that an object of that type name has to follow.
    pub fn declarations(&self, type_name: &str, attribute: &str) -> Vec<usize> {
        let all = self.attributes.iter().enumerate();
        let asked = all.filter(|(_, declared)| {
            declared.name == attribute && self.is_instance(type_name, declared.owner)
        });
        asked.map(|(index, _)| index).collect()
    }
}

#[cfg(test)]
mod tests {
    use super::*;

    /// A diagram of classes with these parents.
    fn classes(parents: impl Iterator<Item = Vec<usize>>) -> Diagram {
        let class = |(at, parents)| Type {
            kind: Kind::Class,
            name: format!("T{at}"),
            parents,
        };
        Diagram {
            types: parents.enumerate().map(class).collect(),
            ..Diagram::default()
        }
    }

    #[test]
    fn a_type_reaches_what_stands_above_it() {
        let widest = classes((0..24).map(|at: usize| (at.saturating_sub(4)..at).collect()));
        for from in 0..24 {
            for to in 0..24 {
                assert_eq!(widest.reaches(from, to), to <= from, "{from}, {to}");
            }
        }
    }

    #[test]
    fn a_type_reaches_no_sibling() {
        let parents = [vec![], vec![0], vec![0], vec![1, 2], vec![2]];
        let siblings = classes(parents.into_iter());
        let reached = [
            vec![0],
            vec![0, 1],
            vec![0, 2],
            vec![0, 1, 2, 3],
            vec![0, 2, 4],
        ];
        for (from, wanted) in reached.iter().enumerate() {
            let all: Vec<usize> = (0..5).filter(|to| siblings.reaches(from, *to)).collect();
            assert_eq!(all, *wanted, "{from}");
        }
    }
}
