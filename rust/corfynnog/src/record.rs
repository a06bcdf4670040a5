//! A record by its names and object numbers.

/// A value; the order is that of a record file.
#[derive(Clone, Debug, PartialEq, Eq, PartialOrd, Ord)]
pub struct Value {
    pub object: usize,
    pub attribute: String,
    pub value_type: String,
    /// Empty for the unnamed value.
    pub constant: String,
}

/// A link; the order is that of a record file.
#[derive(Clone, Debug, PartialEq, Eq, PartialOrd, Ord)]
pub struct Link {
    pub from: usize,
    pub role: String,
    pub to: usize,
}

#[derive(Clone, Debug, Default, PartialEq, Eq)]
pub struct Record {
    /// The type name of each object.
    pub types: Vec<String>,
    pub values: Vec<Value>,
    pub links: Vec<Link>,
    /// The objects' own names; a record file has none.
    pub names: Vec<String>,
}

impl Record {
    /// How many objects, values and links it has, each with its noun.
    pub fn counts(&self) -> [(&'static str, &'static str, usize); 3] {
        [
            ("object", "objects", self.types.len()),
            ("value", "values", self.values.len()),
            ("link", "links", self.links.len()),
        ]
    }

    /// An object's own name, or its type's and its number among the objects of that type.
    pub fn object_name(&self, object: usize) -> String {
        if let Some(name) = self.names.get(object) {
            return name.clone();
        }
        let own = &self.types[object];
        let earlier = self.types[..object].iter().filter(|name| *name == own);
        format!("{own}{}", earlier.count())
    }

    /// The targets of an object for one role.
    pub fn targets<'a>(&'a self, from: usize, role: &'a str) -> impl Iterator<Item = usize> + 'a {
        let links = self.links.iter();
        links
            .filter(move |link| link.from == from && link.role == role)
            .map(|link| link.to)
    }

    /// The link is there.
    pub fn has_link(&self, from: usize, role: &str, to: usize) -> bool {
        self.targets(from, role).any(|target| target == to)
    }

    /// The value of an object's attribute.
    pub fn value(&self, object: usize, attribute: &str) -> Option<&Value> {
        let mut values = self.values.iter();
        values.find(|value| value.object == object && value.attribute == attribute)
    }
}
