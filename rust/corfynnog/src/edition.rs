//! The editions of diagram files, which differ in how the limits of associations are written.

/// An edition of the diagram file.
#[derive(Clone, Copy, Debug, PartialEq, Eq)]
pub struct Edition {
    /// As the first field of a file says it.
    pub number: usize,
    /// A limit has two bytes, high byte first, and not one.
    pub is_wide: bool,
    /// The largest limit.
    pub most: usize,
    /// The number that stands for no upper limit.
    pub none: usize,
}

/// Limits in one byte.
pub const EDITION_1: Edition = Edition {
    number: 1,
    is_wide: false,
    most: 100,
    none: 255,
};

/// Limits in two bytes.
pub const EDITION_2: Edition = Edition {
    number: 2,
    is_wide: true,
    most: 4_000,
    none: 65_535,
};

impl Edition {
    /// The edition of that number, if there is one.
    pub fn of(number: usize) -> Option<Edition> {
        let mut all = [EDITION_1, EDITION_2].into_iter();
        all.find(|edition| edition.number == number)
    }

    /// The edition of a diagram file, by its byte for it.
    pub fn of_file(file: &[u8]) -> Option<Edition> {
        let number = file.get(3)?;
        Edition::of(usize::from(*number))
    }

    /// The other one of the two.
    pub fn other(self) -> Edition {
        match self.is_wide {
            true => EDITION_1,
            false => EDITION_2,
        }
    }

    /// The bytes of a limit in words.
    pub fn limit_bytes(self) -> &'static str {
        match self.is_wide {
            true => "two bytes",
            false => "one byte",
        }
    }
}
