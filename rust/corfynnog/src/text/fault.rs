//! Where a text's first fault lies, and what it is in words.

/// What a text is tried for, each over the whole text before the next.
#[derive(Clone, Copy, Debug, PartialEq, Eq)]
pub enum TextRule {
    /// The text belongs to the grammar, and its names and limits are allowed.
    Grammar,
    /// What it names it declares.
    Declared,
    /// It has not too many of a kind.
    Count,
    /// What must differ differs.
    Different,
    /// A composition has its whole on the left.
    WholeOnTheLeft,
}

impl TextRule {
    /// The number of the refusal of a diagram text that breaks the rule.
    pub fn refusal(self) -> u8 {
        match self {
            TextRule::Grammar => 23,
            TextRule::Declared => 24,
            TextRule::Count => 4,
            TextRule::Different => 5,
            TextRule::WholeOnTheLeft => 8,
        }
    }
}

/// The first fault of a text by this program's own reading.
#[derive(Clone, Debug, PartialEq, Eq)]
pub struct TextFault {
    pub rule: TextRule,
    /// The byte of the text, counted from 0. What stands before it on its line is ASCII.
    pub at: usize,
    pub what: String,
    /// What to do, where that can be told better than of the rule.
    pub to_do: Option<String>,
}

impl TextFault {
    /// A fault with nothing more to tell.
    pub fn of(rule: TextRule, at: usize, what: String) -> TextFault {
        TextFault {
            rule,
            at,
            what,
            to_do: None,
        }
    }

    /// The same fault with advice.
    pub fn with(mut self, to_do: impl Into<String>) -> TextFault {
        self.to_do = Some(to_do.into());
        self
    }
}
