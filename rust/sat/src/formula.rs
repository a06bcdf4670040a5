//! Formulas in conjunctive normal form, and the gates that they are built from.

use std::collections::HashMap;
use std::fmt::Write;
use std::ops::Not;

/// A variable, or its negation: the variable's number, or that number below zero.
#[derive(Clone, Copy, Debug, PartialEq, Eq, PartialOrd, Ord, Hash)]
pub struct Literal(pub i32);

/// The literal that always holds, and the one that never does.
pub const TRUE: Literal = Literal(1);
pub const FALSE: Literal = Literal(-1);

impl Not for Literal {
    type Output = Literal;

    fn not(self) -> Literal {
        Literal(-self.0)
    }
}

/// Clauses over variables numbered from 1; a clause is a list of literals one of which holds.
pub struct Formula {
    pub variables: i32,
    pub clauses: Vec<Vec<Literal>>,
    /// The gates built so far by their inputs, so that none is built twice.
    gates: HashMap<Vec<Literal>, Literal>,
}

impl Formula {
    /// The formula that asks for nothing.
    pub fn new() -> Self {
        Formula {
            variables: 1,
            clauses: vec![vec![TRUE]],
            gates: HashMap::new(),
        }
    }

    /// A further variable.
    pub fn variable(&mut self) -> Literal {
        self.variables += 1;
        Literal(self.variables)
    }

    /// Asks that one of these holds.
    pub fn one_of(&mut self, literals: &[Literal]) {
        self.clauses.push(literals.to_vec());
    }

    /// Asks that no two of these hold.
    pub fn at_most_one(&mut self, literals: &[Literal]) {
        for (at, one) in literals.iter().enumerate() {
            for other in &literals[..at] {
                self.one_of(&[!*one, !*other]);
            }
        }
    }

    /// Holds exactly when all inputs do.
    pub fn and(&mut self, inputs: &[Literal]) -> Literal {
        let mut inputs: Vec<Literal> = inputs.iter().copied().filter(|i| *i != TRUE).collect();
        inputs.sort();
        inputs.dedup();
        if inputs.iter().any(|i| *i == FALSE || inputs.contains(&!*i)) {
            return FALSE;
        }
        match inputs[..] {
            [] => TRUE,
            [single] => single,
            _ => self.gate(inputs),
        }
    }

    /// The variable that stands for all of two or more inputs.
    fn gate(&mut self, inputs: Vec<Literal>) -> Literal {
        if let Some(known) = self.gates.get(&inputs) {
            return *known;
        }
        let all = self.variable();
        for input in &inputs {
            self.one_of(&[!all, *input]);
        }
        let mut clause: Vec<Literal> = inputs.iter().map(|i| !*i).collect();
        clause.push(all);
        self.one_of(&clause);
        self.gates.insert(inputs, all);
        all
    }

    /// Holds exactly when some input does.
    pub fn or(&mut self, inputs: &[Literal]) -> Literal {
        let negated: Vec<Literal> = inputs.iter().map(|i| !*i).collect();
        !self.and(&negated)
    }

    /// Holds exactly when the second does wherever the first does.
    pub fn implies(&mut self, one: Literal, other: Literal) -> Literal {
        self.or(&[!one, other])
    }

    /// Holds exactly when both hold or neither does.
    pub fn same(&mut self, one: Literal, other: Literal) -> Literal {
        let (there, back) = (self.implies(one, other), self.implies(other, one));
        self.and(&[there, back])
    }

    /// The formula as solvers read it (DIMACS).
    pub fn text(&self) -> String {
        let mut text = format!("p cnf {} {}\n", self.variables, self.clauses.len());
        for clause in &self.clauses {
            for literal in clause {
                write!(text, "{} ", literal.0).expect("text can grow");
            }
            text.push_str("0\n");
        }
        text
    }
}
