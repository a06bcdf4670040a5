//! Diagrams typed as text, as rows of words and marks: with and without what may be left out, the
//! declarations in any order.

use crate::arrangement::arranged;
use crate::editions::NO_UPPER_LIMIT;
use crate::names::{one_of, FOREIGN, TYPES};
use crate::plan::{Association, DiagramPlan, End, Type, ValueType};
use crate::random::Random;

/// A word or a mark.
pub type Token = Vec<u8>;

/// A text before its blanks, and the diagram that it declares.
#[derive(Clone, Debug, PartialEq, Eq)]
pub struct TextPlan {
    pub tokens: Vec<Token>,
    pub plan: DiagramPlan,
}

/// The diagram as a text in an order that the rules allow. Roles may become those that an end has
/// where its role is left out.
pub fn text(random: &mut Random, plan: &DiagramPlan) -> TextPlan {
    let (mut plan, declared) = arranged(random, plan);
    shorten_roles(random, &mut plan);
    let tokens = tokens(random, &plan, declared);
    TextPlan { tokens, plan }
}

/// The tokens of a plan that a reader may have to refuse, in the order of the plan; what names
/// nothing is spelled as a name that nobody declares.
pub fn faulty_text(random: &mut Random, plan: &DiagramPlan) -> Vec<Token> {
    let mut plan = plan.clone();
    plan.attributes.sort_by_key(|attribute| attribute.owner);
    let declared = random.between(0, plan.value_types.len());
    tokens(random, &plan, declared)
}

/// Gives some ends the role that they have where none is written.
fn shorten_roles(random: &mut Random, plan: &mut DiagramPlan) {
    let types = &plan.types;
    for association in &mut plan.associations {
        for end in [&mut association.left, &mut association.right] {
            if random.chance(1, 3) {
                end.role = left_out_role(&types[usize::from(end.of)].name);
            }
        }
    }
}

/// A type's name, its first byte lowered if that is a capital.
fn left_out_role(name: &[u8]) -> Vec<u8> {
    let mut role = name.to_vec();
    if let Some(first) = role.first_mut() {
        first.make_ascii_lowercase();
    }
    role
}

/// The whole text; types, enumerations and associations each in their order, mixed with each other.
fn tokens(random: &mut Random, plan: &DiagramPlan, declared: usize) -> Vec<Token> {
    let enumerations = plan.value_types.iter().take(declared);
    let mut rows: [Vec<Vec<Token>>; 3] = [
        enumerations.map(enumeration).collect(),
        (0..plan.types.len())
            .map(|at| type_declaration(random, plan, at))
            .collect(),
        plan.associations
            .iter()
            .map(|a| association(random, plan, a))
            .collect(),
    ];
    let mut tokens = words(&["classdiagram"]);
    tokens.push(one_of(random, &TYPES));
    push(&mut tokens, "{");
    for declaration in mixed(random, &mut rows) {
        tokens.extend(declaration);
    }
    push(&mut tokens, "}");
    tokens
}

/// The entries of all rows, each row in its order.
fn mixed(random: &mut Random, rows: &mut [Vec<Vec<Token>>; 3]) -> Vec<Vec<Token>> {
    let mut turns: Vec<usize> = Vec::new();
    for (at, row) in rows.iter_mut().enumerate() {
        turns.extend(vec![at; row.len()]);
        row.reverse();
    }
    if random.chance(3, 4) {
        random.shuffle(&mut turns);
    }
    turns.iter().filter_map(|at| rows[*at].pop()).collect()
}

/// Tokens of one letter or more each.
fn words(words: &[&str]) -> Vec<Token> {
    words.iter().map(|word| word.as_bytes().to_vec()).collect()
}

/// Adds a token.
fn push(tokens: &mut Vec<Token>, token: &str) {
    tokens.push(token.as_bytes().to_vec());
}

/// Adds names with commas between.
fn push_names(tokens: &mut Vec<Token>, names: &[Vec<u8>]) {
    for (at, name) in names.iter().enumerate() {
        if at > 0 {
            push(tokens, ",");
        }
        tokens.push(name.clone());
    }
}

/// `enum State {spare, working;}` or `enum Serial;`
fn enumeration(value_type: &ValueType) -> Vec<Token> {
    let mut tokens = words(&["enum"]);
    tokens.push(value_type.name.clone());
    if value_type.constants.is_empty() {
        push(&mut tokens, ";");
        return tokens;
    }
    push(&mut tokens, "{");
    push_names(&mut tokens, &value_type.constants);
    tokens.extend(words(&[";", "}"]));
    tokens
}

/// A class or an interface.
fn type_declaration(random: &mut Random, plan: &DiagramPlan, at: usize) -> Vec<Token> {
    let of = &plan.types[at];
    let mut tokens = words(match of.kind {
        0 => &["class"],
        1 => &["abstract", "class"],
        2 => &["interface"],
        _ => &["<<", "singleton", ">>", "class"],
    });
    tokens.push(of.name.clone());
    push_parents(random, &mut tokens, plan, of);
    push_body(random, &mut tokens, plan, at);
    tokens
}

/// Adds the parents in any order, each behind the keyword that its kind calls for.
fn push_parents(random: &mut Random, tokens: &mut Vec<Token>, plan: &DiagramPlan, of: &Type) {
    let is_interface = |parent: &u8| {
        let parent = plan.types.get(usize::from(*parent));
        of.kind != 2 && parent.is_some_and(|parent| parent.kind == 2)
    };
    let (interfaces, classes): (Vec<u8>, Vec<u8>) =
        of.parents.iter().partition(|p| is_interface(p));
    for (keyword, parents) in [("extends", classes), ("implements", interfaces)] {
        if !parents.is_empty() {
            let mut names: Vec<Vec<u8>> = parents.iter().map(|p| type_name(plan, *p)).collect();
            random.shuffle(&mut names);
            push(tokens, keyword);
            push_names(tokens, &names);
        }
    }
}

/// Adds `;` or attributes in braces; a class without attributes may have either.
fn push_body(random: &mut Random, tokens: &mut Vec<Token>, plan: &DiagramPlan, at: usize) {
    let of = &plan.types[at];
    let attributes = plan.attributes.iter();
    let own: Vec<_> = attributes.filter(|a| usize::from(a.owner) == at).collect();
    if own.is_empty() && (of.kind == 2 || random.chance(1, 2)) {
        push(tokens, ";");
        return;
    }
    push(tokens, "{");
    for attribute in own {
        let value_type = plan.value_types.get(usize::from(attribute.value_type));
        let name = value_type.map(|value_type| value_type.name.clone());
        tokens.push(name.unwrap_or_else(|| FOREIGN[0].as_bytes().to_vec()));
        tokens.push(attribute.name.clone());
        push(tokens, ";");
    }
    push(tokens, "}");
}

/// The name of a type, or one that nobody declares.
fn type_name(plan: &DiagramPlan, of: u8) -> Vec<u8> {
    let of = plan.types.get(usize::from(of));
    of.map_or(FOREIGN[0].as_bytes().to_vec(), |of| of.name.clone())
}

/// `composition [1] Shelf (shelf) -> (cards) Card [0..4];`
fn association(random: &mut Random, plan: &DiagramPlan, association: &Association) -> Vec<Token> {
    let (left, right) = (&association.left, &association.right);
    let mut tokens = words(&[["association", "composition"][usize::from(association.form % 2)]]);
    push_limits(random, &mut tokens, left);
    tokens.push(type_name(plan, left.of));
    push_role(random, &mut tokens, plan, left);
    let arrows = ["->", "<-", "<->", "--"];
    push(
        &mut tokens,
        arrows[usize::from(association.arrow.wrapping_sub(1) % 4)],
    );
    push_role(random, &mut tokens, plan, right);
    tokens.push(type_name(plan, right.of));
    push_limits(random, &mut tokens, right);
    push(&mut tokens, ";");
    tokens
}

/// Adds the role in brackets, often nothing where it may be left out.
fn push_role(random: &mut Random, tokens: &mut Vec<Token>, plan: &DiagramPlan, end: &End) {
    let needless = end.role == left_out_role(&type_name(plan, end.of));
    if needless && random.chance(3, 4) {
        return;
    }
    push(tokens, "(");
    tokens.push(end.role.clone());
    push(tokens, ")");
}

/// Adds the limits in any of their forms.
fn push_limits(random: &mut Random, tokens: &mut Vec<Token>, end: &End) {
    let any = (end.low, end.up) == (0, NO_UPPER_LIMIT);
    if any && random.chance(1, 2) {
        return;
    }
    push(tokens, "[");
    if any && random.chance(1, 2) {
        push(tokens, "*");
    } else {
        tokens.push(integer(random, end.low));
        if end.up != end.low || random.chance(1, 2) {
            push(tokens, "..");
            tokens.push(match end.up {
                NO_UPPER_LIMIT => b"*".to_vec(),
                up => integer(random, up),
            });
        }
    }
    push(tokens, "]");
}

/// A number, now and then with zeros in front.
fn integer(random: &mut Random, number: u16) -> Token {
    let zeros = match random.below(8) {
        0 => random.between(1, 3),
        1 => random.between(0, 40),
        _ => 0,
    };
    format!("{}{number}", "0".repeat(zeros)).into_bytes()
}
