//! A small reader of JSON, strict enough to find a badly written object.

use std::collections::BTreeMap;

#[derive(Clone, Debug, PartialEq)]
pub enum Value {
    Null,
    Bool(bool),
    Number(u64),
    Text(String),
    List(Vec<Value>),
    Object(BTreeMap<String, Value>),
}

impl Value {
    /// A member of an object.
    pub fn get(&self, name: &str) -> &Value {
        match self {
            Value::Object(members) => members
                .get(name)
                .unwrap_or_else(|| panic!("no member {name} in {self:?}")),
            _ => panic!("no object: {self:?}"),
        }
    }

    /// An item of a list.
    pub fn at(&self, index: usize) -> &Value {
        match self {
            Value::List(items) => &items[index],
            _ => panic!("no list: {self:?}"),
        }
    }

    /// The text of a string.
    pub fn text(&self) -> &str {
        match self {
            Value::Text(text) => text,
            _ => panic!("no string: {self:?}"),
        }
    }

    /// A number.
    pub fn number(&self) -> u64 {
        match self {
            Value::Number(number) => *number,
            _ => panic!("no number: {self:?}"),
        }
    }

    /// True or false.
    pub fn is_true(&self) -> bool {
        match self {
            Value::Bool(value) => *value,
            _ => panic!("neither true nor false: {self:?}"),
        }
    }

    /// How many items or members.
    pub fn len(&self) -> usize {
        match self {
            Value::List(items) => items.len(),
            Value::Object(members) => members.len(),
            _ => panic!("no list: {self:?}"),
        }
    }
}

/// The one value of a text that ends with a line end.
pub fn read(text: &str) -> Value {
    let line = text.strip_suffix('\n').expect("a line end");
    assert!(!line.contains('\n'), "one line: {text:?}");
    let mut rest = line;
    let value = value(&mut rest);
    assert_eq!(rest, "", "nothing behind the value");
    value
}

fn value(rest: &mut &str) -> Value {
    let first = rest.chars().next().expect("a value");
    match first {
        '{' => Value::Object(items(rest, '}', member).into_iter().collect()),
        '[' => Value::List(items(rest, ']', value)),
        '"' => Value::Text(string(rest)),
        'n' => {
            expect(rest, "null");
            Value::Null
        }
        't' | 'f' => {
            let value = first == 't';
            expect(rest, &value.to_string());
            Value::Bool(value)
        }
        _ => {
            let digits = rest.len() - rest.trim_start_matches(|c: char| c.is_ascii_digit()).len();
            let number = rest[..digits].parse().expect("a number");
            *rest = &rest[digits..];
            Value::Number(number)
        }
    }
}

/// What stands between brackets, with commas between.
fn items<T>(rest: &mut &str, close: char, one: fn(&mut &str) -> T) -> Vec<T> {
    *rest = &rest[1..];
    let mut found = Vec::new();
    if let Some(behind) = rest.strip_prefix(close) {
        *rest = behind;
        return found;
    }
    loop {
        found.push(one(rest));
        if let Some(behind) = rest.strip_prefix(close) {
            *rest = behind;
            return found;
        }
        expect(rest, ", ");
    }
}

fn member(rest: &mut &str) -> (String, Value) {
    let name = string(rest);
    expect(rest, ": ");
    (name, value(rest))
}

fn string(rest: &mut &str) -> String {
    expect(rest, "\"");
    let mut text = String::new();
    let mut letters = rest.char_indices();
    while let Some((at, letter)) = letters.next() {
        match letter {
            '"' => {
                *rest = &rest[at + 1..];
                return text;
            }
            '\\' => match letters.next().expect("an escape").1 {
                'u' => {
                    let code = u32::from_str_radix(&rest[at + 2..at + 6], 16).expect("four digits");
                    text.push(char::from_u32(code).expect("a letter"));
                    letters.nth(3);
                }
                escaped @ ('"' | '\\') => text.push(escaped),
                other => panic!("an unknown escape: {other}"),
            },
            letter => {
                assert!(!letter.is_control(), "control characters are escaped");
                text.push(letter);
            }
        }
    }
    panic!("a string without its end")
}

fn expect(rest: &mut &str, word: &str) {
    *rest = rest
        .strip_prefix(word)
        .unwrap_or_else(|| panic!("{word:?} expected in {rest:?}"));
}
