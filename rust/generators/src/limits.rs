//! Diagram files at each limit of the format: one below, at it, one above, and above it malformed.

use crate::editions::NO_UPPER_LIMIT;
use crate::fields::{file, Field};
use crate::names::{numbered, of_length};
use crate::plan::{Association, Attribute, DiagramPlan, End, Type, ValueType};

/// Diagram files of both editions around every limit.
pub fn diagram_files() -> Vec<Vec<u8>> {
    [1, 2].into_iter().flat_map(of_edition).collect()
}

/// Diagram files of an edition around every limit.
fn of_edition(edition: u8) -> Vec<Vec<u8>> {
    let mut files = Vec::new();
    for (tag, limit) in [(0x20, 12), (0x30, 24), (0x40, 32), (0x50, 16)] {
        for count in limit - 1..=limit + 1 {
            let plan = counted(edition, tag, count);
            files.push(plan.file());
            files.extend(with_one_more(&plan, tag));
        }
    }
    files.extend(sized_plans(edition).iter().map(DiagramPlan::file));
    files.extend(numbers(edition));
    files.extend(limits(edition));
    files.push(full(edition).file());
    files
}

/// A plan with one part of each kind and names of one letter.
fn base(edition: u8) -> DiagramPlan {
    DiagramPlan {
        edition,
        value_types: vec![value_type(b"V", 0)],
        types: vec![class(b"A", 0)],
        attributes: vec![attribute(b"x")],
        associations: vec![association(b"l", b"r")],
    }
}

/// A value type with so many constants.
fn value_type(name: &[u8], constants: usize) -> ValueType {
    ValueType {
        name: name.to_vec(),
        constants: (0..constants).map(|at| numbered(b"c", at)).collect(),
    }
}

/// A class with the first so many types as parents.
fn class(name: &[u8], parents: usize) -> Type {
    Type {
        kind: 0,
        name: name.to_vec(),
        parents: (0..parents as u8).collect(),
    }
}

/// An attribute of the first type, of the first value type.
fn attribute(name: &[u8]) -> Attribute {
    Attribute {
        owner: 0,
        name: name.to_vec(),
        value_type: 0,
    }
}

/// An end at the first type, without limits.
fn end(role: &[u8]) -> End {
    End {
        of: 0,
        low: 0,
        up: NO_UPPER_LIMIT,
        role: role.to_vec(),
    }
}

/// An association of the first type with itself.
fn association(left: &[u8], right: &[u8]) -> Association {
    Association {
        form: 0,
        arrow: 1,
        left: end(left),
        right: end(right),
    }
}

/// The base with `count` fields of one tag.
fn counted(edition: u8, tag: u8, count: usize) -> DiagramPlan {
    let mut plan = base(edition);
    match tag {
        0x20 => {
            plan.value_types = (0..count)
                .map(|i| value_type(&numbered(b"V", i), i % 3))
                .collect()
        }
        0x30 => {
            plan.types = (0..count)
                .map(|i| class(&numbered(b"T", i), i.min(4)))
                .collect()
        }
        0x40 => plan.attributes = (0..count).map(|i| attribute(&numbered(b"x", i))).collect(),
        _ => {
            plan.associations = (0..count)
                .map(|i| association(&numbered(b"l", i), b"r"))
                .collect()
        }
    }
    plan
}

/// The fields up to the last of this tag, and then one more that has a fault of its own.
fn with_one_more(plan: &DiagramPlan, tag: u8) -> Vec<Vec<u8>> {
    let kept: Vec<Field> = plan.fields().into_iter().filter(|f| f.tag <= tag).collect();
    let front = file(&kept);
    let tails: [&[u8]; 5] = [
        &[tag, 0, 0],
        &[tag, 0, 1],
        &[0x10, 0, 1, 1],
        &[0x10, 0, 1, 2],
        &[tag, 0, 3, 200, 1, 200],
    ];
    tails.iter().map(|tail| [&front, *tail].concat()).collect()
}

/// Plans with names, constants and parents around their limits.
fn sized_plans(edition: u8) -> Vec<DiagramPlan> {
    let mut plans = Vec::new();
    for length in [0, 1, 15, 16, 17, 255] {
        let name = of_length(b'n', length);
        let mut at_each_place = vec![base(edition); 6];
        at_each_place[0].value_types[0].name = name.clone();
        at_each_place[1].value_types[0].constants = vec![name.clone()];
        at_each_place[2].types[0].name = name.clone();
        at_each_place[3].attributes[0].name = name.clone();
        at_each_place[4].associations[0].left.role = name.clone();
        at_each_place[5].associations[0].right.role = name;
        plans.append(&mut at_each_place);
    }
    for count in 7..=9 {
        let mut plan = base(edition);
        plan.value_types[0] = value_type(b"V", count);
        plans.push(plan);
    }
    for count in 3..=6 {
        let mut plan = base(edition);
        plan.types = (0..6).map(|i| class(&numbered(b"T", i), 0)).collect();
        plan.types.push(class(b"X", count));
        plans.push(plan);
    }
    plans
}

/// Bytes around the limits of what a byte may say.
const BYTES: [u8; 14] = [0, 1, 2, 3, 4, 5, 99, 100, 101, 127, 128, 200, 254, 255];

/// Two bytes around the limits of what they may say as one number; 40,975 and 41,231 are 4,000 and
/// 4,001 with their bytes exchanged.
const PAIRS: [u16; 20] = [
    0, 1, 2, 99, 100, 101, 127, 128, 254, 255, 256, 257, 512, 3_999, 4_000, 4_001, 40_975, 41_231,
    65_534, 65_535,
];

/// Files in which one byte of a field takes values around its limits.
fn numbers(edition: u8) -> Vec<Vec<u8>> {
    let mut files = Vec::new();
    let fields = base(edition).fields();
    for (field, content) in fields.iter().map(|f| f.content.len()).enumerate() {
        for at in 0..content {
            for number in BYTES {
                let mut fields = fields.clone();
                fields[field].content[at] = number;
                files.push(file(&fields));
            }
        }
    }
    files
}

/// Files in which the limits of either end take values around the range of the edition.
fn limits(edition: u8) -> Vec<Vec<u8>> {
    let tried = match edition {
        1 => BYTES.map(u16::from).to_vec(),
        _ => PAIRS.to_vec(),
    };
    let mut files = Vec::new();
    for low in &tried {
        for up in &tried {
            let limited = |role: &[u8]| End {
                low: *low,
                up: *up,
                ..end(role)
            };
            let (mut left, mut right) = (base(edition), base(edition));
            left.associations[0].left = limited(b"l");
            right.associations[0].right = limited(b"r");
            files.extend([left.file(), right.file()]);
        }
    }
    files
}

/// A diagram that is as large as the edition allows, in every number and every name.
pub fn full(edition: u8) -> DiagramPlan {
    let long = |letter: u8, at: usize| numbered(&of_length(letter, 12), at);
    DiagramPlan {
        edition,
        value_types: (0..12)
            .map(|at| ValueType {
                name: long(b'v', at),
                constants: (0..8).map(|c| long(b'c', c)).collect(),
            })
            .collect(),
        types: (0..24)
            .map(|at| class(&long(b't', at), at.min(4)))
            .collect(),
        attributes: (0..32)
            .map(|at| Attribute {
                owner: at as u8 % 24,
                name: long(b'a', at),
                value_type: at as u8 % 12,
            })
            .collect(),
        associations: (0..16)
            .map(|at| Association {
                form: 1,
                arrow: 3,
                ..association(&long(b'l', at), &long(b'r', at))
            })
            .collect(),
    }
}
