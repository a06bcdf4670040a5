//! Record files at each limit of the format: one below, at it, one above, and above it malformed.

use crate::fields::{file, Field};
use crate::names::{numbered, of_length};
use crate::plan::{Link, RecordPlan, Value};

/// Record files around every limit.
pub fn record_files() -> Vec<Vec<u8>> {
    let mut files = Vec::new();
    files.extend(object_counts());
    for count in [255, 256, 257] {
        files.push(with_values(count).file());
        files.extend(with_one_more(&with_values(count), 0x62));
    }
    for count in [2047, 2048, 2049] {
        files.push(with_links(count).file());
        files.extend(with_one_more(&with_links(count), 0x63));
    }
    files.extend(name_lengths());
    files.extend(numbers());
    files.push(largest().file());
    files
}

/// Counts of 0 to 9 in the first field, each with fewer, as many and more objects behind it.
fn object_counts() -> Vec<Vec<u8>> {
    let mut files = Vec::new();
    for count in [0, 1, 7, 8, 9, 255] {
        for objects in [0, 1, 2, 6, 7, 8, 9] {
            let mut fields = RecordPlan {
                objects: vec![b"A".to_vec(); objects],
                ..RecordPlan::default()
            }
            .fields();
            fields[0].content[0] = count;
            files.push(file(&fields));
            fields.push(Field::new(0x63, &[0, 1, b'r', 7]));
            files.push(file(&fields));
            fields.push(Field::new(0x61, &[]));
            files.push(file(&fields));
        }
    }
    files
}

/// An unnamed value.
fn value(object: usize, attribute: &[u8]) -> Value {
    Value {
        object: object as u8,
        attribute: attribute.to_vec(),
        value_type: b"V".to_vec(),
        constant: Vec::new(),
    }
}

/// Eight objects with so many values.
fn with_values(count: usize) -> RecordPlan {
    let all = (0..8).flat_map(|o| (0..33).map(move |a| value(o, &numbered(b"x", a))));
    RecordPlan {
        objects: vec![b"A".to_vec(); 8],
        values: all.take(count).collect(),
        links: Vec::new(),
    }
}

/// Eight objects with so many links.
fn with_links(count: usize) -> RecordPlan {
    let each = |from: usize, role: usize, to: usize| Link {
        from: from as u8,
        role: numbered(b"r", role),
        to: to as u8,
    };
    let all = (0..8).flat_map(|o| (0..33).flat_map(move |r| (0..8).map(move |p| each(o, r, p))));
    RecordPlan {
        objects: vec![b"A".to_vec(); 8],
        values: Vec::new(),
        links: all.take(count).collect(),
    }
}

/// The file with one more field that has a fault of its own.
fn with_one_more(plan: &RecordPlan, tag: u8) -> Vec<Vec<u8>> {
    let front = plan.file();
    let tails: [&[u8]; 4] = [
        &[tag, 0, 0],
        &[tag, 0, 1],
        &[0x61, 0, 2, 1, 65],
        &[0x64, 0, 0],
    ];
    tails.iter().map(|tail| [&front, *tail].concat()).collect()
}

/// One object with a value and a link of itself.
fn base() -> RecordPlan {
    RecordPlan {
        objects: vec![b"A".to_vec()],
        values: vec![value(0, b"x")],
        links: vec![Link {
            from: 0,
            role: b"r".to_vec(),
            to: 0,
        }],
    }
}

/// Names of each length at each place of a name.
fn name_lengths() -> Vec<Vec<u8>> {
    let mut plans = Vec::new();
    for length in [0, 1, 15, 16, 17, 255] {
        let name = of_length(b'n', length);
        let mut at_each_place = vec![base(), base(), base(), base(), base()];
        at_each_place[0].objects[0] = name.clone();
        at_each_place[1].values[0].attribute = name.clone();
        at_each_place[2].values[0].value_type = name.clone();
        at_each_place[3].values[0].constant = name.clone();
        at_each_place[4].links[0].role = name;
        plans.append(&mut at_each_place);
    }
    plans.iter().map(RecordPlan::file).collect()
}

/// Files in which one byte of a content takes values around its limits.
fn numbers() -> Vec<Vec<u8>> {
    let mut files = Vec::new();
    for (field, content) in base().fields().iter().map(|f| f.content.len()).enumerate() {
        for at in 0..content {
            for number in [
                0, 1, 2, 7, 8, 9, 16, 17, 47, 48, 57, 58, 64, 95, 96, 123, 128, 255,
            ] {
                let mut fields = base().fields();
                fields[field].content[at] = number;
                files.push(file(&fields));
            }
        }
    }
    files
}

/// The longest record that a diagram allows: every count and every name at its limit.
pub fn largest() -> RecordPlan {
    let long = |letter: u8, at: usize| numbered(&of_length(letter, 12), at);
    let mut record = RecordPlan {
        objects: vec![of_length(b't', 16); 8],
        ..RecordPlan::default()
    };
    for object in 0..8u8 {
        for at in 0..32 {
            record.values.push(Value {
                object,
                attribute: long(b'a', at),
                value_type: of_length(b'v', 16),
                constant: of_length(b'c', 16),
            });
            for to in 0..8 {
                record.links.push(Link {
                    from: object,
                    role: long(b'r', at),
                    to,
                });
            }
        }
    }
    record
}
