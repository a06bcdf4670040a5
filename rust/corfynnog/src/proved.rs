//! What the proved library says about files. Every verdict of this program comes from here, but for
//! those of `marked`, which asks the library itself.

use std::ffi::OsStr;

use boundary::{try_run, Call, Reply, CONVERT_ROOM, HAND_OUT_ROOM};

use crate::diagram::Diagram;
use crate::diagram_file::{first_large_limit, read_diagram};
use crate::disk::Loaded;
use crate::fields::{DIAGRAM, RECORD};
use crate::file_trouble::RefusedFile;
use crate::kinds::{is_site_text, is_text};
use crate::predicates::Predicate;
use crate::record::Record;
use crate::record_file::read_record;
use crate::records::{record_bytes, site};
use crate::site::NamedRecord;
use crate::text::{read_text, NamedDiagram};
use crate::text_trouble::RefusedText;
use crate::trouble::Trouble;
use crate::wrong_kind::{Wanted, WrongKind};

/// The smallest diagram file: a record file is refused or not whatever the diagram.
const NO_TYPES: &[u8] = &[0x10, 0, 1, 1];

/// A site that old allows and new forbids.
#[derive(Clone, Debug, PartialEq, Eq)]
pub struct Witness {
    pub objects: u8,
    pub file: Vec<u8>,
}

/// A verdict on a record under a diagram.
pub struct Judged {
    /// 0, or the lowest rule broken.
    pub rule: u8,
    pub predicates: Vec<Predicate>,
    /// The index of the first predicate that does not hold, or their number.
    pub first_false: usize,
}

impl Judged {
    /// The first predicate that does not hold.
    pub fn false_predicate(&self) -> Option<&Predicate> {
        self.predicates.get(self.first_false)
    }
}

/// The library's replies to a row of calls from the fresh bench.
fn run(calls: &[Call]) -> Result<Vec<Reply>, Trouble> {
    try_run(calls).map_err(|_| Trouble::NoMemory)
}

/// The call that loads a diagram, from a diagram file or from text.
fn load_call(place: u8, diagram: &Loaded) -> Call<'_> {
    let bytes = &diagram.bytes[..];
    match is_text(bytes) {
        true => Call::LoadText { place, text: bytes },
        false => Call::Load { place, file: bytes },
    }
}

/// Accepts a diagram, or says where it is refused.
pub fn check_diagram(diagram: &Loaded) -> Result<(), Trouble> {
    match run(&[load_call(0, diagram)])?[..] {
        [Reply::Done] => Ok(()),
        [Reply::Refused(refusal)] => Err(refused_diagram(diagram, refusal)),
        _ => Err(Trouble::Unexpected),
    }
}

/// Accepts a record, or says where it is refused.
pub fn check_record(record: &Loaded) -> Result<(), Trouble> {
    let file = &record_bytes(record)?[..];
    let calls = [
        Call::Load {
            place: 0,
            file: NO_TYPES,
        },
        Call::Judge { place: 0, file },
    ];
    match run(&calls)?[..] {
        [Reply::Done, Reply::Rule(_)] => Ok(()),
        [Reply::Done, Reply::Refused(refusal)] => Err(refused_record(record, file, refusal)),
        _ => Err(Trouble::Unexpected),
    }
}

/// The compiled predicates of a diagram.
pub fn compile(diagram: &Loaded) -> Result<Vec<Predicate>, Trouble> {
    check_diagram(diagram)?;
    let calls = [load_call(0, diagram), Call::Compile { place: 0 }];
    match &run(&calls)?[..] {
        [Reply::Done, Reply::Records(list)] => Ok(list.iter().map(|&e| Predicate::of(e)).collect()),
        _ => Err(Trouble::Unexpected),
    }
}

/// The verdict on a record under a diagram.
pub fn judge(diagram: &Loaded, record: &Loaded) -> Result<Judged, Trouble> {
    let predicates = compile(diagram)?;
    let file = &record_bytes(record)?[..];
    let calls = [
        load_call(0, diagram),
        Call::Judge { place: 0, file },
        Call::Evaluate { place: 0, file },
    ];
    match run(&calls)?[..] {
        [Reply::Done, Reply::Rule(rule), Reply::FirstFalse(index)] => Ok(Judged {
            rule,
            predicates,
            first_false: index.into(),
        }),
        [Reply::Done, Reply::Refused(refusal), _] => Err(refused_record(record, file, refusal)),
        _ => Err(Trouble::Unexpected),
    }
}

/// What one level of comparing gives: a smallest witness, if there is a difference.
pub fn compare(old: &Loaded, new: &Loaded, bound: u8) -> Result<Option<Witness>, Trouble> {
    let calls = [
        load_call(0, old),
        load_call(1, new),
        Call::Compare { bound },
        Call::HandOut {
            room: HAND_OUT_ROOM,
        },
    ];
    match &run(&calls)?[..] {
        [Reply::Refused(refusal), ..] => Err(refused_diagram(old, *refusal)),
        [_, Reply::Refused(refusal), ..] => Err(refused_diagram(new, *refusal)),
        [_, _, Reply::NoDifference, _] => Ok(None),
        [_, _, Reply::Difference(objects), Reply::Written { file, .. }] => Ok(Some(Witness {
            objects: *objects,
            file: file.clone(),
        })),
        _ => Err(Trouble::Unexpected),
    }
}

/// A diagram file in the edition that it does not have.
pub fn convert(file: &Loaded) -> Result<Vec<u8>, Trouble> {
    let call = Call::Convert {
        file: &file.bytes,
        room: CONVERT_ROOM,
    };
    match &run(&[call])?[..] {
        [Reply::Written { file, .. }] => Ok(file.clone()),
        [Reply::NotWritten { refusal, .. }] => Err(refused_conversion(file, *refusal)),
        _ => Err(Trouble::Unexpected),
    }
}

/// The refusal of a bound that is no number from 0 to 8, told of any bound above 8.
pub fn refused_bound(written: &OsStr) -> Trouble {
    match run(&[Call::Compare { bound: u8::MAX }]).as_deref() {
        Ok([Reply::Refused(refusal)]) => Trouble::BoundRefused {
            bound: written.to_os_string(),
            refusal: *refusal,
        },
        Ok(_) => Trouble::Unexpected,
        Err(_) => Trouble::NoMemory,
    }
}

/// A diagram that forbids every site that old allows: one singleton class, of a name that old
/// lacks.
pub fn no_site(old: &Diagram) -> Loaded {
    let is_free = |name: &String| !old.types.iter().any(|t| t.name.eq_ignore_ascii_case(name));
    let mut names = (0..).map(|number| format!("None{number}"));
    let name = names.find(is_free).unwrap_or_default();
    Loaded {
        path: "no site".into(),
        bytes: format!("classdiagram none {{ <<singleton>> class {name}; }}").into_bytes(),
    }
}

/// The refusal of a diagram, with its place where this program's own reading finds the same fault.
fn refused_diagram(diagram: &Loaded, refusal: u8) -> Trouble {
    if let Some(wrong) = WrongKind::of(diagram, Wanted::Diagram, refusal) {
        return Trouble::WrongKind(Box::new(wrong));
    }
    if is_text(&diagram.bytes) {
        return Trouble::RefusedText(Box::new(RefusedText::diagram(diagram, refusal)));
    }
    let fault = read_diagram(&diagram.bytes).err();
    Trouble::Refused(Box::new(RefusedFile::of(diagram, &DIAGRAM, refusal, fault)))
}

/// The refusal of a diagram file that is to be converted, likewise.
fn refused_conversion(file: &Loaded, refusal: u8) -> Trouble {
    if let Some(wrong) = WrongKind::of(file, Wanted::DiagramFile, refusal) {
        return Trouble::WrongKind(Box::new(wrong));
    }
    let fault = match read_diagram(&file.bytes) {
        Ok(diagram) => first_large_limit(&file.bytes, &diagram),
        Err(fault) => Some(fault),
    };
    Trouble::Refused(Box::new(RefusedFile::of(file, &DIAGRAM, refusal, fault)))
}

/// The refusal of a record, likewise; its record file is at hand.
fn refused_record(record: &Loaded, file: &[u8], refusal: u8) -> Trouble {
    if let Some(wrong) = WrongKind::of(record, Wanted::Record, refusal) {
        return Trouble::WrongKind(Box::new(wrong));
    }
    let fault = read_record(file).err();
    Trouble::Refused(Box::new(RefusedFile::of(record, &RECORD, refusal, fault)))
}

/// The names in a diagram that was accepted.
pub fn diagram_of(diagram: &Loaded) -> Result<Diagram, Trouble> {
    named_diagram_of(diagram).map(|named| named.diagram)
}

/// The names in a diagram that was accepted, its own too; a file has none of its own.
pub fn named_diagram_of(diagram: &Loaded) -> Result<NamedDiagram, Trouble> {
    let read = match is_text(&diagram.bytes) {
        true => read_text(&diagram.bytes).ok(),
        false => read_diagram(&diagram.bytes).ok().map(|read| NamedDiagram {
            name: diagram.name_of_diagram(),
            diagram: read,
        }),
    };
    read.ok_or(Trouble::Unexpected)
}

/// The names in a record that was accepted.
pub fn record_of(record: &Loaded) -> Result<Record, Trouble> {
    named_record_of(record).map(|named| named.record)
}

/// The names in a record that was accepted, its own too; a file has none of its own.
pub fn named_record_of(record: &Loaded) -> Result<NamedRecord, Trouble> {
    if is_site_text(&record.bytes) {
        return site(record);
    }
    let read = read_record(&record.bytes).map_err(|_| Trouble::Unexpected)?;
    Ok(NamedRecord {
        name: record.stem_or("record"),
        record: read,
    })
}
