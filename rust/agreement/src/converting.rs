//! Does the product convert a file to the other edition as the independent converter does, and back?

use crate::rows::on_both_sides;
use boundary::CONVERT_ROOM;
use brute::{read_diagram, Edition};
use generators::damage::damaged;
use generators::diagrams::{diagram, LARGE, SMALL};
use generators::edition_faults::with_edition_fault;
use generators::editions::in_any_edition;
use generators::faults::faulty;
use generators::hex::hex;
use generators::records::record;
use generators::rows::any_convert_room;
use generators::text_layout::laid_out;
use generators::texts::text;
use generators::{CallPlan, Random};

/// How often each status byte came (0: converted), and how many files of edition 1 and of edition 2
/// were written.
#[derive(Default, Debug)]
pub struct Tally {
    pub statuses: [usize; 26],
    pub written: [usize; 2],
}

/// The files of a seed: a diagram in either edition, whole, with faults and damaged; a record and a
/// text.
pub fn files(seed: u64) -> Vec<Vec<u8>> {
    let mut random = Random::new(seed);
    let size = if random.chance(1, 8) { LARGE } else { SMALL };
    let mut files = Vec::new();
    for _ in 0..4 {
        let plan = diagram(&mut random, size);
        files.push(in_any_edition(&mut random, &plan).file());
    }
    let plan = diagram(&mut random, size);
    files.push(faulty(&mut random, &plan).file());
    files.push(with_edition_fault(&mut random, &plan));
    files.push(damaged(&mut random, &plan.fields()));
    files.push(record(&mut random, &plan, 8).file());
    let tokens = text(&mut random, &plan).tokens;
    files.push(laid_out(&mut random, &tokens));
    files
}

/// Converts each file on both sides, into a buffer of any length that holds any bytes.
pub fn conversions_agree(seed: u64, files: &[Vec<u8>], tally: &mut Tally) {
    // Other numbers than those that made the files.
    let mut random = Random::new(!seed);
    for file in files {
        let room = any_convert_room(&mut random);
        let shown = format!("seed {seed}, room {room}, file {}", hex(file));
        let reply = converted(&mut random, file, room, &shown);
        let status = reply.as_ref().err().copied().unwrap_or(0);
        tally.statuses[usize::from(status)] += 1;
        if let Ok(written) = reply {
            assert_eq!(read_diagram(&written), read_diagram(file), "{shown}");
            let edition = edition_of(&written, &shown);
            assert_eq!(edition.other(), edition_of(file, &shown), "{shown}");
            let again = converted(&mut random, &written, CONVERT_ROOM, &shown);
            assert_eq!(again.as_ref(), Ok(file), "converted twice\n{shown}");
            tally.written[usize::from(edition.byte()) - 1] += 1;
        }
    }
}

/// What the product writes into a buffer of so many bytes, or its refusal. The whole reply must be
/// the independent one.
fn converted(random: &mut Random, file: &[u8], room: u32, shown: &str) -> Result<Vec<u8>, u8> {
    let call = CallPlan::Convert {
        file: file.to_vec(),
        room,
    };
    let behind = random.below(10);
    let space = call.longest_reply() + behind;
    let before = (0..space).map(|_| random.byte()).collect();
    let mut list = Vec::new();
    call.put(&mut list);
    let both = on_both_sides(&list, before, shown);
    let (head, buffer) = both.same_replies(shown).split_at(5);
    match head[0] {
        0 => {
            let length = u32::from_be_bytes([head[1], head[2], head[3], head[4]]) as usize;
            Ok(buffer[..length].to_vec())
        }
        refusal => Err(refusal),
    }
}

/// The edition of a file that was converted.
fn edition_of(file: &[u8], shown: &str) -> Edition {
    Edition::of_file(file).unwrap_or_else(|| panic!("no edition\n{shown}"))
}
