//! The converter between the editions of a diagram file.

use crate::diagram_file::read_diagram;
use crate::diagram_writer::write_diagram;
use crate::edition::Edition;
use crate::refusal::{require, BUFFER_SMALL, LIMIT_ABOVE_100};

/// Writes the file's diagram as a file of the other edition to the front of the buffer and gives its
/// length: "25 when an edition 2 file with a finite limit above 100 is to become edition 1, after the
/// file's own refusals; then 20 for the buffer".
pub fn convert(file: &[u8], buffer: &mut [u8]) -> Result<usize, u8> {
    let diagram = read_diagram(file)?;
    let edition = Edition::of_file(file).expect("an accepted file states its edition");
    let other = edition.other();
    require(other.holds(&diagram), LIMIT_ABOVE_100)?;
    require(buffer.len() >= 4_096, BUFFER_SMALL)?;
    let written = write_diagram(other, &diagram);
    buffer[..written.len()].copy_from_slice(&written);
    Ok(written.len())
}
