//! The bench: two places for diagrams, and at most one witness. Each call names its refusals in
//! the order in which they are tried.

use crate::compare::compare;
use crate::convert::convert;
use crate::diagram::Diagram;
use crate::diagram_file::read_diagram;
use crate::predicates::{compile, evaluate, Entry};
use crate::record::Record;
use crate::record_file::{read_record, write_record};
use crate::refusal::{
    require, BOUND_ABOVE_8, BUFFER_SMALL, NO_WITNESS, PLACE_ABOVE_1, PLACE_EMPTY,
};
use crate::rules::judge;
use crate::text::read_text;

/// A bench; the default is the fresh one. A refused call leaves it as it was.
#[derive(Clone, Debug, Default, PartialEq, Eq)]
pub struct Bench {
    places: [Option<Diagram>; 2],
    witness: Option<Record>,
}

impl Bench {
    /// Puts a diagram into a place and drops the witness: 10, then the file.
    pub fn load(&mut self, place: u8, file: &[u8]) -> Result<(), u8> {
        require(place <= 1, PLACE_ABOVE_1)?;
        self.store(place, read_diagram(file)?);
        Ok(())
    }

    /// Puts the diagram of a text into a place and drops the witness: 10, then the text.
    pub fn load_text(&mut self, place: u8, text: &[u8]) -> Result<(), u8> {
        require(place <= 1, PLACE_ABOVE_1)?;
        self.store(place, read_text(text)?);
        Ok(())
    }

    /// Empties a place and drops the witness: 10.
    pub fn clear(&mut self, place: u8) -> Result<(), u8> {
        require(place <= 1, PLACE_ABOVE_1)?;
        self.places[usize::from(place)] = None;
        self.witness = None;
        Ok(())
    }

    /// Gives 0 or the lowest rule broken: 10, 21, then the file.
    pub fn judge(&self, place: u8, file: &[u8]) -> Result<u8, u8> {
        let diagram = self.diagram(place)?;
        Ok(judge(diagram, &read_record(file)?))
    }

    /// Gives the compiled records: 10, 21.
    pub fn compile(&self, place: u8) -> Result<Vec<Entry>, u8> {
        Ok(compile(self.diagram(place)?))
    }

    /// Gives what the compiled records say of a record: 10, 21, then the file.
    pub fn evaluate(&self, place: u8, file: &[u8]) -> Result<u8, u8> {
        let diagram = self.diagram(place)?;
        Ok(evaluate(diagram, &read_record(file)?))
    }

    /// Gives the object count of a difference, or none where there is no difference: 9, 21.
    pub fn compare(&mut self, bound: u8) -> Result<Option<u8>, u8> {
        require(bound <= 8, BOUND_ABOVE_8)?;
        let old = self.diagram(0)?;
        let new = self.diagram(1)?;
        self.witness = compare(old, new, usize::from(bound));
        let count = |w: &Record| u8::try_from(w.objects.len()).expect("at most 8 objects");
        Ok(self.witness.as_ref().map(count))
    }

    /// Writes the witness to the front of the buffer and gives its length: 22, then 20.
    pub fn hand_out(&self, buffer: &mut [u8]) -> Result<usize, u8> {
        let witness = self.witness.as_ref().ok_or(NO_WITNESS)?;
        require(buffer.len() >= 60_000, BUFFER_SMALL)?;
        let file = write_record(witness);
        buffer[..file.len()].copy_from_slice(&file);
        Ok(file.len())
    }

    /// Writes a diagram file as the other edition to the front of the buffer and gives its length: the
    /// file, then 25 and 20. No place and no witness has to do with it.
    pub fn convert(&self, file: &[u8], buffer: &mut [u8]) -> Result<usize, u8> {
        convert(file, buffer)
    }

    /// Puts a diagram into a place that there is and drops the witness.
    fn store(&mut self, place: u8, diagram: Diagram) {
        self.places[usize::from(place)] = Some(diagram);
        self.witness = None;
    }

    /// The diagram that a call needs: 10, then 21.
    fn diagram(&self, place: u8) -> Result<&Diagram, u8> {
        require(place <= 1, PLACE_ABOVE_1)?;
        self.places[usize::from(place)].as_ref().ok_or(PLACE_EMPTY)
    }
}
