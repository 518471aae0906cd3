//! One input of the benchmark: a rule text with a card and a slip.

use crate::cards::{bytes_for, write_card, write_slip};
use crate::raw::SLIP_BYTES;
use crate::table::SLOTS;

/// A rule text with a card and a slip, under a name that says what it holds.
pub struct Input {
    pub name: String,
    pub text: Vec<u8>,
    pub card: Vec<u8>,
    pub slip: Vec<u8>,
    /// The series that it stands in, if any.
    pub series: Option<Series>,
}

/// A series of inputs of growing size.
#[derive(Clone, Copy, PartialEq, Eq)]
pub enum Series {
    /// From the smallest to the largest, all measures growing.
    Growing,
    /// The same kind of rules, their number growing alone.
    Alike,
}

/// The text of lines, filled with white space between them up to a length.
pub fn filled(lines: &[String], length: usize) -> Vec<u8> {
    let used: usize = lines.iter().map(|line| line.len() + 1).sum();
    let more = length.saturating_sub(used);
    let mut text = Vec::new();
    for (at, line) in lines.iter().enumerate() {
        text.extend(line.as_bytes());
        let spaces = more / lines.len() + usize::from(at < more % lines.len());
        text.resize(text.len() + spaces, b' ');
        text.push(b'\n');
    }
    text
}

/// A card's bytes, its values from 1, 0 for none.
pub fn card_bytes(values: &[usize]) -> Vec<u8> {
    let mut all = [0; SLOTS];
    all.iter_mut().zip(values).for_each(|(to, from)| *to = *from as u8);
    let mut bytes = vec![0; bytes_for(6 + 4 * values.len())];
    write_card(&all, values.len(), &mut bytes);
    bytes
}

/// The bytes of a slip of slots, from 0, and values, from 1, 0 for NONE.
pub fn slip_bytes(changes: &[(usize, usize)]) -> Vec<u8> {
    let mut all = [0; SLOTS];
    changes.iter().for_each(|(slot, value)| all[*slot] = 1 << value);
    let mut bytes = vec![0; SLIP_BYTES];
    let size = write_slip(&all, &mut bytes);
    bytes.truncate(size);
    bytes
}
