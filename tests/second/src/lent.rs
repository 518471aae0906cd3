//! Outputs lent to a call, with what it left in them and about them, and where two engines differ.

use std::fmt::Debug;

/// A difference: where it was seen, what the second engine gave, what the other gave.
#[derive(Clone, Debug)]
pub struct Difference {
    pub place: String,
    pub second: String,
    pub other: String,
}

/// Says where two results differ.
pub fn same<T: PartialEq + Debug>(place: &str, second: &T, other: &T) -> Result<(), Difference> {
    if second == other {
        return Ok(());
    }
    Err(Difference { place: place.to_string(), second: format!("{second:?}"), other: format!("{other:?}") })
}

/// The bytes before and after each lent output, which no engine may touch.
pub const MARGIN: usize = 16;

/// The contents of an output before a call: no two neighbours alike, so that a stray write is seen.
fn filled(room: usize) -> Vec<u8> {
    (0..room + 2 * MARGIN).map(|at| (at * 37 + 165) as u8).collect()
}

/// What a call left: its result and the whole of each lent output, margins too.
pub type Left<T> = (T, Vec<Vec<u8>>);

/// Lends outputs of the given lengths to a call.
pub fn lend<T, const N: usize>(rooms: [usize; N], call: impl FnOnce([&mut [u8]; N]) -> T) -> Left<T> {
    let mut whole = rooms.map(filled);
    let lent: Vec<&mut [u8]> = whole
        .iter_mut()
        .map(|output| {
            let end = output.len() - MARGIN;
            &mut output[MARGIN..end]
        })
        .collect();
    let result = call(lent.try_into().expect("as many outputs as rooms"));
    (result, whole.to_vec())
}
