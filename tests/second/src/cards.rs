//! Cards and slips, packed and unpacked.

use crate::table::{Pair, Program};
use crate::{refusal, Refusal};

/// The most changes of a slip.
pub const CHANGES: usize = 32;

/// The length of a card of n slots.
pub fn card_length(n: usize) -> usize {
    (6 + 4 * n + 7) / 8
}

/// The length of a slip of m changes.
pub fn slip_length(m: usize) -> usize {
    (6 + 9 * m + 7) / 8
}

/// The bits of bytes, the most significant first.
pub fn bits_of(bytes: &[u8]) -> Vec<bool> {
    bytes.iter().flat_map(|byte| (0..8).rev().map(move |at| byte >> at & 1 == 1)).collect()
}

/// The bytes of bits, zero bits filling the last.
pub fn bytes_of(bits: &[bool]) -> Vec<u8> {
    let byte = |bits: &[bool]| bits.iter().zip((0..8).rev()).map(|(bit, at)| u8::from(*bit) << at).sum();
    bits.chunks(8).map(byte).collect()
}

/// The number in bits, the most significant first.
fn number(bits: &[bool]) -> u8 {
    bits.iter().fold(0, |so_far, bit| 2 * so_far + u8::from(*bit))
}

/// The bits of a number in a field of a width.
fn field(number: u8, width: usize) -> Vec<bool> {
    (0..width).rev().map(|at| number >> at & 1 == 1).collect()
}

/// The count in the first six bits of bytes that are not empty.
fn count(bits: &[bool]) -> usize {
    number(&bits[..6]) as usize
}

/// The bytes of a card's values, whatever they are.
pub fn card_bytes(values: &[u8]) -> Vec<u8> {
    let fields = values.iter().flat_map(|value| field(*value, 4));
    bytes_of(&field(values.len() as u8, 6).into_iter().chain(fields).collect::<Vec<bool>>())
}

/// The bytes of a slip's changes, whatever they are.
pub fn slip_bytes(changes: &[Pair]) -> Vec<u8> {
    let fields = changes.iter().flat_map(|pair| [field(pair.0, 5), field(pair.1, 4)].concat());
    bytes_of(&field(changes.len() as u8, 6).into_iter().chain(fields).collect::<Vec<bool>>())
}

/// Refuses with 21 a count that is not the slots', with 22 the first value above its slot's last.
fn card_values(program: &Program, values: &[u8]) -> Result<(), Refusal> {
    if values.len() != program.lasts.len() {
        return Err(refusal(21, 0));
    }
    match values.iter().zip(&program.lasts).position(|(value, last)| value > last) {
        Some(slot) => Err(refusal(22, slot)),
        None => Ok(()),
    }
}

/// The values in a card of its own count's length, and whether its padding is zero; or 20.
pub fn card_fields(card: &[u8]) -> Result<(Vec<u8>, bool), Refusal> {
    let bits = bits_of(card);
    if card.is_empty() || card.len() != card_length(count(&bits)) {
        return Err(refusal(20, 0));
    }
    let (fields, padding) = bits[6..].split_at(4 * count(&bits));
    Ok((fields.chunks(4).map(number).collect(), !padding.contains(&true)))
}

/// The values of a card, or its refusal 20 to 23.
pub fn unpack_card(program: &Program, card: &[u8]) -> Result<Vec<u8>, Refusal> {
    let (values, padded) = card_fields(card)?;
    card_values(program, &values)?;
    if padded {
        Ok(values)
    } else {
        Err(refusal(23, 0))
    }
}

/// The number 25, 26 or 27 of a faulty change, given the one before it.
pub fn change_fault(program: &Program, before: Option<Pair>, change: Pair) -> Option<u8> {
    let last = match program.lasts.get(change.0 as usize) {
        Some(last) => last,
        _ => {
            return Some(25);
        }
    };
    if before.map_or(false, |before| change.0 <= before.0) {
        return Some(26);
    }
    (change.1 > *last).then_some(27)
}

/// The number of each change that is faulty, with its position.
pub fn faulty_changes(program: &Program, changes: &[Pair]) -> Vec<(usize, u8)> {
    let before = |at: usize| at.checked_sub(1).map(|at| changes[at]);
    let fault = |at: usize| change_fault(program, before(at), changes[at]).map(|number| (at, number));
    (0..changes.len()).filter_map(fault).collect()
}

/// Refuses the first faulty change by 25, 26 or 27 and its position.
fn slip_changes(program: &Program, changes: &[Pair]) -> Result<(), Refusal> {
    match faulty_changes(program, changes).first() {
        Some((at, number)) => Err(refusal(*number, *at)),
        None => Ok(()),
    }
}

/// The changes in a slip of its own count's length, and whether its padding is zero; or 24.
pub fn slip_fields(slip: &[u8]) -> Result<(Vec<Pair>, bool), Refusal> {
    let bits = bits_of(slip);
    if slip.is_empty() || slip.len() != slip_length(count(&bits)) {
        return Err(refusal(24, 0));
    }
    let (fields, padding) = bits[6..].split_at(9 * count(&bits));
    let changes = fields.chunks(9).map(|bits| (number(&bits[..5]), number(&bits[5..]))).collect();
    Ok((changes, !padding.contains(&true)))
}

/// The changes of a slip, or its refusal 24 to 28.
pub fn unpack_slip(program: &Program, slip: &[u8]) -> Result<Vec<Pair>, Refusal> {
    let (changes, padded) = slip_fields(slip)?;
    slip_changes(program, &changes)?;
    if padded {
        Ok(changes)
    } else {
        Err(refusal(28, 0))
    }
}

/// The bytes of a card, or its refusal 21 or 22.
pub fn pack_card(program: &Program, values: &[u8]) -> Result<Vec<u8>, Refusal> {
    card_values(program, values)?;
    Ok(card_bytes(values))
}

/// The bytes of a slip, or its refusal 24 to 27.
pub fn pack_slip(program: &Program, changes: &[Pair]) -> Result<Vec<u8>, Refusal> {
    if changes.len() > CHANGES {
        return Err(refusal(24, 0));
    }
    slip_changes(program, changes)?;
    Ok(slip_bytes(changes))
}

/// Writes bytes at the start of an output, or refuses with 30 and the output's number.
pub fn put(bytes: &[u8], output: &mut [u8], which: usize) -> Result<usize, Refusal> {
    let room = output.get_mut(..bytes.len()).ok_or(refusal(30, which))?;
    room.copy_from_slice(bytes);
    Ok(bytes.len())
}
