//! Cards and slips, packed and unpacked in words.

use crate::table::SLOTS;
use crate::test31::Lasts;
use crate::{refusal, Refusal};

/// The most changes that a slip's count can say.
const MOST: usize = 63;

/// The bytes of so many bits.
#[inline]
pub fn bytes_for(bits: usize) -> usize {
    bits.div_ceil(8)
}

/// A slip's changes: one bit for each value of each slot.
pub type Changes = [u16; SLOTS];

/// Bytes of their own count's length, with zeros after them, and the count; None for others.
#[inline]
fn counted<const N: usize>(bytes: &[u8], width: usize) -> Option<([u8; N], usize)> {
    let count = (*bytes.first()? >> 2) as usize;
    if bytes.len() != bytes_for(6 + width * count) {
        return None;
    }
    let mut padded = [0; N];
    padded[..bytes.len()].copy_from_slice(bytes);
    Some((padded, count))
}

/// Whether the bits after the used ones of the last byte are not all zero.
#[inline]
fn has_padding(bytes: &[u8], bits: usize) -> bool {
    let spare = 8 * bytes.len() - bits;
    bytes.last().is_some_and(|last| *last as usize & ((1 << spare) - 1) != 0)
}

/// The values of a card, or 20 to 23.
#[inline]
pub fn unpack_card(lasts: &Lasts, width: usize, card: &[u8]) -> Result<[u8; SLOTS], Refusal> {
    let (bytes, count) = counted::<40>(card, 4).ok_or(refusal(20, 0))?;
    if count != width {
        return Err(refusal(21, 0));
    }
    let mut values = [0; SLOTS];
    for (at, pair) in values.chunks_exact_mut(2).enumerate() {
        pair[0] = (bytes[at] & 3) << 2 | bytes[at + 1] >> 6;
        pair[1] = bytes[at + 1] >> 2 & 15;
    }
    values[width..].fill(0);
    let above: u32 = (0..SLOTS).map(|slot| u32::from(values[slot] > lasts[slot]) << slot).sum();
    if above != 0 {
        return Err(refusal(22, above.trailing_zeros() as usize));
    }
    if has_padding(card, 6 + 4 * count) {
        return Err(refusal(23, 0));
    }
    Ok(values)
}

/// The changes of a slip, or 24 to 28.
#[inline]
pub fn unpack_slip(lasts: &Lasts, width: usize, slip: &[u8]) -> Result<Changes, Refusal> {
    let (bytes, count) = counted::<80>(slip, 9).ok_or(refusal(24, 0))?;
    let mut changes = [0; SLOTS];
    let mut least = 0;
    for at in 0..count.min(MOST) {
        let bit = 6 + 9 * at;
        let word = u32::from_be_bytes(bytes[bit / 8..bit / 8 + 4].try_into().unwrap());
        let field = word << (bit % 8) >> 23;
        let (slot, value) = ((field >> 4) as usize, (field & 15) as u8);
        if slot >= width {
            return Err(refusal(25, at));
        }
        if slot < least {
            return Err(refusal(26, at));
        }
        if value > lasts[slot] {
            return Err(refusal(27, at));
        }
        changes[slot % SLOTS] = 1 << value;
        least = slot + 1;
    }
    if has_padding(slip, 6 + 9 * count) {
        return Err(refusal(28, 0));
    }
    Ok(changes)
}

/// Writes a card's values at the front of an output that has room.
#[inline]
pub fn write_card(values: &[u8; SLOTS], width: usize, output: &mut [u8]) {
    let mut bytes = [0; 18];
    bytes[0] = (width as u8) << 2;
    for (at, pair) in values.chunks_exact(2).enumerate() {
        bytes[at] |= pair[0] >> 2;
        bytes[at + 1] |= pair[0] << 6 | pair[1] << 2;
    }
    let size = bytes_for(6 + 4 * width);
    output[..size].copy_from_slice(&bytes[..size]);
}

/// Writes changes of one value for a slot as a slip at the front of an output that has room, and gives its length.
#[inline]
pub fn write_slip(changes: &Changes, output: &mut [u8]) -> usize {
    let count = changes.iter().filter(|values| **values != 0).count();
    let size = bytes_for(6 + 9 * count);
    let (mut word, mut bits, mut at) = (count as u64, 6, 0);
    for (slot, values) in changes.iter().enumerate() {
        if *values == 0 {
            continue;
        }
        word = word << 9 | (slot as u64) << 4 | values.trailing_zeros() as u64;
        bits += 9;
        while bits >= 8 {
            bits -= 8;
            output[at] = (word >> bits) as u8;
            at += 1;
        }
    }
    if bits > 0 {
        output[at] = (word << (8 - bits)) as u8;
    }
    size
}
