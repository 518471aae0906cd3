//! Names by hash: the slots, and the values of each slot.

use crate::table::{place, PAIRS, SLOTS};
use crate::text::Key;

/// Places by hash for slots and for values, each at least twice the names there can be.
const SLOT_PLACES: usize = 64;
const VALUE_PLACES: usize = 1024;

/// The names declared so far. Keys outlive a reading; only the places by hash are cleared.
pub struct Names {
    slots: [u8; SLOT_PLACES],
    values: [u16; VALUE_PLACES],
    slot_keys: [Key; SLOTS],
    value_keys: [Key; PAIRS],
}

/// A hash of a key and a number in its highest bits.
#[inline]
fn hash(key: &Key, seed: u64) -> u64 {
    let mixed = (key[0] ^ seed).wrapping_mul(0x9E37_79B9_7F4A_7C15) ^ key[1].wrapping_mul(0xC2B2_AE3D_27D4_EB4F);
    (mixed ^ mixed >> 29 ^ key[2].wrapping_mul(0x1656_67B1_9E37_79F9)).wrapping_mul(0x9E37_79B9_7F4A_7C15)
}

impl Names {
    /// No names.
    pub fn new() -> Names {
        Names {
            slots: [0; SLOT_PLACES],
            values: [0; VALUE_PLACES],
            slot_keys: [[0; 3]; SLOTS],
            value_keys: [[0; 3]; PAIRS],
        }
    }

    /// Forgets all names.
    pub fn clear(&mut self) {
        self.slots = [0; SLOT_PLACES];
        self.values = [0; VALUE_PLACES];
    }

    /// Where a slot's name is or would go, and the slot from 1, or 0.
    #[inline]
    fn slot_place(&self, key: &Key) -> (usize, u8) {
        let mut at = (hash(key, 0) >> 58) as usize;
        loop {
            let found = self.slots[at];
            if found == 0 || self.slot_keys[(found as usize - 1) % SLOTS] == *key {
                return (at, found);
            }
            at = (at + 1) % SLOT_PLACES;
        }
    }

    /// Where a value's name is or would go, and the value, or 0.
    #[inline]
    fn value_place(&self, slot: u8, key: &Key) -> (usize, u8) {
        let mut at = (hash(key, (slot as u64 + 1) << 56) >> 54) as usize;
        loop {
            let found = self.values[at] as usize;
            if found == 0 || found >> 4 == slot as usize && self.value_keys[found % PAIRS] == *key {
                return (at, (found & 15) as u8);
            }
            at = (at + 1) % VALUE_PLACES;
        }
    }

    /// The slot of a name.
    #[inline]
    pub fn slot(&self, key: &Key) -> Option<u8> {
        self.slot_place(key).1.checked_sub(1)
    }

    /// The value of a name in a slot.
    #[inline]
    pub fn value(&self, slot: u8, key: &Key) -> Option<u8> {
        let value = self.value_place(slot, key).1;
        (value > 0).then_some(value)
    }

    /// The key of a slot that was entered.
    #[inline]
    pub fn slot_key(&self, slot: u8) -> &Key {
        &self.slot_keys[slot as usize % SLOTS]
    }

    /// The key of a slot's value that was entered.
    #[inline]
    pub fn value_key(&self, slot: u8, value: u8) -> &Key {
        &self.value_keys[place(slot, value)]
    }

    /// Enters a slot below 32; false where the name has one.
    #[inline]
    pub fn enter_slot(&mut self, slot: u8, key: &Key) -> bool {
        let (at, found) = self.slot_place(key);
        self.slots[at] = slot + 1;
        self.slot_keys[slot as usize % SLOTS] = *key;
        found == 0
    }

    /// Enters a value of 1 to 15; false where the name has one in the slot.
    #[inline]
    pub fn enter_value(&mut self, slot: u8, value: u8, key: &Key) -> bool {
        let (at, found) = self.value_place(slot, key);
        if found > 0 {
            return false;
        }
        self.values[at] = (slot as u16) << 4 | value as u16;
        self.value_keys[place(slot, value)] = *key;
        true
    }
}

impl Default for Names {
    fn default() -> Names {
        Names::new()
    }
}
