//! Places on the stack of which a call clears only those that it uses.

use std::mem::MaybeUninit;

/// Places for as many items as there can be, none of them written.
pub struct Room<T, const N: usize>([MaybeUninit<T>; N]);

impl<T: Copy, const N: usize> Room<T, N> {
    /// A room.
    #[inline]
    pub fn new() -> Room<T, N> {
        Room([MaybeUninit::uninit(); N])
    }

    /// The first so many places, the same item in each.
    #[inline]
    pub fn filled(&mut self, used: usize, item: T) -> &mut [T] {
        let front = &mut self.0[..used];
        front.fill(MaybeUninit::new(item));
        // SAFETY: each of these places was just written.
        unsafe { &mut *(front as *mut [MaybeUninit<T>] as *mut [T]) }
    }
}

impl<T: Copy, const N: usize> Default for Room<T, N> {
    fn default() -> Room<T, N> {
        Room::new()
    }
}
