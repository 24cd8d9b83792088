// SPDX-License-Identifier: MIT OR Apache-2.0
use crate::sys::{self, Handle};
use alloc::vec::Vec;

/// A handle of the library, freed at its end. It is moved and never copied, and every call takes `&mut`: so there is one
/// handle of each object and one call at a time on it, which is what the header asks of a C caller.
#[repr(transparent)]
pub struct Owned(Handle);

// SAFETY: what a handle owns is of no thread; smmuq.h lets it go to another one by a join or a lock.
unsafe impl Send for Owned {}

impl Owned {
    pub const EMPTY: Owned = Owned(Handle::EMPTY);

    pub fn at(&mut self) -> *mut Handle {
        &mut self.0
    }

    /// As many empty handles for senders, or one more than a ring may have, which is refused as any greater number.
    pub fn several(count: usize) -> Vec<Owned> {
        (0..count.min(257)).map(|_| Owned::EMPTY).collect()
    }
}

impl Drop for Owned {
    fn drop(&mut self) {
        // SAFETY: the handle is live, and nobody uses it again. It stays full only if a reservation was forgotten.
        let _ = unsafe { sys::smmuq_free(&mut self.0) };
    }
}
