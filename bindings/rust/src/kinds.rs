// SPDX-License-Identifier: MIT OR Apache-2.0
use core::ops::BitOr;

/// Kinds of entries, as `Kinds::STAGE1 | Kinds::STAGE2`.
#[derive(Clone, Copy, Debug, PartialEq, Eq)]
pub struct Kinds(u32);

impl Kinds {
    pub const STREAM_TABLE_ENTRIES: Kinds = Kinds(1);
    pub const CONTEXT_DESCRIPTORS: Kinds = Kinds(1 << 1);
    pub const STAGE1: Kinds = Kinds(1 << 2);
    pub const STAGE2: Kinds = Kinds(1 << 3);
    /// The hypervisor's translations.
    pub const EL2: Kinds = Kinds(1 << 4);
    /// What endpoints hold.
    pub const ENDPOINTS: Kinds = Kinds(1 << 5);
    pub const ALL: Kinds = Kinds(0x3f);

    pub(crate) fn mask(self) -> u32 {
        self.0
    }
}

impl BitOr for Kinds {
    type Output = Kinds;

    fn bitor(self, other: Kinds) -> Kinds {
        Kinds(self.0 | other.0)
    }
}
