// SPDX-License-Identifier: MIT OR Apache-2.0
use core::ops::BitOr;

/// Whose translations an address is looked up in.
#[derive(Clone, Copy, Debug, PartialEq, Eq)]
pub enum Space {
    /// Of an address space of a VMID: its own, and the global ones.
    Stage1 { vmid: u16, asid: u16 },
    /// Of a VMID, by intermediate address.
    Stage2 { vmid: u16 },
    /// Of an address space of the hypervisor: its own, and the global ones.
    El2 { asid: u16 },
    /// Of an endpoint's accesses with this substream, or of those without one.
    Endpoint { sid: u32, ssid: Option<u32> },
}

impl Space {
    /// The kind, the owner and the space of smmuq_find.
    pub(crate) fn words(self) -> (u32, u32, u32) {
        const NO_SUBSTREAM: u32 = u32::MAX;
        match self {
            Space::Stage1 { vmid, asid } => (3, vmid.into(), asid.into()),
            Space::Stage2 { vmid } => (4, vmid.into(), 0),
            Space::El2 { asid } => (5, 0, asid.into()),
            Space::Endpoint { sid, ssid } => (6, sid, ssid.unwrap_or(NO_SUBSTREAM)),
        }
    }
}

/// Sizes of blocks, as `Spans::SIZE_4K | Spans::SIZE_2M`.
#[derive(Clone, Copy, Debug, PartialEq, Eq)]
pub struct Spans(u64);

impl Spans {
    pub const SIZE_4K: Spans = Spans::of(0);
    pub const SIZE_64K: Spans = Spans::of(4);
    pub const SIZE_2M: Spans = Spans::of(9);
    pub const SIZE_1G: Spans = Spans::of(18);

    /// That of 2^`span` pages of 4,096 bytes. No entry has a span over 52, and none is over 63.
    pub const fn of(span: u32) -> Spans {
        Spans(1 << span)
    }

    pub(crate) fn mask(self) -> u64 {
        self.0
    }
}

impl BitOr for Spans {
    type Output = Spans;

    fn bitor(self, other: Spans) -> Spans {
        Spans(self.0 | other.0)
    }
}
