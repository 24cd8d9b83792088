// SPDX-License-Identifier: MIT OR Apache-2.0
use crate::error::Illegal;
use crate::{sys, Command};
use core::ops::RangeInclusive;

/// Whose stage 1 translations, or whose of the hypervisor.
#[derive(Clone, Copy, Debug, PartialEq, Eq)]
pub enum Asids {
    /// All.
    Every,
    /// Those of one address space, and the global ones (nG 0).
    OneAndGlobal(u16),
    /// Those of one address space alone.
    One(u16),
}

/// Which of a stream's substreams.
#[derive(Clone, Copy, Debug, PartialEq, Eq)]
pub enum Substreams {
    /// All, and the accesses without one.
    Every,
    /// All accesses that have one.
    With,
    One(u32),
}

/// What a command reaches: what it removes, and what a model tells its listeners. `bytes` are the first and the last one,
/// 0 and `u64::MAX` for all; a block that has one of them is reached as a whole.
#[derive(Clone, Debug, PartialEq, Eq)]
pub enum Region {
    /// That of CMD_SYNC, prefetches, PRI_RESP, RESUME and STALL_TERM.
    Nothing,
    /// Stream table entries and their context descriptors, of the streams from one to another.
    Streams(RangeInclusive<u32>),
    /// Context descriptors of a stream.
    Descriptors { sid: u32, substreams: Substreams },
    /// Stage 1 translations of a VMID.
    Stage1 {
        vmid: u16,
        asids: Asids,
        bytes: RangeInclusive<u64>,
    },
    /// Stage 2 translations of a VMID, by intermediate address.
    Stage2 {
        vmid: u16,
        bytes: RangeInclusive<u64>,
    },
    /// The hypervisor's translations.
    El2 {
        asids: Asids,
        bytes: RangeInclusive<u64>,
    },
    /// All translations of a VMID, of both stages.
    Machine {
        vmid: u16,
        bytes: RangeInclusive<u64>,
    },
    /// The same of every VMID.
    EveryMachine { bytes: RangeInclusive<u64> },
    /// What the endpoint of a stream holds.
    Endpoint {
        sid: u32,
        substreams: Substreams,
        bytes: RangeInclusive<u64>,
    },
}

impl Asids {
    fn of(words: &sys::Reached) -> Asids {
        let asid = words.asid as u16;
        match words.asids {
            1 => Asids::OneAndGlobal(asid),
            2 => Asids::One(asid),
            _ => Asids::Every,
        }
    }

    /// The asids and the asid of smmuq_change.
    pub(crate) fn words(self) -> (u32, u32) {
        match self {
            Asids::Every => (0, 0),
            Asids::OneAndGlobal(asid) => (1, asid.into()),
            Asids::One(asid) => (2, asid.into()),
        }
    }
}

impl Substreams {
    fn of(words: &sys::Reached) -> Substreams {
        match words.substreams {
            1 => Substreams::With,
            2 => Substreams::One(words.ssid),
            _ => Substreams::Every,
        }
    }

    /// The substreams and the ssid of smmuq_change.
    pub(crate) fn words(self) -> (u32, u32) {
        match self {
            Substreams::Every => (0, 0),
            Substreams::With => (1, 0),
            Substreams::One(ssid) => (2, ssid),
        }
    }
}

impl Region {
    fn of(words: &sys::Reached) -> Region {
        let (sid, vmid, bytes) = (words.sid, words.vmid as u16, words.first..=words.last);
        let (asids, substreams) = (Asids::of(words), Substreams::of(words));
        match words.kind {
            1 => Region::Streams(sid..=words.last_sid),
            2 => Region::Descriptors { sid, substreams },
            3 => Region::Stage1 { vmid, asids, bytes },
            4 => Region::Stage2 { vmid, bytes },
            5 => Region::El2 { asids, bytes },
            6 => Region::Machine { vmid, bytes },
            7 => Region::EveryMachine { bytes },
            8 => Region::Endpoint {
                sid,
                substreams,
                bytes,
            },
            _ => Region::Nothing,
        }
    }
}

impl Command {
    /// What it reaches, if it is legal.
    pub fn region(self) -> Result<Region, Illegal> {
        let mut reached = sys::Reached::default();
        // SAFETY: a live answer.
        let status = unsafe { sys::smmuq_region(self.lo, self.hi, &mut reached) };
        match Illegal::of(status) {
            Some(illegal) => Err(illegal),
            None => Ok(Region::of(&reached)),
        }
    }
}
