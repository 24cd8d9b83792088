// SPDX-License-Identifier: MIT OR Apache-2.0
use crate::error::{done, listed, Error, Illegal};
use crate::region::{Asids, Substreams};
use crate::{sys, Command};
use alloc::vec::Vec;

/// Bytes of an address space, at any alignment.
#[derive(Clone, Copy, Debug, PartialEq, Eq)]
pub enum Bytes {
    All,
    From { first: u64, length: u64 },
}

/// The granule of translation tables, TG.
#[derive(Clone, Copy, Debug, PartialEq, Eq)]
pub enum Granule {
    Size4K = 1,
    Size16K,
    Size64K,
}

/// Which entries of translation tables changed.
#[derive(Clone, Copy, Debug, PartialEq, Eq)]
pub enum Changed {
    /// Those that point to tables, too.
    Tables,
    /// Last-level entries alone.
    Leaves,
    /// Last-level entries alone, all at this level, 1 to 3.
    LeavesAt(u32),
}

/// What a driver changed in translation tables.
#[derive(Clone, Copy, Debug, PartialEq, Eq)]
pub struct Pages {
    pub bytes: Bytes,
    pub granule: Granule,
    pub changed: Changed,
    /// The most commands by address, as 512 in Linux. Where more are needed there is one instead, for the whole space.
    pub most_commands: u32,
}

/// What a driver changed, and whose translations these are.
#[derive(Clone, Copy, Debug, PartialEq, Eq)]
pub enum Change {
    /// `Asids::One` says that none of these pages is global, `Asids::OneAndGlobal` that some may be.
    Stage1 {
        vmid: u16,
        asids: Asids,
        pages: Pages,
    },
    /// Where stage 1 of the VMID is nested in it, [`IdRegisters::nested_invalidation`] follows.
    Stage2 { vmid: u16, pages: Pages },
    /// The hypervisor's.
    El2 { asids: Asids, pages: Pages },
    /// What ATS handed out to an endpoint.
    Endpoint {
        sid: u32,
        substreams: Substreams,
        bytes: Bytes,
    },
}

impl Bytes {
    fn put_into(self, words: &mut sys::Change) {
        match self {
            Bytes::All => words.everything = 1,
            Bytes::From { first, length } => (words.first, words.length) = (first, length),
        }
    }
}

impl Pages {
    fn put_into(self, words: &mut sys::Change) {
        self.bytes.put_into(words);
        words.tg = self.granule as u32;
        words.most_commands = self.most_commands;
        (words.leaf, words.ttl) = match self.changed {
            Changed::Tables => (0, 0),
            Changed::Leaves => (1, 0),
            Changed::LeavesAt(level) => (1, level),
        };
    }
}

impl Change {
    fn words(self) -> sys::Change {
        let mut words = sys::Change::default();
        match self {
            Change::Stage1 { vmid, asids, pages } => {
                (words.kind, words.vmid) = (3, vmid.into());
                (words.asids, words.asid) = asids.words();
                pages.put_into(&mut words);
            }
            Change::Stage2 { vmid, pages } => {
                (words.kind, words.vmid) = (4, vmid.into());
                pages.put_into(&mut words);
            }
            Change::El2 { asids, pages } => {
                words.kind = 5;
                (words.asids, words.asid) = asids.words();
                pages.put_into(&mut words);
            }
            Change::Endpoint {
                sid,
                substreams,
                bytes,
            } => {
                (words.kind, words.sid) = (8, sid);
                (words.substreams, words.ssid) = substreams.words();
                bytes.put_into(&mut words);
            }
        }
        words
    }
}

/// An SMMU's ID registers: what it has.
#[derive(Clone, Copy, Debug, Default, PartialEq, Eq)]
pub struct IdRegisters {
    pub idr0: u32,
    pub idr1: u32,
    pub idr3: u32,
    pub idr5: u32,
}

impl IdRegisters {
    /// Whether a command is legal for this SMMU: one that lacks stage 1, stage 2, the hypervisor's contexts, ATS or PRI calls
    /// their commands illegal.
    pub fn check(self, command: Command) -> Result<(), Illegal> {
        let IdRegisters {
            idr0,
            idr1,
            idr3,
            idr5,
        } = self;
        // SAFETY: it takes numbers alone.
        let status =
            unsafe { sys::smmuq_check_for(idr0, idr1, idr3, idr5, command.lo, command.hi) };
        Illegal::of(status).map_or(Ok(()), Err)
    }

    /// The commands for what a driver changed, at most `most_commands` + 1: each is legal for this SMMU, and together they
    /// reach each byte. `BadField`, `Unsupported`, `PastEnd`.
    pub fn invalidation(self, change: Change) -> Result<Vec<Command>, Error> {
        let IdRegisters {
            idr0,
            idr1,
            idr3,
            idr5,
        } = self;
        let words = change.words();
        // SAFETY: a live change, a buffer of the length that is passed, and a live answer.
        listed(|buffer, length, count| unsafe {
            sys::smmuq_invalidation(idr0, idr1, idr3, idr5, &words, buffer, length, count)
        })
    }

    /// What follows a change of stage 2 under which stage 1 of the VMID is nested, and only once the CMD_SYNC behind the
    /// commands of [`IdRegisters::invalidation`] for it is complete: TLBI_NH_ALL of the VMID, or none for an SMMU without
    /// stage 1. An SMMU may carry commands out in any order up to a CMD_SYNC.
    pub fn nested_invalidation(self, vmid: u16) -> Result<Option<Command>, Error> {
        let IdRegisters {
            idr0,
            idr1,
            idr3,
            idr5,
        } = self;
        let mut command = Command::default();
        let mut count = 0;
        // SAFETY: room for one command, and a live answer.
        done(unsafe {
            let vmid = vmid.into();
            sys::smmuq_nested_invalidation(
                idr0,
                idr1,
                idr3,
                idr5,
                vmid,
                &mut command,
                1,
                &mut count,
            )
        })?;
        Ok((count == 1).then_some(command))
    }

    /// The commands for the configuration of a stream whose use ends: CFGI_STE, and CFGI_CD_ALL if the SMMU has stage 1.
    pub fn detaching(self, sid: u32) -> Result<Vec<Command>, Error> {
        let IdRegisters {
            idr0,
            idr1,
            idr3,
            idr5,
        } = self;
        // SAFETY: a buffer of the length that is passed, and a live answer.
        listed(|buffer, length, count| unsafe {
            sys::smmuq_detach(idr0, idr1, idr3, idr5, sid, buffer, length, count)
        })
    }

    /// The command for what its endpoint caches, to be sent only once the CMD_SYNC behind those of
    /// [`IdRegisters::detaching`] is complete: ATC_INV, or none where the endpoint or the SMMU has no ATS.
    pub fn detaching_endpoint(self, sid: u32, ats: bool) -> Result<Option<Command>, Error> {
        let IdRegisters {
            idr0,
            idr1,
            idr3,
            idr5,
        } = self;
        let mut command = Command::default();
        let mut count = 0;
        // SAFETY: room for one command, and a live answer.
        done(unsafe {
            let ats = ats.into();
            sys::smmuq_detach_endpoint(
                idr0,
                idr1,
                idr3,
                idr5,
                sid,
                ats,
                &mut command,
                1,
                &mut count,
            )
        })?;
        Ok((count == 1).then_some(command))
    }
}
