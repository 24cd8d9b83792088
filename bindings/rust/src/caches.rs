// SPDX-License-Identifier: MIT OR Apache-2.0
use self::sealed::Inside;
use crate::error::{done, listed, Error};
pub use crate::sys::{Held, Registers, Tallies};
use crate::{sys, Command, Kinds, Space, Spans};
use alloc::vec::Vec;

/// A block of 2^`span` pages of 4,096 bytes. The span is 0 to 52, and the address a multiple of the block's size.
#[derive(Clone, Copy, Debug, PartialEq, Eq)]
pub struct Block {
    pub address: u64,
    pub span: u32,
}

impl Block {
    /// The page of 4,096 bytes at an address.
    pub const fn page(address: u64) -> Block {
        Block { address, span: 0 }
    }
}

/// The translations of one address space, or global ones (nG 0).
#[derive(Clone, Copy, Debug, PartialEq, Eq)]
pub enum Scope {
    Asid(u16),
    Global,
}

/// What an entry is for. A substream has 20 bits.
#[derive(Clone, Copy, Debug, PartialEq, Eq)]
pub enum Tag {
    /// A stream table entry.
    StreamTableEntry { sid: u32 },
    /// A context descriptor.
    ContextDescriptor { sid: u32, ssid: u32 },
    /// A stage 1 translation.
    Stage1 {
        vmid: u16,
        scope: Scope,
        block: Block,
    },
    /// A stage 2 translation.
    Stage2 { vmid: u16, block: Block },
    /// The hypervisor's translation.
    El2 { scope: Scope, block: Block },
    /// A translation in an endpoint's cache, of a substream or of none.
    Endpoint {
        sid: u32,
        ssid: Option<u32>,
        block: Block,
    },
}

fn words_of_scope(scope: Scope) -> (u32, u32) {
    match scope {
        Scope::Asid(asid) => (1, asid.into()),
        Scope::Global => (2, 0),
    }
}

fn scope_of(words: &sys::Tag) -> Scope {
    match words.scope {
        1 => Scope::Asid(words.asid as u16),
        _ => Scope::Global,
    }
}

impl Tag {
    pub(crate) fn words(self) -> sys::Tag {
        let block = match self {
            Tag::StreamTableEntry { .. } | Tag::ContextDescriptor { .. } => Block::page(0),
            Tag::Stage1 { block, .. }
            | Tag::Stage2 { block, .. }
            | Tag::El2 { block, .. }
            | Tag::Endpoint { block, .. } => block,
        };
        let words = sys::Tag {
            span: block.span,
            address: block.address,
            ..sys::Tag::default()
        };
        match self {
            Tag::StreamTableEntry { sid } => sys::Tag {
                kind: 1,
                sid,
                ..words
            },
            Tag::ContextDescriptor { sid, ssid } => sys::Tag {
                kind: 2,
                sid,
                ssid,
                ..words
            },
            Tag::Stage1 { vmid, scope, .. } => {
                let (scope, asid) = words_of_scope(scope);
                sys::Tag {
                    kind: 3,
                    vmid: vmid.into(),
                    scope,
                    asid,
                    ..words
                }
            }
            Tag::Stage2 { vmid, .. } => sys::Tag {
                kind: 4,
                vmid: vmid.into(),
                ..words
            },
            Tag::El2 { scope, .. } => {
                let (scope, asid) = words_of_scope(scope);
                sys::Tag {
                    kind: 5,
                    scope,
                    asid,
                    ..words
                }
            }
            Tag::Endpoint { sid, ssid, .. } => sys::Tag {
                kind: 6,
                sid,
                has_ssid: ssid.is_some().into(),
                ssid: ssid.unwrap_or(0),
                ..words
            },
        }
    }

    /// The tag that words of the library say; nothing for a kind that this crate doesn't know.
    fn of(words: &sys::Tag) -> Option<Tag> {
        let (sid, ssid, vmid) = (words.sid, words.ssid, words.vmid as u16);
        let block = Block {
            address: words.address,
            span: words.span,
        };
        match words.kind {
            1 => Some(Tag::StreamTableEntry { sid }),
            2 => Some(Tag::ContextDescriptor { sid, ssid }),
            3 => Some(Tag::Stage1 {
                vmid,
                scope: scope_of(words),
                block,
            }),
            4 => Some(Tag::Stage2 { vmid, block }),
            5 => Some(Tag::El2 {
                scope: scope_of(words),
                block,
            }),
            6 => Some(Tag::Endpoint {
                sid,
                ssid: (words.has_ssid == 1).then_some(ssid),
                block,
            }),
            _ => None,
        }
    }
}

/// What becomes of an illegal command.
#[derive(Clone, Copy, Debug, PartialEq, Eq)]
pub enum Remedy {
    /// It is judged again.
    Retry,
    /// It is taken without effect.
    Replace,
    /// The words that come next decide. For an engine it is `Retry`.
    Reread,
}

/// What came of a write of SMMU_GERRORN.
#[derive(Clone, Copy, Debug, PartialEq, Eq)]
pub enum Acknowledged {
    GoesOn,
    /// G1: no error was active.
    NoError,
    /// G2: CMDQ_ERR isn't that of SMMU_GERROR, so it stays stopped.
    OtherBit,
}

pub(crate) mod sealed {
    /// Nobody outside this crate has one, so nobody else gets at a handle by way of `Caches`.
    pub struct Inside(pub(crate) ());

    pub trait HasHandle {
        fn handle(&mut self, inside: Inside) -> &mut crate::handle::Owned;
    }
}

/// The entries and the error registers of a unit or an engine, also while it is stopped.
pub trait Caches: sealed::HasHandle {
    /// Puts an entry in, in place of the one under its tag, if any. `BadField`, `BadBlock`, `CachesFull`, `CachesNoMemory`.
    fn fill(&mut self, tag: Tag, value: u64) -> Result<(), Error> {
        // SAFETY: a live handle and a live tag.
        done(unsafe { sys::smmuq_fill(self.handle(Inside(())).at(), &tag.words(), value) })
    }

    /// What is held under a tag. `BadField`.
    fn lookup(&mut self, tag: Tag) -> Result<Option<Held>, Error> {
        let mut held = Held::default();
        // SAFETY: as above, and the answer is live.
        found(
            unsafe { sys::smmuq_lookup(self.handle(Inside(())).at(), &tag.words(), &mut held) },
            held,
        )
    }

    /// The same, and removes it.
    fn evict(&mut self, tag: Tag) -> Result<Option<Held>, Error> {
        let mut held = Held::default();
        // SAFETY: as above.
        found(
            unsafe { sys::smmuq_evict(self.handle(Inside(())).at(), &tag.words(), &mut held) },
            held,
        )
    }

    /// Removes all entries of some kinds, and tells how many they were: say at `CachesFull`.
    fn evict_all(&mut self, kinds: Kinds) -> Result<usize, Error> {
        let handle = self.handle(Inside(())).at();
        // SAFETY: a live handle, and a live answer.
        counted(|count| unsafe { sys::smmuq_evict_all(handle, kinds.mask(), count) })
    }

    /// Removes all that is held of a stream, as when its device is unplugged: its stream table entry, its context descriptors
    /// and its endpoint's translations; and tells how many they were.
    fn evict_stream(&mut self, sid: u32) -> Result<usize, Error> {
        let handle = self.handle(Inside(())).at();
        // SAFETY: as above.
        counted(|count| unsafe { sys::smmuq_evict_stream(handle, sid, count) })
    }

    /// Removes the stage 1 and stage 2 translations of a VMID, and tells how many they were.
    fn evict_machine(&mut self, vmid: u16) -> Result<usize, Error> {
        let handle = self.handle(Inside(())).at();
        // SAFETY: as above.
        counted(|count| unsafe { sys::smmuq_evict_machine(handle, vmid.into(), count) })
    }

    /// Removes what was filled in when fewer than `born` commands had been taken, and tells how many they were.
    fn evict_older(&mut self, born: u64) -> Result<usize, Error> {
        let handle = self.handle(Inside(())).at();
        // SAFETY: as above.
        counted(|count| unsafe { sys::smmuq_evict_older(handle, born, count) })
    }

    /// Removes the entries that a legal command covers, without taking it, and tells how many they were. `Illegal`.
    fn invalidate(&mut self, command: Command) -> Result<usize, Error> {
        let handle = self.handle(Inside(())).at();
        // SAFETY: as above.
        counted(|count| unsafe { sys::smmuq_invalidate(handle, command.lo, command.hi, count) })
    }

    /// The entries that `invalidate` would remove, in no particular order. `Illegal`, `CachesNoMemory`.
    fn covered(&mut self, command: Command) -> Result<Vec<(Tag, Held)>, Error> {
        let handle = self.handle(Inside(())).at();
        // SAFETY: a live handle, a buffer of the length that is passed, and a live answer.
        let found: Vec<sys::Entry> = listed(|buffer, length, count| unsafe {
            sys::smmuq_covered(handle, command.lo, command.hi, buffer, length, count)
        })?;
        Ok(entries_of(&found))
    }

    /// The entry that holds an address: each of the sizes is tried, the largest first, and at each the entry of the space
    /// before the global one. `BadField` for a span over 52.
    fn find(
        &mut self,
        space: Space,
        address: u64,
        spans: Spans,
    ) -> Result<Option<(Tag, Held)>, Error> {
        let (kind, owner, of) = space.words();
        let mut entry = sys::Entry::default();
        // SAFETY: a live handle, and live answers.
        let status = unsafe {
            sys::smmuq_find(
                self.handle(Inside(())).at(),
                kind,
                owner,
                of,
                address,
                spans.mask(),
                &mut entry.tag,
                &mut entry.held,
            )
        };
        let held = found(status, entry.held)?;
        Ok(held.and_then(|held| Some((Tag::of(&entry.tag)?, held))))
    }

    /// How many entries are held.
    fn count(&mut self) -> Result<usize, Error> {
        let handle = self.handle(Inside(())).at();
        // SAFETY: as above.
        counted(|count| unsafe { sys::smmuq_count(handle, count) })
    }

    /// All entries, in the order of their tags. `CachesNoMemory`.
    fn entries(&mut self) -> Result<Vec<(Tag, Held)>, Error> {
        let handle = self.handle(Inside(())).at();
        // SAFETY: a live handle, a buffer of the length that is passed, and a live answer.
        let found: Vec<sys::Entry> = listed(|buffer, length, count| unsafe {
            sys::smmuq_entries(handle, buffer, length, count)
        })?;
        Ok(entries_of(&found))
    }

    /// Software writes SMMU_GERRORN, of which only bit 0 counts.
    fn acknowledge(&mut self, gerrorn: u32, remedy: Remedy) -> Result<Acknowledged, Error> {
        // SAFETY: a live handle.
        match unsafe {
            sys::smmuq_acknowledge(self.handle(Inside(())).at(), gerrorn, remedy as u32)
        } {
            0x51 => Ok(Acknowledged::NoError),
            0x52 => Ok(Acknowledged::OtherBit),
            status => done(status).map(|()| Acknowledged::GoesOn),
        }
    }

    /// How many commands were taken, and how many entries they removed.
    fn tallies(&mut self) -> Result<Tallies, Error> {
        let (mut errors, mut tallies) = (Registers::default(), Tallies::default());
        // SAFETY: a live handle, and both answers are live.
        done(unsafe { sys::smmuq_state(self.handle(Inside(())).at(), &mut errors, &mut tallies) })?;
        Ok(tallies)
    }

    /// The error registers.
    fn registers(&mut self) -> Result<Registers, Error> {
        let (mut errors, mut tallies) = (Registers::default(), sys::Tallies::default());
        // SAFETY: as above, and both answers are live.
        done(unsafe { sys::smmuq_state(self.handle(Inside(())).at(), &mut errors, &mut tallies) })?;
        Ok(errors)
    }
}

fn found(status: u32, held: Held) -> Result<Option<Held>, Error> {
    match status {
        sys::NOT_HELD => Ok(None),
        other => done(other).map(|()| Some(held)),
    }
}

fn counted(call: impl FnOnce(&mut usize) -> u32) -> Result<usize, Error> {
    let mut count = 0;
    done(call(&mut count))?;
    Ok(count)
}

fn entries_of(found: &[sys::Entry]) -> Vec<(Tag, Held)> {
    found
        .iter()
        .filter_map(|entry| Some((Tag::of(&entry.tag)?, entry.held)))
        .collect()
}
