// SPDX-License-Identifier: MIT OR Apache-2.0
use crate::error::{done, listed, Error, Illegal};
use crate::handle::Owned;
use crate::{sys, Command, IdRegisters};
use alloc::vec;
use alloc::vec::Vec;

/// A stream of a guest that is this one of the host.
#[derive(Clone, Copy, Debug, PartialEq, Eq)]
pub struct GuestStream {
    pub sid: u32,
    pub host: u32,
    /// Whether its endpoint caches translations.
    pub ats: bool,
}

/// Why no more of a guest's commands were taken.
#[derive(Clone, Copy, Debug, PartialEq, Eq)]
pub enum ConversionEnd {
    /// All were taken, or 63.
    EndOfCommands,
    /// The host's for the next one don't fit: send these first.
    Full,
    /// A CMD_SYNC. It is complete once these are, and what was sent before.
    Sync,
    /// CFGI_STE or CFGI_STE_RANGE: see [`Guest::streams`].
    Configure,
    /// The guest's queue stops with CERROR_ILL.
    Illegal(Illegal),
    /// The guest has no EL2, no stage 2, and answers no page request.
    Refused,
}

/// The host's commands for a beginning of a guest's.
#[derive(Clone, Debug, PartialEq, Eq)]
pub struct Converted {
    /// How many of the guest's were taken.
    pub taken: usize,
    /// None is a CMD_SYNC, and they fit one [`crate::Batch`].
    pub commands: Vec<Command>,
    pub end: ConversionEnd,
}

/// The stage 1 of a virtual machine, whose commands become the host's.
///
/// ```compile_fail,E0277
/// fn shared<T: Sync>() {}
/// shared::<smmuq::Guest>();
/// ```
pub struct Guest(Owned);

impl Guest {
    /// A guest without streams, whose stage 1 has this VMID on a host with these ID registers. No two guests of a host have
    /// one VMID or one stream: the caller sees to that. `BadField` if the SMMU doesn't have the VMID; `NoMemory`.
    pub fn new(vmid: u16, host: IdRegisters) -> Result<Guest, Error> {
        let mut guest = Guest(Owned::EMPTY);
        // SAFETY: a live handle.
        done(unsafe {
            sys::smmuq_guest_new(
                vmid.into(),
                host.idr0,
                host.idr1,
                host.idr3,
                host.idr5,
                guest.0.at(),
            )
        })?;
        Ok(guest)
    }

    /// Makes a stream of the host one of those that the guest's is, 63 at most. `BadStream`, `StreamInUse`,
    /// `TooManyStreams`, `GuestNoMemory`.
    pub fn attach(&mut self, stream: GuestStream) -> Result<(), Error> {
        // SAFETY: a live handle.
        done(unsafe {
            sys::smmuq_guest_attach(self.0.at(), stream.sid, stream.host, stream.ats.into())
        })
    }

    /// Takes a stream from the guest, with all streams of the host that it is. What was converted before is to be sent, what
    /// the host has cached of them invalidated, and both complete, before another guest gets them.
    pub fn detach(&mut self, sid: u32) -> Result<(), Error> {
        // SAFETY: a live handle.
        done(unsafe { sys::smmuq_guest_detach(self.0.at(), sid) })
    }

    /// The host's commands for a beginning of the guest's, of which it reads 63 at most: each is legal for the host's SMMU,
    /// and covers nothing that isn't the guest's; together they cover all that those which were taken do.
    pub fn convert(&mut self, commands: &[Command]) -> Result<Converted, Error> {
        let mut made = vec![Command::default(); crate::Batch::MOST];
        let mut converted = sys::Converted::default();
        // SAFETY: a live handle, as many commands as are passed, a buffer of the length that is passed, and a live answer.
        done(unsafe {
            sys::smmuq_guest_convert(
                self.0.at(),
                commands.as_ptr(),
                commands.len(),
                made.as_mut_ptr(),
                made.len(),
                &mut converted,
            )
        })?;
        made.truncate(converted.made as usize);
        Ok(Converted {
            taken: converted.taken as usize,
            commands: made,
            end: ConversionEnd::of(&converted),
        })
    }

    /// The streams whose stream table entries a CFGI_STE or CFGI_STE_RANGE of the guest is for; none for another command.
    /// The hypervisor writes these entries of the host, and then sends CFGI_STE of each `host`. `Illegal`.
    pub fn streams(&mut self, command: Command) -> Result<Vec<GuestStream>, Error> {
        let handle = self.0.at();
        // SAFETY: a live handle, a buffer of the length that is passed, and a live answer.
        let found: Vec<sys::GuestStream> = listed(|buffer, length, count| unsafe {
            sys::smmuq_guest_streams(handle, command.lo, command.hi, buffer, length, count)
        })?;
        Ok(found
            .iter()
            .map(|stream| GuestStream {
                sid: stream.sid,
                host: stream.host,
                ats: stream.ats == 1,
            })
            .collect())
    }
}

impl ConversionEnd {
    fn of(words: &sys::Converted) -> ConversionEnd {
        match (words.ended, Illegal::of(words.ill)) {
            (1, _) => ConversionEnd::Full,
            (2, _) => ConversionEnd::Sync,
            (3, _) => ConversionEnd::Configure,
            (4, Some(illegal)) => ConversionEnd::Illegal(illegal),
            (5, _) => ConversionEnd::Refused,
            _ => ConversionEnd::EndOfCommands,
        }
    }
}
