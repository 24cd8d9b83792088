// SPDX-License-Identifier: MIT OR Apache-2.0
use crate::error::{done, Error};
use crate::handle::Owned;
use crate::{sys, Command, Remedy, Sender};
use alloc::vec::Vec;

/// A ring as [`crate::ring`] makes it, with a forwarder in place of the engine, for a hardware queue of `2^queue_log2` slots
/// that is new: SMMU_CMDQ_PROD and SMMU_CMDQ_CONS are 0, and CMDQ_ERR of SMMU_GERROR and SMMU_GERRORN too. `BadField` if
/// `queue_log2` isn't 1 to 19.
pub fn forwarder_ring(
    log2: u32,
    max_batches: u32,
    queue_log2: u32,
    senders: usize,
) -> Result<(Vec<Sender>, Forwarder), Error> {
    let (mut handles, mut handle) = (Owned::several(senders), Owned::EMPTY);
    // SAFETY: as many handles as are passed, one after another (`Owned` is a handle), and one more.
    done(unsafe {
        sys::smmuq_forwarder_ring_new(
            log2,
            max_batches,
            queue_log2,
            handles.as_mut_ptr().cast(),
            handles.len(),
            handle.at(),
        )
    })?;
    let run = [Command::default(); Forwarder::MOST];
    Ok((
        handles.into_iter().map(Sender).collect(),
        Forwarder {
            handle,
            run,
            slots: 1 << queue_log2,
        },
    ))
}

/// A hardware command queue, as its driver reaches it. A driver's own type has it: the memory and the registers are its own,
/// and so are the barriers.
pub trait Hardware {
    /// Writes a command into a slot of the queue's memory. Of a CMD_SYNC it may write one in its place that asks for an MSI
    /// with `message` as data.
    fn write(&mut self, slot: u32, command: Command, message: u32);
    /// While the queue is disabled for a restart: a CMD_SYNC in this slot that asks for an MSI asks for one with `message` as
    /// data from now on. For a queue without MSIs there is nothing to do.
    fn renew(&mut self, slot: u32, message: u32) {
        let _ = (slot, message);
    }
    /// Writes SMMU_CMDQ_PROD, behind a write barrier.
    fn show(&mut self, prod: u32);
    /// Reads SMMU_GERROR.
    fn gerror(&mut self) -> u32;
    /// Reads SMMU_CMDQ_CONS, with a read barrier behind it.
    fn cons(&mut self) -> u32;
    /// Reads SMMU_GERRORN.
    fn gerrorn(&mut self) -> u32;
    /// Writes SMMU_GERRORN, behind a write barrier.
    fn acknowledge(&mut self, gerrorn: u32);
    /// Disables the queue, waits until the hardware reads no more of it, and acknowledges CMDQ_ERR if it is active. If the
    /// whole SMMU was reset, invalidates all that it caches.
    fn disable(&mut self);
    /// Writes SMMU_CMDQ_PROD and SMMU_CMDQ_CONS, and enables the queue.
    fn enable(&mut self, prod: u32, cons: u32);
}

/// What a call of [`Forwarder::forward`] did.
#[derive(Clone, Copy, Debug, PartialEq, Eq)]
pub enum Forwarded {
    /// So many commands were taken, and the hardware was shown them.
    Shown(u32),
    /// This one is illegal by its words: it was taken without effect, and the hardware wasn't shown it.
    Replaced(Command),
    /// As many commands as the hardware's queue has slots are in flight.
    Full,
    /// There is nothing to take.
    Empty,
    /// The same, and the ring is closed.
    Drained,
    /// A sender has reserved the head and not handed it over yet.
    Unwritten,
    /// A poll found what no working queue has.
    Broken,
}

/// What a poll found. So many more commands were consumed: their senders are told.
#[derive(Clone, Copy, Debug, PartialEq, Eq)]
pub enum Polled {
    /// No error is active.
    Consumed(u32),
    /// The hardware stopped behind these by an error, SMMU_CMDQ_CONS.ERR, until that is acknowledged.
    Stopped { consumed: u32, error: u32 },
    /// No working queue has these registers. Until a restart nobody is told anything.
    Broken,
}

/// What became of a batch.
#[derive(Clone, Copy, Debug, PartialEq, Eq)]
pub enum Outcome {
    /// Each of its commands was carried out.
    Complete,
    /// So many were illegal or written over, `u32::MAX` if more.
    Lost(u32),
    /// Its CMD_SYNC isn't consumed.
    NotYet,
    /// It or a later batch of its sender lost commands, and one behind that, too.
    Unknown,
}

/// What stands between a ring and a hardware queue, for the thread that owns the latter.
pub struct Forwarder {
    handle: Owned,
    run: [Command; Forwarder::MOST],
    slots: u32,
}

impl Forwarder {
    /// The most commands that one call shows.
    pub const MOST: usize = 64;

    /// Takes the commands that are ready and shows them to the hardware. Their slots in the ring are
    /// free from then on.
    pub fn forward(&mut self, hardware: &mut impl Hardware) -> Result<Forwarded, Error> {
        let mut placement = sys::Placement::default();
        // SAFETY: a live handle, a buffer of the length that is passed, and a live answer.
        let status = unsafe {
            sys::smmuq_forward(
                self.handle.at(),
                self.run.as_mut_ptr(),
                self.run.len(),
                &mut placement,
            )
        };
        match status {
            0 => {
                for (offset, &command) in (0..placement.count).zip(&self.run) {
                    let slot = (placement.slot + offset) % self.slots;
                    hardware.write(slot, command, placement.message.wrapping_add(offset));
                }
                hardware.show(placement.prod);
                Ok(Forwarded::Shown(placement.count))
            }
            0x73 => Ok(Forwarded::Empty),
            0x74 => Ok(Forwarded::Drained),
            0x75 => Ok(Forwarded::Unwritten),
            0x76 => Ok(Forwarded::Replaced(self.run[0])),
            0x7d => Ok(Forwarded::Full),
            0x7f => Ok(Forwarded::Broken),
            other => Err(Error::of(other)),
        }
    }

    /// Reads the registers, and settles what the hardware has consumed.
    pub fn poll(&mut self, hardware: &mut impl Hardware) -> Result<Polled, Error> {
        let (gerror, cons) = (hardware.gerror(), hardware.cons());
        let mut consumed = 0;
        // SAFETY: a live handle and a live answer.
        let status =
            unsafe { sys::smmuq_forwarder_poll(self.handle.at(), gerror, cons, &mut consumed) };
        match status {
            0 => Ok(Polled::Consumed(consumed)),
            0x7e => Ok(Polled::Stopped {
                consumed,
                error: cons >> 24 & 0x7f,
            }),
            0x7f => Ok(Polled::Broken),
            other => Err(Error::of(other)),
        }
    }

    /// Settles what the hardware has consumed by an MSI, with no register read, and returns how many more these are. `data` is
    /// the word that it wrote: what [`Hardware::write`] or [`Hardware::renew`] got for its CMD_SYNC. What is known already, is of
    /// before a restart, or wasn't shown, counts 0. Errors are found by [`Forwarder::poll`] alone, and until one is
    /// acknowledged no MSI is heard.
    pub fn poll_msi(&mut self, data: u32) -> Result<u32, Error> {
        let mut consumed = 0;
        // SAFETY: a live handle and a live answer.
        done(unsafe { sys::smmuq_forwarder_poll_msi(self.handle.at(), data, &mut consumed) })?;
        Ok(consumed)
    }

    /// Acknowledges the error that the last poll found, and returns the command at which the hardware stopped. `Retry`: it
    /// reads that again. `Replace`: a CMD_SYNC takes its place; it has no effect, though its sender is told. `NoError` if the
    /// poll found none; `NotIllegal` and `SyncStays` if the command isn't to be replaced; `BadField` for `Reread`. Nothing is
    /// written then.
    pub fn acknowledge(
        &mut self,
        hardware: &mut impl Hardware,
        remedy: Remedy,
    ) -> Result<Command, Error> {
        let mut told = sys::Acknowledgement::default();
        let gerrorn = hardware.gerrorn();
        // SAFETY: a live handle and a live answer.
        done(unsafe {
            sys::smmuq_forwarder_acknowledge(self.handle.at(), gerrorn, remedy as u32, &mut told)
        })?;
        if remedy == Remedy::Replace {
            hardware.write(told.slot, Command::SYNC, 0);
        }
        hardware.acknowledge(told.gerrorn);
        Ok(told.command)
    }

    /// Begins the hardware's queue again: it reads again what isn't known to be consumed, whatever the last poll found.
    pub fn restart(&mut self, hardware: &mut impl Hardware) -> Result<(), Error> {
        hardware.disable();
        let mut told = sys::Restart::default();
        let gerrorn = hardware.gerrorn();
        // SAFETY: a live handle and a live answer.
        done(unsafe { sys::smmuq_forwarder_restart(self.handle.at(), gerrorn, &mut told) })?;
        let in_flight = (told.prod + 2 * self.slots - told.cons) % (2 * self.slots);
        for offset in 0..in_flight {
            let slot = (told.cons + offset) % self.slots;
            hardware.renew(slot, told.message.wrapping_add(offset));
        }
        hardware.enable(told.prod, told.cons);
        Ok(())
    }

    /// Returns what became of the batch of the sender with this number, from 0, that `send` told as `number`. What was sent
    /// bare between its CMD_SYNC and the one ahead of it counts, too. `BadField` if there is no such sender.
    pub fn outcome(&mut self, sender: u32, number: u32) -> Result<Outcome, Error> {
        let mut told = sys::BatchOutcome::default();
        // SAFETY: a live handle and a live answer.
        done(unsafe { sys::smmuq_forwarder_outcome(self.handle.at(), sender, number, &mut told) })?;
        Ok(match told.outcome {
            0 => Outcome::Complete,
            1 => Outcome::Lost(told.lost),
            2 => Outcome::NotYet,
            _ => Outcome::Unknown,
        })
    }
}
