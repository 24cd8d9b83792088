// SPDX-License-Identifier: MIT OR Apache-2.0
use crate::caches::{sealed, Caches};
use crate::error::{done, Error, Illegal};
use crate::handle::Owned;
use crate::{sys, Command};

/// What came of a command.
#[derive(Clone, Copy, Debug, PartialEq, Eq)]
pub enum Judged {
    /// It was applied, and removed so many entries.
    Applied { removed: u32 },
    /// The unit stopped at it, and it stays in the queue.
    Stopped(Illegal),
    /// It was taken without effect, as software said.
    Replaced(Illegal),
    /// A CMD_SYNC that has to wait for so many transactions. Nothing changed: it stays in the queue, and comes again once
    /// [`Unit::end`] told that the last of them is over.
    Waiting { transactions: u32 },
}

/// SMMU_CMDQ_CONS.ERR.
#[derive(Clone, Copy, Debug, PartialEq, Eq)]
pub enum QueueError {
    /// CERROR_ILL: an illegal command, as one that the model's ID registers don't have.
    Illegal = 1,
    /// CERROR_ABT: the queue couldn't be read.
    Abort,
    /// CERROR_ATC_INV_SYNC: an endpoint didn't answer an ATC_INV.
    AtcInvSync,
}

/// The caches and the error stop of one SMMU, for a device model that reads the commands from a queue of its own.
///
/// It may go to another thread, and no two calls run at once:
///
/// ```compile_fail,E0277
/// fn shared<T: Sync>() {}
/// shared::<smmuq::Unit>();
/// ```
///
/// ```compile_fail,E0382
/// use smmuq::{Caches, Unit};
/// let mut unit = Unit::new(64)?;
/// drop(unit);
/// unit.count()?; // it is freed
/// # Ok::<(), smmuq::Error>(())
/// ```
pub struct Unit(pub(crate) Owned);

impl sealed::HasHandle for Unit {
    fn handle(&mut self, _: sealed::Inside) -> &mut Owned {
        &mut self.0
    }
}

impl Caches for Unit {}

impl Unit {
    /// A unit with empty caches for `capacity` entries, 1 to 65,536. `BadCapacity`, `NoMemory`.
    pub fn new(capacity: u32) -> Result<Unit, Error> {
        let mut unit = Unit(Owned::EMPTY);
        // SAFETY: a live handle.
        done(unsafe { sys::smmuq_unit_new(capacity, unit.0.at()) })?;
        Ok(unit)
    }

    /// Judges the next command. `StillStopped`, `OtherCommand`, `Exhausted`: nothing changed.
    pub fn judge(&mut self, command: Command) -> Result<Judged, Error> {
        let mut verdict = sys::Verdict::default();
        // SAFETY: a live handle, and a live answer.
        let status =
            unsafe { sys::smmuq_unit_judge(self.0.at(), command.lo, command.hi, &mut verdict) };
        match (status, Illegal::of(verdict.ill)) {
            (0, _) => Ok(Judged::Applied {
                removed: verdict.removed,
            }),
            (0x76, Some(illegal)) => Ok(Judged::Replaced(illegal)),
            (0x77, _) => Ok(Judged::Waiting {
                transactions: verdict.waiting,
            }),
            (other, _) => match Illegal::of(other) {
                Some(illegal) => Ok(Judged::Stopped(illegal)),
                None => Err(Error::of(other)),
            },
        }
    }

    /// Stops it for an error that the model found itself. `acknowledge` goes on, whatever the remedy. `StillStopped`.
    pub fn stop(&mut self, error: QueueError) -> Result<(), Error> {
        // SAFETY: a live handle.
        done(unsafe { sys::smmuq_unit_stop(self.0.at(), error as u32) })
    }

    /// For migration: sets CMDQ_ERR of SMMU_GERROR and SMMU_GERRORN, of which only bit 0 counts. If they differ it is stopped
    /// with that error until `acknowledge`, whatever the remedy. `StillStopped`.
    pub fn restore(&mut self, error: QueueError, gerror: u32, gerrorn: u32) -> Result<(), Error> {
        // SAFETY: a live handle.
        done(unsafe { sys::smmuq_unit_restore(self.0.at(), error as u32, gerror, gerrorn) })
    }

    /// Empties the caches, and takes counts, registers and the stop back to the start.
    pub fn reset(&mut self) {
        // SAFETY: a live handle, which is a unit's, so this isn't refused.
        let _ = unsafe { sys::smmuq_unit_reset(self.0.at()) };
    }
}
