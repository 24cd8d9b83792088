// SPDX-License-Identifier: MIT OR Apache-2.0
use crate::caches::{sealed, Caches};
use crate::error::{done, Error, Illegal};
use crate::handle::Owned;
pub use crate::sys::{Completion, Control, QueueRegisters};
use crate::{sys, Batch};
use alloc::vec::Vec;

/// A ring of 2^`log2` slots for `senders` threads, each of which may send `max_batches` batches, and an engine whose caches
/// hold `capacity` entries. `BadCapacity`, `BadSize`, `BadSenders`, `BadBatches`, `RingNoMemory`, `NoMemory`.
pub fn ring(
    log2: u32,
    max_batches: u32,
    senders: usize,
    capacity: u32,
) -> Result<(Vec<Sender>, Engine), Error> {
    let (mut handles, mut engine) = (Owned::several(senders), Owned::EMPTY);
    // SAFETY: as many handles as are passed, one after another (`Owned` is a handle), and one more.
    done(unsafe {
        sys::smmuq_ring_new(
            log2,
            max_batches,
            capacity,
            handles.as_mut_ptr().cast(),
            handles.len(),
            engine.at(),
        )
    })?;
    Ok((handles.into_iter().map(Sender).collect(), Engine(engine)))
}

/// Sends batches into a ring, from a thread of its own.
///
/// ```compile_fail,E0382
/// let (senders, _engine) = smmuq::ring(4, 10, 1, 64)?;
/// let mut sender = senders.into_iter().next().unwrap();
/// std::thread::spawn(move || sender.left());
/// sender.left()?; // it is the other thread's
/// # Ok::<(), smmuq::Error>(())
/// ```
pub struct Sender(pub(crate) Owned);

impl Sender {
    /// Sends the batch with a CMD_SYNC behind it, and tells its number, from 1. At `RingFull` and `Contended` it tries again,
    /// `tries` times in all. `RingClosed`, `BatchTooLong`, `SenderExhausted`: if it is refused, nothing was reserved.
    pub fn send(&mut self, batch: &Batch, tries: u32) -> Result<u32, Error> {
        let (commands, mut number) = (batch.commands(), 0);
        // SAFETY: a live handle, as many commands as are passed, and a live answer.
        done(unsafe {
            sys::smmuq_send(
                self.0.at(),
                commands.as_ptr(),
                commands.len(),
                tries,
                &mut number,
            )
        })?;
        Ok(number)
    }

    /// The same without a CMD_SYNC, and without a number.
    pub fn send_bare(&mut self, batch: &Batch, tries: u32) -> Result<(), Error> {
        let commands = batch.commands();
        // SAFETY: a live handle, and as many commands as are passed.
        done(unsafe { sys::smmuq_send_bare(self.0.at(), commands.as_ptr(), commands.len(), tries) })
    }

    /// Reserves the slots of the batch and of a CMD_SYNC behind it. Others go on, but commands are taken only up to here until
    /// it is published. Refused as `send`.
    ///
    /// ```compile_fail,E0499
    /// # let (mut senders, _engine) = smmuq::ring(4, 10, 1, 64)?;
    /// # let batch = smmuq::Batch::new([smmuq::Command::new(0x10, 0)])?;
    /// let reservation = senders[0].reserve(&batch, 1)?;
    /// senders[0].send(&batch, 1)?; // it has a reservation
    /// reservation.publish()?;
    /// # Ok::<(), smmuq::Error>(())
    /// ```
    pub fn reserve(&mut self, batch: &Batch, tries: u32) -> Result<Reservation<'_>, Error> {
        let commands = batch.commands();
        // SAFETY: a live handle, and as many commands as are passed.
        done(unsafe { sys::smmuq_reserve(self.0.at(), commands.as_ptr(), commands.len(), tries) })?;
        Ok(Reservation { sender: self })
    }

    /// The number of the last CMD_SYNC that completed, 0 if none did: it was applied, and all that was reserved before it was
    /// taken. It orders the ring's words, and no memory of the caller's.
    pub fn done_up_to(&mut self) -> Result<u32, Error> {
        let mut number = 0;
        // SAFETY: a live handle, and a live answer.
        done(unsafe { sys::smmuq_done_up_to(self.0.at(), &mut number) })?;
        Ok(number)
    }

    /// How many batches it may still send in this ring.
    pub fn left(&mut self) -> Result<u32, Error> {
        let mut batches = 0;
        // SAFETY: as above.
        done(unsafe { sys::smmuq_left(self.0.at(), &mut batches) })?;
        Ok(batches)
    }

    /// PROD, CONS and closed at this moment.
    pub fn look(&mut self) -> Result<Control, Error> {
        let mut found = Control::default();
        // SAFETY: as above.
        done(unsafe { sys::smmuq_look(self.0.at(), &mut found) })?;
        Ok(found)
    }

    /// Closes the ring for all senders: nothing more is reserved. What was reserved is still taken.
    pub fn close(&mut self) -> Result<(), Error> {
        // SAFETY: a live handle.
        done(unsafe { sys::smmuq_close(self.0.at()) })
    }
}

/// Slots that are reserved and not handed over. It is published at its end, since the ring would stand still else.
///
/// ```compile_fail,E0382
/// # let (mut senders, _engine) = smmuq::ring(4, 10, 1, 64)?;
/// # let batch = smmuq::Batch::new([smmuq::Command::new(0x10, 0)])?;
/// let reservation = senders[0].reserve(&batch, 1)?;
/// reservation.publish()?;
/// reservation.publish()?; // once is enough
/// # Ok::<(), smmuq::Error>(())
/// ```
#[must_use = "nothing behind these slots is taken until they are published"]
pub struct Reservation<'a> {
    sender: &'a mut Sender,
}

impl Reservation<'_> {
    /// Writes the commands, hands them over, and tells the number of the CMD_SYNC.
    pub fn publish(self) -> Result<u32, Error> {
        let mut reservation = core::mem::ManuallyDrop::new(self);
        reservation.hand_over()
    }

    fn hand_over(&mut self) -> Result<u32, Error> {
        let mut number = 0;
        // SAFETY: a live handle, and a live answer.
        done(unsafe { sys::smmuq_publish(self.sender.0.at(), &mut number) })?;
        Ok(number)
    }
}

impl Drop for Reservation<'_> {
    fn drop(&mut self) {
        let _ = self.hand_over();
    }
}

/// What a run did.
#[derive(Clone, Copy, Debug, PartialEq, Eq)]
pub enum Run {
    /// So many commands were applied, and removed so many entries.
    Applied { count: u32, removed: u32 },
    /// It stopped at an illegal one, which stays, behind so many that were applied.
    Stopped {
        count: u32,
        removed: u32,
        illegal: Illegal,
    },
    /// One was taken without effect, as software said.
    Replaced(Illegal),
    /// There is nothing to take.
    Empty,
    /// The same, and the ring is closed.
    Drained,
    /// A sender has reserved the head and not handed it over yet.
    Unwritten,
    /// An error isn't acknowledged.
    StillStopped,
}

/// The SMMU at the ring's other end: it takes commands and applies them to its caches, on a thread of its own.
///
/// ```compile_fail,E0382
/// let (_senders, mut engine) = smmuq::ring(4, 10, 1, 64)?;
/// let mut copy = engine;
/// engine.run(64)?; // there is one handle
/// # Ok::<(), smmuq::Error>(())
/// ```
pub struct Engine(Owned);

impl sealed::HasHandle for Engine {
    fn handle(&mut self, _: sealed::Inside) -> &mut Owned {
        &mut self.0
    }
}

impl Caches for Engine {}

impl Engine {
    /// The most commands that one run takes.
    pub const MOST: usize = 64;

    /// Takes up to `most` commands, clamped to 1 to 64. `Exhausted`.
    pub fn run(&mut self, most: u32) -> Result<Run, Error> {
        let mut answer = sys::RunAnswer::default();
        // SAFETY: a live handle, and a live answer.
        let status = unsafe { sys::smmuq_run(self.0.at(), most, &mut answer) };
        Run::of(status, &answer)
    }

    /// The same, and tells the CMD_SYNCs that completed, in order, so that just their senders are woken. `Exhausted`.
    pub fn run_completions(&mut self, most: u32) -> Result<(Run, Vec<Completion>), Error> {
        let mut answer = sys::RunAnswer::default();
        let (mut completions, mut count) = ([Completion::default(); Engine::MOST], 0);
        // SAFETY: a live handle, a buffer of the length that is passed, and live answers.
        let status = unsafe {
            sys::smmuq_run_completions(
                self.0.at(),
                most,
                &mut answer,
                completions.as_mut_ptr(),
                completions.len(),
                &mut count,
            )
        };
        Ok((Run::of(status, &answer)?, completions[..count].to_vec()))
    }

    /// The queue's registers at this moment.
    pub fn queue_registers(&mut self) -> Result<QueueRegisters, Error> {
        let mut told = QueueRegisters::default();
        // SAFETY: a live handle, and a live answer.
        done(unsafe { sys::smmuq_registers(self.0.at(), &mut told) })?;
        Ok(told)
    }

    /// If nothing waits in its ring, it goes on in a new one, as [`ring`] makes it, whose senders are returned: with the
    /// entries that it held, each older than whatever comes, and with registers and counts as at the start. In the old ring
    /// nothing is taken any more: close it first, so that its senders learn of that by `RingClosed`. `CommandWaits`; those of
    /// `ring`; `CachesFull`, `CachesNoMemory`: then it goes on in the old one.
    pub fn renew(
        &mut self,
        log2: u32,
        max_batches: u32,
        senders: usize,
        capacity: u32,
    ) -> Result<Vec<Sender>, Error> {
        let mut handles = Owned::several(senders);
        // SAFETY: as many handles as are passed, one after another (`Owned` is a handle), and a live one.
        done(unsafe {
            sys::smmuq_renew(
                log2,
                max_batches,
                capacity,
                handles.as_mut_ptr().cast(),
                handles.len(),
                self.0.at(),
            )
        })?;
        Ok(handles.into_iter().map(Sender).collect())
    }
}

impl Run {
    fn of(status: u32, answer: &sys::RunAnswer) -> Result<Run, Error> {
        let (count, removed) = (answer.count, answer.removed);
        match (status, Illegal::of(answer.ill)) {
            (0, _) => Ok(Run::Applied { count, removed }),
            (0x70, _) => Ok(Run::StillStopped),
            (0x73, _) => Ok(Run::Empty),
            (0x74, _) => Ok(Run::Drained),
            (0x75, _) => Ok(Run::Unwritten),
            (0x76, Some(illegal)) => Ok(Run::Replaced(illegal)),
            (other, _) => match Illegal::of(other) {
                Some(illegal) => Ok(Run::Stopped {
                    count,
                    removed,
                    illegal,
                }),
                None => Err(Error::of(other)),
            },
        }
    }
}
