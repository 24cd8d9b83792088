// SPDX-License-Identifier: MIT OR Apache-2.0
use crate::error::{done, Error, Illegal};
use crate::handle::Owned;
use crate::{sys, Command, Sender};
use alloc::vec::Vec;

/// A ring as [`crate::ring`] makes it, without an engine: its consumer carries out the commands itself.
pub fn consumer_ring(
    log2: u32,
    max_batches: u32,
    senders: usize,
) -> Result<(Vec<Sender>, Consumer), Error> {
    let (mut handles, mut handle) = (Owned::several(senders), Owned::EMPTY);
    // SAFETY: as many handles as are passed, one after another (`Owned` is a handle), and one more.
    done(unsafe {
        sys::smmuq_consumer_ring_new(
            log2,
            max_batches,
            handles.as_mut_ptr().cast(),
            handles.len(),
            handle.at(),
        )
    })?;
    let buffer = [Command::default(); Consumer::MOST];
    Ok((
        handles.into_iter().map(Sender).collect(),
        Consumer { handle, buffer },
    ))
}

/// What is at the head of a ring.
pub enum Ready<'a> {
    /// Commands that are ready. They stay in the ring until they are completed.
    Commands(Taken<'a>),
    /// There is nothing to take.
    Empty,
    /// The same, and the ring is closed.
    Drained,
    /// A sender has reserved the head and not handed it over yet.
    Unwritten,
}

/// The ring's other end, for a thread of its own.
pub struct Consumer {
    handle: Owned,
    /// What the last take told.
    buffer: [Command; Consumer::MOST],
}

impl Consumer {
    /// The most commands that one take tells.
    pub const MOST: usize = 64;

    /// Looks for commands that are ready, from the head on.
    pub fn take(&mut self) -> Result<Ready<'_>, Error> {
        let mut count = 0;
        // SAFETY: a live handle, a buffer of the length that is passed, and a live answer.
        let status = unsafe {
            sys::smmuq_take_run(
                self.handle.at(),
                self.buffer.as_mut_ptr(),
                self.buffer.len(),
                &mut count,
            )
        };
        match status {
            0 => Ok(Ready::Commands(Taken {
                consumer: self,
                count,
            })),
            0x73 => Ok(Ready::Empty),
            0x74 => Ok(Ready::Drained),
            0x75 => Ok(Ready::Unwritten),
            other => Err(Error::of(other)),
        }
    }
}

/// What came of a completion.
#[derive(Clone, Copy, Debug, PartialEq, Eq)]
pub enum Completed {
    /// All are legal, and each CMD_SYNC among them is told to its sender.
    Legal,
    /// It was a single illegal one, completed without effect.
    Replaced,
    /// None was completed, since one of several is illegal: complete those before it first, then it alone.
    Refused(Illegal),
}

/// The commands that a take told, 1 to 64. The next take finds again what isn't completed.
///
/// ```compile_fail,E0499
/// # let (_senders, mut consumer) = smmuq::consumer_ring(4, 10, 1)?;
/// let first = consumer.take()?;
/// let second = consumer.take()?; // the first isn't done with
/// drop(first);
/// # Ok::<(), smmuq::Error>(())
/// ```
pub struct Taken<'a> {
    consumer: &'a mut Consumer,
    count: usize,
}

impl Taken<'_> {
    pub fn commands(&self) -> &[Command] {
        &self.consumer.buffer[..self.count]
    }

    /// Completes the first `count` of them. Whoever completes a CMD_SYNC owes that the commands before it have had their
    /// effect: else a sender is told too early, which no type can see. `BadField` if there aren't so many.
    pub fn complete(self, count: usize) -> Result<Completed, Error> {
        // SAFETY: a live handle.
        match unsafe { sys::smmuq_complete(self.consumer.handle.at(), count) } {
            0 => Ok(Completed::Legal),
            0x76 => Ok(Completed::Replaced),
            status => match Illegal::of(status) {
                Some(illegal) => Ok(Completed::Refused(illegal)),
                None => Err(Error::of(status)),
            },
        }
    }
}
