// SPDX-License-Identifier: MIT OR Apache-2.0
use crate::error::{done, Error, Illegal};
use crate::sys;
use alloc::string::String;
use alloc::vec;
use alloc::vec::Vec;

/// A command, as its 16 bytes lie in the queue on a little-endian processor. It need not be a legal one.
#[repr(C)]
#[derive(Clone, Copy, Debug, Default, PartialEq, Eq)]
pub struct Command {
    pub lo: u64,
    pub hi: u64,
}

impl Command {
    /// CMD_SYNC that signals nothing.
    pub const SYNC: Command = Command::new(0x46, 0);

    pub const fn new(lo: u64, hi: u64) -> Command {
        Command { lo, hi }
    }

    /// Whether it is legal.
    pub fn check(self) -> Result<(), Illegal> {
        // SAFETY: it takes numbers alone.
        match Illegal::of(unsafe { sys::smmuq_check(self.lo, self.hi) }) {
            Some(illegal) => Err(illegal),
            None => Ok(()),
        }
    }

    /// The text of a legal command.
    pub fn text(self) -> Result<String, Error> {
        let (mut buffer, mut length) = (vec![0; 160], 0);
        // SAFETY: the buffer has the length that is passed.
        done(unsafe {
            sys::smmuq_text(
                self.lo,
                self.hi,
                buffer.as_mut_ptr(),
                buffer.len(),
                &mut length,
            )
        })?;
        buffer.truncate(length);
        Ok(String::from_utf8_lossy(&buffer).into_owned())
    }

    const fn is_sync(self) -> bool {
        self.lo & 0xff == 0x46
    }
}

/// 1 to 63 commands without a CMD_SYNC, to be sent in one piece. The ring puts a CMD_SYNC behind them.
#[derive(Clone, Debug, PartialEq, Eq)]
pub struct Batch(Vec<Command>);

impl Batch {
    /// The most commands of a batch.
    pub const MOST: usize = 63;

    /// `BatchEmpty`, `BatchFull`, `SyncInside`. The words aren't checked: an illegal command stops the queue for every
    /// sender, so [`Command::check`] what isn't your own.
    pub fn new(commands: impl IntoIterator<Item = Command>) -> Result<Batch, Error> {
        let commands: Vec<Command> = commands.into_iter().take(Batch::MOST + 1).collect();
        match commands.len() {
            0 => Err(Error::BatchEmpty),
            length if length > Batch::MOST => Err(Error::BatchFull),
            _ if commands.iter().any(|command| command.is_sync()) => Err(Error::SyncInside),
            _ => Ok(Batch(commands)),
        }
    }

    pub fn commands(&self) -> &[Command] {
        &self.0
    }
}
