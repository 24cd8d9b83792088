// SPDX-License-Identifier: MIT OR Apache-2.0
use crate::sys;
use alloc::vec::Vec;
use core::fmt;

/// Why words are no legal command.
#[derive(Clone, Copy, Debug, PartialEq, Eq)]
pub enum Illegal {
    /// ILL1: an unknown opcode.
    Opcode,
    /// ILL2: a Secure stream.
    SecureStream,
    /// ILL3: a CMD_SYNC's reserved completion signal.
    Signal,
    /// ILL4: an ATC_INV's oversized span.
    Span,
}

impl Illegal {
    pub(crate) fn of(status: u32) -> Option<Illegal> {
        match status {
            0x01 => Some(Illegal::Opcode),
            0x02 => Some(Illegal::SecureStream),
            0x03 => Some(Illegal::Signal),
            0x04 => Some(Illegal::Span),
            _ => None,
        }
    }

    fn status(self) -> u32 {
        match self {
            Illegal::Opcode => 0x01,
            Illegal::SecureStream => 0x02,
            Illegal::Signal => 0x03,
            Illegal::Span => 0x04,
        }
    }
}

macro_rules! errors {
    ($($(#[$doc:meta])* $name:ident = $number:literal,)*) => {
        /// Why a call did nothing.
        #[derive(Clone, Copy, Debug, PartialEq, Eq)]
        #[non_exhaustive]
        pub enum Error {
            /// The words are no legal command.
            Illegal(Illegal),
            $($(#[$doc])* $name,)*
            /// A status that this crate doesn't know, as of another version of the library.
            Unknown(u32),
        }

        impl Error {
            pub(crate) fn of(status: u32) -> Error {
                match status {
                    $($number => Error::$name,)*
                    other => Illegal::of(other).map_or(Error::Unknown(other), Error::Illegal),
                }
            }

            fn status(self) -> u32 {
                match self {
                    Error::Illegal(illegal) => illegal.status(),
                    $(Error::$name => $number,)*
                    Error::Unknown(status) => status,
                }
            }
        }
    };
}

errors! {
    /// C1: evict something, then fill again.
    CachesFull = 0x11,
    /// C2: a block's address isn't a multiple of its size, or is of stage 2 and past 2^52.
    BadBlock = 0x12,
    /// C3: there is no memory for an entry, or for a list of them.
    CachesNoMemory = 0x13,
    /// C4: a capacity that isn't 1 to 65,536.
    BadCapacity = 0x14,
    /// B1: more than 63 commands.
    BatchFull = 0x21,
    /// B2: a CMD_SYNC among the commands.
    SyncInside = 0x22,
    /// B3: no page.
    NoPages = 0x23,
    /// B4: bytes past the last one, of 2^64 or at stage 2 of 2^52.
    PastEnd = 0x24,
    /// B5: no command.
    BatchEmpty = 0x25,
    /// Q1: nothing more is reserved in this ring.
    RingClosed = 0x31,
    /// Q2: too little room. Normal: try again later.
    RingFull = 0x32,
    /// Q3: another changed the ring first. Normal: try again.
    Contended = 0x33,
    /// Q4: longer than the ring, so it never fits.
    BatchTooLong = 0x34,
    /// Q5: no batch left in this ring.
    SenderExhausted = 0x35,
    /// Q6: a command is reserved that isn't taken yet: take it first.
    CommandWaits = 0x36,
    /// N1: a log2 that isn't 1 to 19.
    BadSize = 0x41,
    /// N2: not 1 to 256 senders.
    BadSenders = 0x42,
    /// N3: no batch for each sender.
    BadBatches = 0x43,
    /// N4: there is no memory for the ring.
    RingNoMemory = 0x44,
    /// G1: no error is active.
    NoError = 0x51,
    /// Another error than CERROR_ILL: nothing is replaced.
    NotIllegal = 0x53,
    /// A CMD_SYNC isn't replaced: it would be by itself.
    SyncStays = 0x54,
    /// A number that is out of its range, as a span over 52.
    BadField = 0x62,
    /// There is no memory.
    NoMemory = 0x64,
    /// The SMMU lacks the stage, the granule or ATS.
    Unsupported = 0x68,
    /// A reservation of this sender was forgotten (`core::mem::forget`) instead of published.
    OpenReservation = 0x66,
    /// Acknowledge the error first.
    StillStopped = 0x70,
    /// Not the command at which the unit stopped, which comes next.
    OtherCommand = 0x71,
    /// 2^46 commands were taken.
    Exhausted = 0x72,
    /// A command that covers the tag was taken since the walk began: walk again.
    Overtaken = 0x78,
    /// More than 64 invalidations were taken since the walk began: walk again.
    TooOld = 0x79,
    /// The walk isn't one of this unit since its last reset: walk again.
    OtherWalk = 0x7a,
    /// No room: end a transaction first, or access memory under the lock.
    TransactionsFull = 0x7b,
    /// A reset ended the transaction, or it is of another unit.
    NotOutstanding = 0x7c,
    /// V1: the host's SMMU doesn't have this stream.
    BadStream = 0x81,
    /// V2: a stream of the guest is it already.
    StreamInUse = 0x82,
    /// V3: the guest's stream is 63 of the host's already.
    TooManyStreams = 0x83,
    /// V4: there is no memory for another stream.
    GuestNoMemory = 0x84,
}

impl fmt::Display for Error {
    /// The words of the library itself, as in "Q2: too little room".
    fn fmt(&self, f: &mut fmt::Formatter<'_>) -> fmt::Result {
        let (mut buffer, mut length) = ([0; 80], 0);
        // SAFETY: the buffer has the length that is passed.
        let status = unsafe {
            sys::smmuq_status_text(
                self.status(),
                buffer.as_mut_ptr(),
                buffer.len(),
                &mut length,
            )
        };
        match core::str::from_utf8(&buffer[..length]) {
            Ok(text) if status == 0 => f.write_str(text),
            _ => write!(f, "status {:#x}", self.status()),
        }
    }
}

impl fmt::Display for Illegal {
    fn fmt(&self, f: &mut fmt::Formatter<'_>) -> fmt::Result {
        Error::Illegal(*self).fmt(f)
    }
}

impl core::error::Error for Error {}
impl core::error::Error for Illegal {}

/// `Ok` for the status 0.
pub(crate) fn done(status: u32) -> Result<(), Error> {
    match status {
        0 => Ok(()),
        other => Err(Error::of(other)),
    }
}

/// What a call puts into a buffer of any length: it is told too short first, with the count.
pub(crate) fn listed<T: Clone + Default>(
    mut call: impl FnMut(*mut T, usize, &mut usize) -> u32,
) -> Result<Vec<T>, Error> {
    let (mut buffer, mut count) = (Vec::new(), 0);
    loop {
        match call(buffer.as_mut_ptr(), buffer.len(), &mut count) {
            sys::SHORT_BUFFER => buffer.resize(count, T::default()),
            status => {
                done(status)?;
                buffer.truncate(count);
                return Ok(buffer);
            }
        }
    }
}
