// SPDX-License-Identifier: MIT OR Apache-2.0
//! The command queue and invalidation engine of the Arm System MMU version 3, proved: a safe wrapper of the C library
//! libsmmuq. What `include/smmuq.h` asks of a C caller is asked by types here: there is one handle of each object, it is freed
//! once, and one call at a time is made on it.
//!
//! - [`Unit`] is for a device model, which reads commands from a queue of its own; with [`Unit::tracking`] walks and accesses
//!   may go on meanwhile.
//! - [`ring`] makes a queue of many senders and an [`Engine`]; [`consumer_ring`] one whose commands the caller carries out,
//!   and [`forwarder_ring`] one whose commands a hardware queue gets.
//! - [`IdRegisters::invalidation`] makes the commands for what a driver changed, and [`Guest`] those for what its guest sends.
//!
//! The contracts are those of the header. No call may be made from a signal
//! handler, nor from the forked child of a process with threads: no type can keep that.
//!
//! ```
//! use smmuq::{Block, Caches, Command, Judged, Scope, Tag, Unit};
//!
//! let mut unit = Unit::new(64)?;
//! let page = Tag::Stage1 { vmid: 1, scope: Scope::Asid(2), block: Block::page(0x3000) };
//! unit.fill(page, 0x1000)?;
//! let tlbi_nh_va = Command::new(0x0002_0001_0000_0012, 0x3001);
//! assert_eq!(unit.judge(tlbi_nh_va)?, Judged::Applied { removed: 1 });
//! assert_eq!(unit.lookup(page)?, None);
//! # Ok::<(), smmuq::Error>(())
//! ```
#![no_std]

extern crate alloc;

mod caches;
mod change;
mod command;
mod consumer;
mod error;
mod fields;
mod forwarder;
mod guest;
mod handle;
mod kinds;
mod region;
mod ring;
mod space;
mod sys;
mod tracking;
mod unit;

pub use caches::{Acknowledged, Block, Caches, Held, Registers, Remedy, Scope, Tag, Tallies};
pub use change::{Bytes, Change, Changed, Granule, IdRegisters, Pages};
pub use command::{Batch, Command};
pub use consumer::{consumer_ring, Completed, Consumer, Ready, Taken};
pub use error::{Error, Illegal};
pub use fields::{ByAddress, Fields, Range};
pub use forwarder::{forwarder_ring, Forwarded, Forwarder, Hardware, Outcome, Polled};
pub use guest::{ConversionEnd, Converted, Guest, GuestStream};
pub use kinds::Kinds;
pub use region::{Asids, Region, Substreams};
pub use ring::{ring, Completion, Control, Engine, QueueRegisters, Reservation, Run, Sender};
pub use space::{Space, Spans};
pub use tracking::{Ended, Outstanding, Transaction, Walk};
pub use unit::{Judged, QueueError, Unit};

/// The version of the C library's interface.
pub fn version() -> u32 {
    // SAFETY: it takes nothing.
    unsafe { sys::smmuq_version() }
}
