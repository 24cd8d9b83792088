// SPDX-License-Identifier: MIT OR Apache-2.0
//! The calls of smmuq.h that this program makes.

/// `smmuq_handle`.
#[repr(C)]
pub struct Handle {
    at: *mut core::ffi::c_void,
}

impl Handle {
    /// A handle that holds nothing.
    pub const EMPTY: Handle = Handle {
        at: core::ptr::null_mut(),
    };
}

/// `smmuq_sender`.
#[repr(transparent)]
pub struct Sender {
    pub handle: Handle,
}

/// `smmuq_engine`.
#[repr(transparent)]
pub struct Engine {
    pub handle: Handle,
}

/// `smmuq_command`.
#[repr(C)]
#[derive(Clone, Copy)]
pub struct Command {
    pub lo: u64,
    pub hi: u64,
}

/// `smmuq_run_answer`.
#[repr(C)]
#[derive(Default)]
pub struct RunAnswer {
    pub count: u32,
    pub removed: u32,
    pub ill: u32,
}

pub const OK: u32 = 0;
/// The ring has too little room.
pub const RING_FULL: u32 = 0x32;
/// Another changed the ring first.
pub const CONTENDED: u32 = 0x33;
pub const RING_EMPTY: u32 = 0x73;
pub const RING_DRAINED: u32 = 0x74;
pub const RING_UNWRITTEN: u32 = 0x75;

unsafe extern "C" {
    pub fn smmuq_free(handle: *mut Handle) -> u32;
    pub fn smmuq_ring_new(
        log2: u32,
        max_batches: u32,
        capacity: u32,
        senders: *mut Sender,
        count: usize,
        engine: *mut Engine,
    ) -> u32;
    pub fn smmuq_send(
        sender: *mut Sender,
        commands: *const Command,
        count: usize,
        tries: u32,
        number: *mut u32,
    ) -> u32;
    pub fn smmuq_done_up_to(sender: *mut Sender, number: *mut u32) -> u32;
    pub fn smmuq_close(sender: *mut Sender) -> u32;
    pub fn smmuq_run(engine: *mut Engine, most: u32, answer: *mut RunAnswer) -> u32;
}
