// SPDX-License-Identifier: MIT OR Apache-2.0
//! The types and calls of smmuq.h that are wrapped here. Every handle is one pointer, so one type serves for all of them.

/// `smmuq_handle`, and the `smmuq_unit`, `smmuq_sender`, `smmuq_engine`, `smmuq_consumer`, `smmuq_guest` and
/// `smmuq_forwarder` round it.
#[repr(C)]
pub struct Handle {
    at: *mut core::ffi::c_void,
}

impl Handle {
    /// A handle that holds nothing.
    pub const EMPTY: Handle = Handle {
        at: core::ptr::null_mut(),
    };
}

/// `smmuq_fields`.
#[repr(C)]
#[derive(Clone, Copy, Default)]
pub struct Fields {
    pub opcode: u32,
    pub sid: u32,
    pub ssid: u32,
    pub vmid: u32,
    pub asid: u32,
    pub leaf: u32,
    pub tg: u32,
    pub num: u32,
    pub scale: u32,
    pub ttl: u32,
    pub ssv: u32,
    pub global: u32,
    pub size: u32,
    pub cs: u32,
    pub msh: u32,
    pub attr: u32,
    pub data: u32,
    pub unused: u32,
    pub address: u64,
    pub lo: u64,
    pub hi: u64,
}

/// `smmuq_tag`.
#[repr(C)]
#[derive(Clone, Copy, Default)]
pub struct Tag {
    pub kind: u32,
    pub sid: u32,
    pub has_ssid: u32,
    pub ssid: u32,
    pub vmid: u32,
    pub scope: u32,
    pub asid: u32,
    pub span: u32,
    pub address: u64,
}

/// `smmuq_held`.
#[repr(C)]
#[derive(Clone, Copy, Debug, Default, PartialEq, Eq)]
pub struct Held {
    /// What was filled in.
    pub value: u64,
    /// How many commands were taken before.
    pub born: u64,
}

/// `smmuq_entry`.
#[repr(C)]
#[derive(Clone, Copy, Default)]
pub struct Entry {
    pub tag: Tag,
    pub held: Held,
}

/// `smmuq_verdict`.
#[repr(C)]
#[derive(Default)]
pub struct Verdict {
    pub removed: u32,
    pub ill: u32,
    pub waiting: u32,
}

/// `smmuq_errors`.
#[repr(C)]
#[derive(Clone, Copy, Debug, Default, PartialEq, Eq)]
pub struct Registers {
    /// SMMU_CMDQ_CONS.ERR.
    pub err: u32,
    /// Bit 0, CMDQ_ERR, of SMMU_GERROR.
    pub gerror: u32,
    /// Bit 0, CMDQ_ERR, of SMMU_GERRORN.
    pub gerrorn: u32,
}

/// `smmuq_tallies`.
#[repr(C)]
#[derive(Clone, Copy, Debug, Default, PartialEq, Eq)]
pub struct Tallies {
    /// The commands that were applied.
    pub applied: u64,
    /// Those that were taken without effect.
    pub replaced: u64,
    /// The CMD_SYNCs among the applied ones.
    pub syncs: u64,
    /// The entries that commands removed.
    pub removed: u64,
}

/// `smmuq_reached`.
#[repr(C)]
#[derive(Default)]
pub struct Reached {
    pub kind: u32,
    pub sid: u32,
    pub last_sid: u32,
    pub substreams: u32,
    pub ssid: u32,
    pub vmid: u32,
    pub asids: u32,
    pub asid: u32,
    pub first: u64,
    pub last: u64,
}

/// `smmuq_change`.
#[repr(C)]
#[derive(Default)]
pub struct Change {
    pub kind: u32,
    pub sid: u32,
    pub substreams: u32,
    pub ssid: u32,
    pub vmid: u32,
    pub asids: u32,
    pub asid: u32,
    pub tg: u32,
    pub leaf: u32,
    pub ttl: u32,
    pub everything: u32,
    pub most_commands: u32,
    pub first: u64,
    pub length: u64,
}

/// `smmuq_transactions`.
#[repr(C)]
#[derive(Default)]
pub struct Transactions {
    pub outstanding: u32,
    pub covered: u32,
}

/// `smmuq_guest_stream`.
#[repr(C)]
#[derive(Clone, Copy, Default)]
pub struct GuestStream {
    pub sid: u32,
    pub host: u32,
    pub ats: u32,
}

/// `smmuq_converted`.
#[repr(C)]
#[derive(Default)]
pub struct Converted {
    pub taken: u32,
    pub made: u32,
    pub ended: u32,
    pub ill: u32,
}

/// SMMUQ_SHORT_BUFFER.
pub const SHORT_BUFFER: u32 = 0x63;
/// SMMUQ_NOT_HELD.
pub const NOT_HELD: u32 = 0x65;

/// `smmuq_run_answer`.
#[repr(C)]
#[derive(Default)]
pub struct RunAnswer {
    pub count: u32,
    pub removed: u32,
    pub ill: u32,
}

/// `smmuq_completion`.
#[repr(C)]
#[derive(Clone, Copy, Debug, Default, PartialEq, Eq)]
pub struct Completion {
    /// The sender, by its place among those of the ring, from 0.
    pub sender: u64,
    /// The number of its CMD_SYNC.
    pub number: u64,
}

/// `smmuq_queue_registers`.
#[repr(C)]
#[derive(Clone, Copy, Debug, Default, PartialEq, Eq)]
pub struct QueueRegisters {
    /// SMMU_CMDQ_PROD.
    pub prod: u32,
    /// SMMU_CMDQ_CONS with ERR.
    pub cons: u32,
    /// Bit 0, CMDQ_ERR, of SMMU_GERROR.
    pub gerror: u32,
    /// Bit 0, CMDQ_ERR, of SMMU_GERRORN.
    pub gerrorn: u32,
}

/// `smmuq_queue_control`.
#[repr(C)]
#[derive(Clone, Copy, Debug, Default, PartialEq, Eq)]
pub struct Control {
    /// SMMU_CMDQ_PROD.
    pub prod: u32,
    /// SMMU_CMDQ_CONS without ERR.
    pub cons: u32,
    /// 1 if the ring is closed, else 0.
    pub closed: u32,
}

use crate::Command;

/// `smmuq_placement`.
#[repr(C)]
#[derive(Default)]
pub struct Placement {
    pub slot: u32,
    pub count: u32,
    pub prod: u32,
    pub message: u32,
}

/// `smmuq_acknowledgement`.
#[repr(C)]
#[derive(Default)]
pub struct Acknowledgement {
    pub command: Command,
    pub slot: u32,
    pub gerrorn: u32,
}

/// `smmuq_restart`.
#[repr(C)]
#[derive(Default)]
pub struct Restart {
    pub prod: u32,
    pub cons: u32,
    pub message: u32,
}

/// `smmuq_batch_outcome`.
#[repr(C)]
#[derive(Default)]
pub struct BatchOutcome {
    pub outcome: u32,
    pub lost: u32,
}

unsafe extern "C" {
    pub fn smmuq_version() -> u32;
    pub fn smmuq_check(lo: u64, hi: u64) -> u32;
    pub fn smmuq_check_for(idr0: u32, idr1: u32, idr3: u32, idr5: u32, lo: u64, hi: u64) -> u32;
    pub fn smmuq_decode(lo: u64, hi: u64, fields: *mut Fields) -> u32;
    pub fn smmuq_encode(fields: *const Fields, command: *mut Command) -> u32;
    pub fn smmuq_range(
        vmid: u32,
        asid: u32,
        address: u64,
        pages: u64,
        buffer: *mut Command,
        length: usize,
        count: *mut usize,
    ) -> u32;
    pub fn smmuq_region(lo: u64, hi: u64, reached: *mut Reached) -> u32;
    pub fn smmuq_invalidation(
        idr0: u32,
        idr1: u32,
        idr3: u32,
        idr5: u32,
        change: *const Change,
        buffer: *mut Command,
        length: usize,
        count: *mut usize,
    ) -> u32;
    pub fn smmuq_nested_invalidation(
        idr0: u32,
        idr1: u32,
        idr3: u32,
        idr5: u32,
        vmid: u32,
        buffer: *mut Command,
        length: usize,
        count: *mut usize,
    ) -> u32;
    pub fn smmuq_detach(
        idr0: u32,
        idr1: u32,
        idr3: u32,
        idr5: u32,
        sid: u32,
        buffer: *mut Command,
        length: usize,
        count: *mut usize,
    ) -> u32;
    pub fn smmuq_detach_endpoint(
        idr0: u32,
        idr1: u32,
        idr3: u32,
        idr5: u32,
        sid: u32,
        ats: u32,
        buffer: *mut Command,
        length: usize,
        count: *mut usize,
    ) -> u32;
    pub fn smmuq_text(lo: u64, hi: u64, buffer: *mut u8, length: usize, written: *mut usize)
        -> u32;
    pub fn smmuq_status_text(
        status: u32,
        buffer: *mut u8,
        length: usize,
        written: *mut usize,
    ) -> u32;
    pub fn smmuq_free(handle: *mut Handle) -> u32;

    pub fn smmuq_unit_new(capacity: u32, unit: *mut Handle) -> u32;
    pub fn smmuq_unit_judge(unit: *mut Handle, lo: u64, hi: u64, verdict: *mut Verdict) -> u32;
    pub fn smmuq_unit_reset(unit: *mut Handle) -> u32;
    pub fn smmuq_unit_stop(unit: *mut Handle, err: u32) -> u32;
    pub fn smmuq_unit_restore(unit: *mut Handle, err: u32, gerror: u32, gerrorn: u32) -> u32;

    pub fn smmuq_unit_new_tracking(
        number: u32,
        capacity: u32,
        transactions: u32,
        unit: *mut Handle,
    ) -> u32;
    pub fn smmuq_begin_walk(unit: *mut Handle, walk: *mut u64) -> u32;
    pub fn smmuq_begin_outstanding_walk(
        unit: *mut Handle,
        walk: *mut u64,
        transaction: *mut u64,
    ) -> u32;
    pub fn smmuq_fill_walked(unit: *mut Handle, walk: u64, tag: *const Tag, value: u64) -> u32;
    pub fn smmuq_begin(
        unit: *mut Handle,
        tag: *const Tag,
        held: *mut Held,
        transaction: *mut u64,
    ) -> u32;
    pub fn smmuq_begin_walked(
        unit: *mut Handle,
        walk: u64,
        tag: *const Tag,
        transaction: *mut u64,
    ) -> u32;
    pub fn smmuq_end(unit: *mut Handle, transaction: u64, last: *mut u32) -> u32;
    pub fn smmuq_outstanding(unit: *mut Handle, transactions: *mut Transactions) -> u32;

    pub fn smmuq_fill(handle: *mut Handle, tag: *const Tag, value: u64) -> u32;
    pub fn smmuq_lookup(handle: *mut Handle, tag: *const Tag, held: *mut Held) -> u32;
    pub fn smmuq_evict(handle: *mut Handle, tag: *const Tag, held: *mut Held) -> u32;
    pub fn smmuq_evict_all(handle: *mut Handle, kinds: u32, count: *mut usize) -> u32;
    pub fn smmuq_evict_stream(handle: *mut Handle, sid: u32, count: *mut usize) -> u32;
    pub fn smmuq_evict_machine(handle: *mut Handle, vmid: u32, count: *mut usize) -> u32;
    pub fn smmuq_evict_older(handle: *mut Handle, born: u64, count: *mut usize) -> u32;
    pub fn smmuq_invalidate(handle: *mut Handle, lo: u64, hi: u64, count: *mut usize) -> u32;
    pub fn smmuq_covered(
        handle: *mut Handle,
        lo: u64,
        hi: u64,
        buffer: *mut Entry,
        length: usize,
        count: *mut usize,
    ) -> u32;
    pub fn smmuq_find(
        handle: *mut Handle,
        kind: u32,
        owner: u32,
        space: u32,
        address: u64,
        spans: u64,
        tag: *mut Tag,
        held: *mut Held,
    ) -> u32;
    pub fn smmuq_count(handle: *mut Handle, count: *mut usize) -> u32;
    pub fn smmuq_entries(
        handle: *mut Handle,
        buffer: *mut Entry,
        length: usize,
        count: *mut usize,
    ) -> u32;
    pub fn smmuq_acknowledge(handle: *mut Handle, gerrorn: u32, remedy: u32) -> u32;
    pub fn smmuq_state(handle: *mut Handle, errors: *mut Registers, tallies: *mut Tallies) -> u32;

    pub fn smmuq_ring_new(
        log2: u32,
        max_batches: u32,
        capacity: u32,
        senders: *mut Handle,
        count: usize,
        engine: *mut Handle,
    ) -> u32;
    pub fn smmuq_send(
        sender: *mut Handle,
        commands: *const Command,
        count: usize,
        tries: u32,
        number: *mut u32,
    ) -> u32;
    pub fn smmuq_send_bare(
        sender: *mut Handle,
        commands: *const Command,
        count: usize,
        tries: u32,
    ) -> u32;
    pub fn smmuq_reserve(
        sender: *mut Handle,
        commands: *const Command,
        count: usize,
        tries: u32,
    ) -> u32;
    pub fn smmuq_publish(sender: *mut Handle, number: *mut u32) -> u32;
    pub fn smmuq_done_up_to(sender: *mut Handle, number: *mut u32) -> u32;
    pub fn smmuq_left(sender: *mut Handle, batches: *mut u32) -> u32;
    pub fn smmuq_look(sender: *mut Handle, found: *mut Control) -> u32;
    pub fn smmuq_close(sender: *mut Handle) -> u32;
    pub fn smmuq_run(engine: *mut Handle, most: u32, answer: *mut RunAnswer) -> u32;
    pub fn smmuq_run_completions(
        engine: *mut Handle,
        most: u32,
        answer: *mut RunAnswer,
        buffer: *mut Completion,
        length: usize,
        count: *mut usize,
    ) -> u32;
    pub fn smmuq_registers(engine: *mut Handle, told: *mut QueueRegisters) -> u32;
    pub fn smmuq_renew(
        log2: u32,
        max_batches: u32,
        capacity: u32,
        senders: *mut Handle,
        count: usize,
        engine: *mut Handle,
    ) -> u32;

    pub fn smmuq_consumer_ring_new(
        log2: u32,
        max_batches: u32,
        senders: *mut Handle,
        count: usize,
        consumer: *mut Handle,
    ) -> u32;
    pub fn smmuq_take_run(
        consumer: *mut Handle,
        buffer: *mut Command,
        length: usize,
        count: *mut usize,
    ) -> u32;
    pub fn smmuq_complete(consumer: *mut Handle, count: usize) -> u32;

    pub fn smmuq_guest_new(
        vmid: u32,
        idr0: u32,
        idr1: u32,
        idr3: u32,
        idr5: u32,
        guest: *mut Handle,
    ) -> u32;
    pub fn smmuq_guest_attach(guest: *mut Handle, sid: u32, host: u32, ats: u32) -> u32;
    pub fn smmuq_guest_detach(guest: *mut Handle, sid: u32) -> u32;
    pub fn smmuq_guest_convert(
        guest: *mut Handle,
        commands: *const Command,
        count: usize,
        buffer: *mut Command,
        length: usize,
        converted: *mut Converted,
    ) -> u32;
    pub fn smmuq_guest_streams(
        guest: *mut Handle,
        lo: u64,
        hi: u64,
        buffer: *mut GuestStream,
        length: usize,
        count: *mut usize,
    ) -> u32;

    pub fn smmuq_forwarder_ring_new(
        log2: u32,
        max_batches: u32,
        queue_log2: u32,
        senders: *mut Handle,
        count: usize,
        forwarder: *mut Handle,
    ) -> u32;
    pub fn smmuq_forward(
        forwarder: *mut Handle,
        buffer: *mut Command,
        length: usize,
        placement: *mut Placement,
    ) -> u32;
    pub fn smmuq_forwarder_poll(
        forwarder: *mut Handle,
        gerror: u32,
        cons: u32,
        consumed: *mut u32,
    ) -> u32;
    pub fn smmuq_forwarder_acknowledge(
        forwarder: *mut Handle,
        gerrorn: u32,
        remedy: u32,
        acknowledgement: *mut Acknowledgement,
    ) -> u32;
    pub fn smmuq_forwarder_poll_msi(forwarder: *mut Handle, data: u32, consumed: *mut u32) -> u32;
    pub fn smmuq_forwarder_restart(
        forwarder: *mut Handle,
        gerrorn: u32,
        restart: *mut Restart,
    ) -> u32;
    pub fn smmuq_forwarder_outcome(
        forwarder: *mut Handle,
        sender: u32,
        number: u32,
        outcome: *mut BatchOutcome,
    ) -> u32;
}
