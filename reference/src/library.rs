//! The static library's C interface, as its header declares it, and safe calls of it. Parameters have the header's names.

use crate::convert::Reply;
use crate::interface::{
    Ack, AckReading, Beacon, Content, Evaluation, Link, Metric, Reading, Replay, Slot, Span, Table, TableAnswer,
    Written,
};
use crate::log::Log;
use crate::table::Call;

// Of each function that is not safe: a pointer is aligned and valid for as many entries as the length behind it says; it may
// be null if that is 0. Only the buffer of a frame is written.
unsafe extern "C" {
    pub unsafe fn tesolvagna_beacon_read(frame: *const u8, length: usize) -> Reading;

    pub unsafe fn tesolvagna_beacon_write(buffer: *mut u8, buffer_length: usize, beacon: Beacon) -> Written;

    pub unsafe fn tesolvagna_beacon_network_id(frame: *const u8, length: usize) -> Span;

    safe fn tesolvagna_beacon_field(beacon: Beacon, index: usize) -> Content;

    pub unsafe fn tesolvagna_ack_read(frame: *const u8, length: usize) -> AckReading;

    pub unsafe fn tesolvagna_ack_write(buffer: *mut u8, buffer_length: usize, ack: Ack) -> Written;

    safe fn tesolvagna_table_init() -> Table;

    safe fn tesolvagna_table_advertise(table: Table, id: u64, rank: u16) -> TableAnswer;

    safe fn tesolvagna_table_report(table: Table, id: u64, attempts: u32, acknowledged: bool) -> TableAnswer;

    safe fn tesolvagna_table_forget(table: Table, id: u64) -> TableAnswer;

    safe fn tesolvagna_table_evaluate(table: Table) -> Evaluation;

    pub unsafe fn tesolvagna_table_replay(
        table: Table,
        kinds: *const u8,
        kind_count: usize,
        ids: *const u64,
        id_count: usize,
        values: *const u16,
        value_count: usize,
        flags: *const u8,
        flag_count: usize,
    ) -> Replay;

    pub unsafe fn tesolvagna_slot_decide(
        links: *const Link,
        link_count: usize,
        size: u32,
        sequence_id: u32,
        asn: u64,
        waits: bool,
    ) -> Slot;

    safe fn tesolvagna_channel(asn: u64, channel_offset: u16) -> u8;

    safe fn tesolvagna_increment(attempts: u16, acknowledged: u16) -> u32;

    safe fn tesolvagna_join_metric(rank: u32) -> Metric;
}

// A slice's pointer is aligned and valid for its length, also when that is 0: all that the calls below ask.

/// Reads a frame.
pub fn read(frame: &[u8]) -> Reading {
    // SAFETY: as above.
    unsafe { tesolvagna_beacon_read(frame.as_ptr(), frame.len()) }
}

/// Writes a record at the start of a buffer.
pub fn write(beacon: &Beacon, buffer: &mut [u8]) -> Written {
    // SAFETY: as above.
    unsafe { tesolvagna_beacon_write(buffer.as_mut_ptr(), buffer.len(), *beacon) }
}

/// Where a frame has its network ID.
pub fn network_id(frame: &[u8]) -> Span {
    // SAFETY: as above.
    unsafe { tesolvagna_beacon_network_id(frame.as_ptr(), frame.len()) }
}

/// What a record has in a field.
pub fn field(beacon: &Beacon, index: usize) -> Content {
    tesolvagna_beacon_field(*beacon, index)
}

/// Reads a frame as an acknowledgement.
pub fn read_ack(frame: &[u8]) -> AckReading {
    // SAFETY: as above.
    unsafe { tesolvagna_ack_read(frame.as_ptr(), frame.len()) }
}

/// Writes an acknowledgement's record at the start of a buffer.
pub fn write_ack(ack: &Ack, buffer: &mut [u8]) -> Written {
    // SAFETY: as above.
    unsafe { tesolvagna_ack_write(buffer.as_mut_ptr(), buffer.len(), *ack) }
}

/// The empty table.
pub fn init() -> Table {
    tesolvagna_table_init()
}

pub fn advertise(table: &Table, id: u64, rank: u16) -> TableAnswer {
    tesolvagna_table_advertise(*table, id, rank)
}

pub fn report(table: &Table, id: u64, attempts: u32, acknowledged: bool) -> TableAnswer {
    tesolvagna_table_report(*table, id, attempts, acknowledged)
}

pub fn forget(table: &Table, id: u64) -> TableAnswer {
    tesolvagna_table_forget(*table, id)
}

pub fn evaluate(table: &Table) -> Evaluation {
    tesolvagna_table_evaluate(*table)
}

/// The answer to a call; attempts have 32 bits.
pub fn call(table: &Table, call: &Call) -> Reply {
    match *call {
        Call::Advertise { identifier, rank } => Reply::Call(advertise(table, identifier, rank)),
        Call::Report { identifier, attempts, acknowledged } => {
            Reply::Call(report(table, identifier, u32::try_from(attempts).expect("32 bits"), acknowledged))
        }
        Call::Forget { identifier } => Reply::Call(forget(table, identifier)),
        Call::Evaluate => Reply::Evaluation(evaluate(table)),
    }
}

/// Runs a log, whose lists may differ in length.
pub fn replay(table: &Table, log: &Log) -> Replay {
    replay_lists(table, &log.kinds, &log.ids, &log.values, &log.flags)
}

/// The same with the lists on their own.
pub fn replay_lists(table: &Table, kinds: &[u8], ids: &[u64], values: &[u16], flags: &[u8]) -> Replay {
    // SAFETY: as above.
    unsafe {
        tesolvagna_table_replay(
            *table,
            kinds.as_ptr(),
            kinds.len(),
            ids.as_ptr(),
            ids.len(),
            values.as_ptr(),
            values.len(),
            flags.as_ptr(),
            flags.len(),
        )
    }
}

/// What to do in a slot.
pub fn decide(links: &[Link], size: u32, sequence_id: u32, asn: u64, waits: bool) -> Slot {
    // SAFETY: as above.
    unsafe { tesolvagna_slot_decide(links.as_ptr(), links.len(), size, sequence_id, asn, waits) }
}

/// The channel of a slot.
pub fn channel(asn: u64, channel_offset: u16) -> u8 {
    tesolvagna_channel(asn, channel_offset)
}

pub fn increment(attempts: u16, acknowledged: u16) -> u32 {
    tesolvagna_increment(attempts, acknowledged)
}

pub fn join_metric(rank: u32) -> Metric {
    tesolvagna_join_metric(rank)
}
