//! Section "The trace file": the trace as data, and its encoding to bytes in
//! kinds 2 and 3; kinds 5 and 6 are in `editions.rs`.

use crate::store::{Key, Store, View};

/// A read stands before a write of the same key.
#[derive(Clone, Copy, PartialEq, Eq, PartialOrd, Ord, Debug)]
pub enum OperationKind {
    Read,
    Write,
}

#[derive(Clone, Copy, PartialEq, Eq, Debug)]
pub struct Operation {
    pub kind: OperationKind,
    pub key: Key,
    pub value: u32,
}

/// What a record means, of whatever kind. A view here is what the masks say,
/// good or not.
#[derive(Clone, PartialEq, Eq, Debug)]
pub enum Record {
    Shift {
        client: usize,
        view: View,
    },
    Commit {
        client: usize,
        session: u32,
        operations: Vec<Operation>,
        after: View,
    },
}

/// A header and the records that follow; the first of them is record 1.
#[derive(Clone, PartialEq, Eq, Debug)]
pub struct Trace {
    pub keys: usize,
    pub clients: usize,
    pub records: Vec<Record>,
}

/// The whole file of a trace, in kinds 2 and 3.
pub fn encode(trace: &Trace) -> Vec<u8> {
    let records = trace.records.iter();
    let long = records.map(|record| record_bytes(record, trace.keys));
    file_of(trace, long.collect())
}

/// A file with the header of a trace and these records.
pub fn file_of(trace: &Trace, records: Vec<Vec<u8>>) -> Vec<u8> {
    let mut file = vec![0; 4];
    file.extend(header_bytes(trace));
    file.extend(records.concat());
    with_true_length(file)
}

/// The first field says how long the whole is, which has that field.
pub fn with_true_length(mut bytes: Vec<u8>) -> Vec<u8> {
    let length = bytes.len() as u32;
    bytes[..4].copy_from_slice(&length.to_le_bytes());
    bytes
}

/// Record 0.
pub fn header_bytes(trace: &Trace) -> Vec<u8> {
    let mut bytes = Vec::new();
    bytes.extend(8u16.to_le_bytes());
    bytes.extend(1u16.to_le_bytes());
    bytes.push(trace.keys as u8);
    bytes.push(trace.clients as u8);
    bytes.extend((trace.records.len() as u16).to_le_bytes());
    bytes
}

/// One record of kind 2 or 3, whole.
pub fn record_bytes(record: &Record, keys: usize) -> Vec<u8> {
    let (kind, body) = match record {
        Record::Shift { client, view } => {
            let mut body = vec![*client as u8, 0];
            body.extend(masks_bytes(view, keys));
            (2, body)
        }
        Record::Commit {
            client,
            session,
            operations,
            after,
        } => {
            let mut body = vec![*client as u8, operations.len() as u8];
            body.extend(session.to_le_bytes());
            for operation in operations {
                body.extend(operation_bytes(operation));
            }
            body.extend(masks_bytes(after, keys));
            (3, body)
        }
    };
    with_length(kind, body)
}

/// A record of a kind, its length before it.
pub fn with_length(kind: u16, body: Vec<u8>) -> Vec<u8> {
    let mut bytes = ((body.len() + 4) as u16).to_le_bytes().to_vec();
    bytes.extend(kind.to_le_bytes());
    bytes.extend(body);
    bytes
}

pub fn operation_bytes(operation: &Operation) -> Vec<u8> {
    let kind = match operation.kind {
        OperationKind::Read => 0,
        OperationKind::Write => 1,
    };
    let mut bytes = vec![kind, operation.key.0 as u8, 0, 0];
    bytes.extend(operation.value.to_le_bytes());
    bytes
}

/// The length of a record of kind 2.
pub const fn shift_len(keys: usize) -> usize {
    6 + 8 * keys
}

/// The length of a record of kind 3 with so many operations.
pub const fn commit_len(operations: usize, keys: usize) -> usize {
    10 + 8 * operations + 8 * keys
}

/// One mask for each key.
pub fn masks_bytes(view: &View, keys: usize) -> Vec<u8> {
    let masks = masks(view).into_iter().take(keys);
    masks.flat_map(u64::to_le_bytes).collect()
}

/// The mask of each key that there may be; bit i stands for version i.
pub fn masks(view: &View) -> [u64; Store::MAX_KEYS] {
    let mut masks = [0; Store::MAX_KEYS];
    for (key, version) in view {
        masks[key.0] |= 1 << version.0;
    }
    masks
}
