//! Request E11, a serial run by hand: "run the commits one at a time on a table of
//! one value per key, all 0 at first, a commit's reads before its writes". It goes
//! by the operations of the commits alone; no store and no view is looked at.

use crate::store::{CommitNumber, Key, Store};
use crate::trace::{Operation, OperationKind, Record, Trace};

/// One value per key.
pub type Table = Vec<u32>;

/// A read that did not find its value.
#[derive(Clone, Copy, PartialEq, Eq, Debug)]
pub struct NotFound {
    pub commit: CommitNumber,
    pub key: Key,
    pub read: u32,
    pub there: u32,
}

/// The table at the end, or the first read that does not find its value.
pub fn serial_run(trace: &Trace) -> Result<Table, NotFound> {
    let mut table = vec![0; trace.keys];
    for (commit, operations) in commits(trace) {
        for read in of_kind(operations, OperationKind::Read) {
            let there = table[read.key.0];
            if there != read.value {
                return Err(NotFound {
                    commit,
                    key: read.key,
                    read: read.value,
                    there,
                });
            }
        }
        for write in of_kind(operations, OperationKind::Write) {
            table[write.key.0] = write.value;
        }
    }
    Ok(table)
}

/// The operations of each commit, by its number.
pub fn commits(trace: &Trace) -> impl Iterator<Item = (CommitNumber, &[Operation])> {
    let operations = trace.records.iter().filter_map(|record| match record {
        Record::Shift { .. } => None,
        Record::Commit { operations, .. } => Some(&operations[..]),
    });
    (1..).map(CommitNumber).zip(operations)
}

pub fn of_kind(operations: &[Operation], kind: OperationKind) -> impl Iterator<Item = &Operation> {
    operations.iter().filter(move |other| other.kind == kind)
}

/// "each key's newest version": the values of the last versions.
pub fn newest_values(store: &Store) -> Table {
    let last = store.lists.iter().map(|list| list.last());
    last.map(|version| version.expect("version 0").value)
        .collect()
}

/// "Each read finds its value there, and the table ends with each key's newest
/// version."
pub fn holds_by_hand(trace: &Trace, store: &Store) -> Result<(), String> {
    match serial_run(trace) {
        Err(not_found) => Err(format!("a serial run: {not_found:?}")),
        Ok(table) if table != newest_values(store) => {
            Err(format!("a serial run ends with {table:?}"))
        }
        Ok(_) => Ok(()),
    }
}
