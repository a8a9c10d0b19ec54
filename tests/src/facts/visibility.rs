//! Request E14, "To be shown on every taken trace": what holds of the rows, told
//! from the rows, the verdicts and the records.

use super::accepts;
use crate::run::Run;
use crate::store::{CommitNumber, Store};
use crate::trace::OperationKind;
use crate::Report;

/// The facts, in the order of the request, of rows that are given.
pub fn visibility_holds(rows: &[u64], run: &Run, report: &Report) -> Result<(), String> {
    let store = &run.store;
    if rows.len() != store.authors.len() {
        return Err("not a row for each commit".to_string());
    }
    for (place, row) in rows.iter().enumerate() {
        let later = u64::MAX << (place + 1);
        if row & (later | 1) != 0 {
            return Err(format!("row {place} has a bit of no earlier commit"));
        }
    }
    reads_hold(rows, run)?;
    let keys = keys_written(store);
    let [mr, ryw, ua, ser] = ["MR", "RYW", "UA", "SER"].map(|level| accepts(report, level));
    for later in 0..rows.len() {
        for earlier in 0..later {
            let same_client = store.authors[earlier].client == store.authors[later].client;
            let writes = keys[earlier] != 0;
            let asked = (ryw && same_client && writes)
                || (ua && keys[earlier] & keys[later] != 0)
                || (ser && writes);
            let names = || format!("commits {} and {}", earlier + 1, later + 1);
            if asked && rows[later] >> (earlier + 1) & 1 == 0 {
                return Err(format!("{}: not visible", names()));
            }
            if mr && same_client && rows[earlier] & !rows[later] != 0 {
                return Err(format!("{}: forgotten", names()));
            }
        }
    }
    Ok(())
}

/// For each commit the keys that it wrote, as bits.
fn keys_written(store: &Store) -> Vec<u64> {
    let mut keys = vec![0; store.authors.len()];
    for (key, list) in store.lists.iter().enumerate() {
        for version in &list[1..] {
            keys[version.writer.0 - 1] |= 1 << key;
        }
    }
    keys
}

/// "each read returns the value of the last visible writer of its key, or 0"
fn reads_hold(rows: &[u64], run: &Run) -> Result<(), String> {
    for step in &run.steps {
        let row = rows[step.commit.0 - 1];
        let visible = |writer: CommitNumber| row >> writer.0 & 1 == 1;
        for operation in &step.operations {
            if operation.kind != OperationKind::Read {
                continue;
            }
            let versions = run.store.lists[operation.key.0][1..].iter();
            let by_visible = versions.filter(|version| visible(version.writer));
            let last = by_visible.max_by_key(|version| version.writer);
            let due = last.map_or(0, |version| version.value);
            if operation.value != due {
                return Err(format!("{:?} reads {}", step.commit, operation.value));
            }
        }
    }
    Ok(())
}

/// Is what a visible commit sees visible too? It is not claimed.
pub fn is_transitive(rows: &[u64]) -> bool {
    let sees_all = |row: u64| {
        let visible = rows.iter().enumerate();
        visible
            .filter(|(place, _)| row >> (place + 1) & 1 == 1)
            .all(|(_, seen)| seen & !row == 0)
    };
    rows.iter().all(|&row| sees_all(row))
}
