//! Section "Store and views", the four rules of a commit, the first by request
//! E7, and the rule of a shift, with codes 9 to 14 of section "Bench codes": a
//! trace is run record after record from the opening store, or refused at its
//! first fault.

use crate::store::{
    held_of, least_bad_key, least_split_version, newest_visible, opening_view, Author,
    CommitNumber, Key, Store, Version, View,
};
use crate::trace::{Operation, OperationKind, Record, Trace};
use crate::Refusal;

/// One commit with all that its clauses look at.
#[derive(Clone, Debug)]
pub struct Step {
    pub record: usize,
    pub commit: CommitNumber,
    pub author: Author,
    pub operations: Vec<Operation>,
    /// The store before the commit, and the client's view u of it.
    pub store: Store,
    pub u: View,
    /// The store with the commit in it, and the view u' of that.
    pub store_after: Store,
    pub u_after: View,
}

/// A taken trace: its commits in order and the final store.
#[derive(Clone, Debug)]
pub struct Run {
    pub steps: Vec<Step>,
    pub store: Store,
}

/// Does the number of a commit keep rule 1?
pub type Numbers = fn(&Step) -> bool;

/// Who is said with code 13 to have written what a commit read of a key.
pub type Writers = fn(&Step, Key) -> CommitNumber;

/// Runs a well-formed trace.
pub fn run(trace: &Trace) -> Result<Run, Refusal> {
    run_by(trace, number_rises, writer_seen)
}

/// Rule 1: the number is "above every earlier number of that client in the
/// trace, operations or none".
pub fn number_rises(step: &Step) -> bool {
    let mut earlier = step.store.sessions_of(step.author.client).into_iter();
    earlier.all(|earlier| earlier < step.author.session)
}

/// The writer of the version that the read sees.
pub fn writer_seen(step: &Step, key: Key) -> CommitNumber {
    newest_visible(&step.store, &step.u, key).writer
}

/// The same with another rule 1, or with other writers named.
pub fn run_by(trace: &Trace, numbers: Numbers, writers: Writers) -> Result<Run, Refusal> {
    let mut store = Store::opening(trace.keys);
    let mut views = vec![opening_view(trace.keys); trace.clients];
    let mut steps = Vec::new();
    for (index, record) in trace.records.iter().enumerate() {
        let number = index + 1;
        match record {
            Record::Shift { client, view } => {
                check_shift(number, &store, &views[*client], view)?;
                views[*client] = view.clone();
            }
            Record::Commit {
                client,
                session,
                operations,
                after,
            } => {
                let author = Author {
                    client: *client,
                    session: *session,
                };
                let u = views[*client].clone();
                let store_after = store.with_commit(author, operations, &u);
                let step = Step {
                    record: number,
                    commit: CommitNumber(store_after.authors.len()),
                    author,
                    operations: operations.clone(),
                    store,
                    u,
                    store_after: store_after.clone(),
                    u_after: after.clone(),
                };
                check_commit(&step, numbers, writers)?;
                views[*client] = after.clone();
                store = store_after;
                steps.push(step);
            }
        }
    }
    Ok(Run { steps, store })
}

/// Codes 10, 11, 12.
fn check_shift(record: usize, store: &Store, old: &View, new: &View) -> Result<(), Refusal> {
    check_view(record, store, new)?;
    for &(key, version) in old {
        if !new.contains(&(key, version)) {
            return Err(named(12, record, key, version));
        }
    }
    Ok(())
}

/// Codes 9, 13, 10, 11, 14.
fn check_commit(step: &Step, numbers: Numbers, writers: Writers) -> Result<(), Refusal> {
    if !numbers(step) {
        return Err(Refusal::at(9, step.record));
    }
    for operation in &step.operations {
        if operation.kind == OperationKind::Read {
            let seen = newest_visible(&step.store, &step.u, operation.key);
            if operation.value != seen.value {
                return Err(Refusal {
                    writer: writers(step, operation.key).0,
                    ..named(13, step.record, operation.key, seen.version)
                });
            }
        }
    }
    check_view(step.record, &step.store_after, &step.u_after)?;
    for key in step.store.keys() {
        let touched = step.operations.iter().any(|operation| operation.key == key);
        if !touched && held_of(&step.u, key) != held_of(&step.u_after, key) {
            return Err(named(14, step.record, key, Version(0)));
        }
    }
    Ok(())
}

/// Codes 10 and 11, each over all keys.
fn check_view(record: usize, store: &Store, view: &View) -> Result<(), Refusal> {
    if let Some(key) = least_bad_key(store, view) {
        return Err(named(10, record, key, Version(0)));
    }
    if let Some((key, version)) = least_split_version(store, view) {
        return Err(named(11, record, key, version));
    }
    Ok(())
}

fn named(code: u8, record: usize, key: Key, version: Version) -> Refusal {
    Refusal {
        code,
        record,
        key: key.0,
        version: version.0,
        writer: 0,
    }
}
