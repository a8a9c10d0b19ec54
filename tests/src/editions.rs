//! Request E6, "The short edition": kinds 5 and 6 beside kinds 2 and 3, the one
//! meaning that all four have, and a trace written in either edition.

use crate::store::{opening_view, Key, Store, Version, View};
use crate::trace::{
    encode, file_of, masks, operation_bytes, with_length, Operation, Record, Trace,
};
use crate::{Refusal, Replay};
use std::collections::{BTreeMap, BTreeSet};

/// Of some keys, the versions that a record lists.
pub type Listed = BTreeMap<Key, BTreeSet<Version>>;

/// What a record of any kind says: whose view, what is done, and what it lists
/// of the view that the client is left with. Kinds 2 and 3 list every key, kind
/// 6 the keys of its set, kind 5 the keys with an operation.
#[derive(Clone, PartialEq, Eq, Debug)]
pub struct Entry {
    pub client: usize,
    pub does: Does,
    pub listed: Listed,
}

#[derive(Clone, PartialEq, Eq, Debug)]
pub enum Does {
    Shift,
    Commit {
        session: u32,
        operations: Vec<Operation>,
    },
}

/// A header and what the records that follow say.
#[derive(Clone, PartialEq, Eq, Debug)]
pub struct Entries {
    pub keys: usize,
    pub clients: usize,
    pub entries: Vec<Entry>,
}

/// "State one meaning of a record for all four kinds": the client's view is what
/// is listed, and at a key that is not listed what the records before left.
pub fn meaning(read: &Entries) -> Trace {
    meaning_by(read, |views, entry| {
        over(&views[entry.client], &entry.listed)
    })
}

/// The same with the view that an entry leaves its client with left open: the
/// views of all clients before it are given.
pub fn meaning_by(read: &Entries, left: impl Fn(&[View], &Entry) -> View) -> Trace {
    let mut views = vec![opening_view(read.keys); read.clients];
    let mut records = Vec::new();
    for entry in &read.entries {
        let view = left(&views, entry);
        views[entry.client] = view.clone();
        let client = entry.client;
        records.push(match &entry.does {
            Does::Shift => Record::Shift { client, view },
            Does::Commit {
                session,
                operations,
            } => Record::Commit {
                client,
                session: *session,
                operations: operations.clone(),
                after: view,
            },
        });
    }
    Trace {
        keys: read.keys,
        clients: read.clients,
        records,
    }
}

/// A view with what is listed put over it.
pub fn over(view: &View, listed: &Listed) -> View {
    let mut new = view.clone();
    new.retain(|(key, _)| !listed.contains_key(key));
    for (key, versions) in listed {
        new.extend(versions.iter().map(|version| (*key, *version)));
    }
    new
}

/// The length of a record of kind 6 with so many set bits.
pub const fn short_shift_len(masks: usize) -> usize {
    10 + 8 * masks
}

/// The length of a record of kind 5 with so many operations and masks.
pub const fn short_commit_len(operations: usize, masks: usize) -> usize {
    10 + 8 * operations + 8 * masks
}

/// The masks of a record of kind 5 whose operations have these keys: one "for
/// each operation whose key differs from the one before (the first always
/// counts)".
pub fn masks_of_commit(keys: &[u8]) -> usize {
    let differs = |place: &usize| *place == 0 || keys[*place] != keys[*place - 1];
    (0..keys.len()).filter(differs).count()
}

/// The two ways to write a record.
#[derive(Clone, Copy, PartialEq, Eq, PartialOrd, Ord, Debug)]
pub enum Edition {
    /// Kinds 6 and 5.
    Short,
    /// Kinds 2 and 3.
    Long,
}

impl Edition {
    pub const ALL: [Edition; 2] = [Edition::Short, Edition::Long];

    /// The file of a trace in this edition, however long it is.
    pub fn file(self, trace: &Trace) -> Vec<u8> {
        match self {
            Edition::Short => encode_short(trace),
            Edition::Long => encode(trace),
        }
    }
}

/// What a trace file is answered with where the trace is asked for in an
/// edition: a refusal, or the length of what is written, as for the replay.
pub type Conversion = Replay;

/// A taken trace as a file of an edition; "an output over 65,536 bytes gets code
/// 22".
pub fn converted(trace: &Trace, edition: Edition) -> Result<Vec<u8>, Refusal> {
    let file = edition.file(trace);
    if file.len() > Store::MAX_BYTES {
        return Err(Refusal::at(22, 0));
    }
    Ok(file)
}

/// The short file of a trace in which no commit changes the view of a key
/// without an operation.
fn encode_short(trace: &Trace) -> Vec<u8> {
    let records = trace.records.iter().zip(views_before(trace));
    let short = records.map(|(record, before)| short_bytes(record, &needed(record, &before)));
    file_of(trace, short.collect())
}

/// For each record of a trace the view that its client has before it.
pub fn views_before(trace: &Trace) -> Vec<View> {
    let mut views = vec![opening_view(trace.keys); trace.clients];
    let mut before = Vec::new();
    for record in &trace.records {
        let (client, view) = left_with(record);
        before.push(std::mem::replace(&mut views[client], view.clone()));
    }
    before
}

/// The client of a record, and the view that it has afterwards.
pub fn left_with(record: &Record) -> (usize, &View) {
    match record {
        Record::Shift { client, view } => (*client, view),
        Record::Commit { client, after, .. } => (*client, after),
    }
}

/// The keys that a short record lists where nothing needless is listed: of a
/// shift "exactly the keys that change", of a commit those with an operation.
pub fn needed(record: &Record, before: &View) -> BTreeSet<Key> {
    match record {
        Record::Shift { view, .. } => changed(before, view),
        Record::Commit { operations, .. } => touched(operations),
    }
}

/// The keys of which two views hold other versions.
pub fn changed(one: &View, other: &View) -> BTreeSet<Key> {
    one.symmetric_difference(other).map(|held| held.0).collect()
}

/// The keys with an operation.
pub fn touched(operations: &[Operation]) -> BTreeSet<Key> {
    operations.iter().map(|operation| operation.key).collect()
}

/// One record of kind 6 or 5, whole, that lists these keys.
pub fn short_bytes(record: &Record, keys: &BTreeSet<Key>) -> Vec<u8> {
    let (client, view) = left_with(record);
    let (kind, mut body) = match record {
        Record::Shift { .. } => {
            let set: u32 = keys.iter().map(|key| 1 << key.0).sum();
            let mut body = vec![client as u8, 0];
            body.extend(set.to_le_bytes());
            (6, body)
        }
        Record::Commit {
            session,
            operations,
            ..
        } => {
            let mut body = vec![client as u8, operations.len() as u8];
            body.extend(session.to_le_bytes());
            body.extend(operations.iter().flat_map(operation_bytes));
            (5, body)
        }
    };
    let masks = masks(view);
    body.extend(keys.iter().flat_map(|key| masks[key.0].to_le_bytes()));
    with_length(kind, body)
}
