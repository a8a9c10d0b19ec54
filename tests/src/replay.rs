//! Request E1, "Write out the full-view trace": the replay of section "The
//! words of demand 3" as a file, and what the call that writes it answers.

use crate::run::Run;
use crate::store::Store;
use crate::trace::{commit_len, encode, shift_len, Record, Trace};
use crate::{put, Refusal, Verdict};

/// No replay is longer: as many commits as there may be, of as many operations
/// on as many keys, each with a shift before it.
pub const LONGEST: usize = {
    let shift = shift_len(Store::MAX_KEYS);
    let commit = commit_len(Store::MAX_OPERATIONS, Store::MAX_KEYS);
    Store::MIN_BYTES + Store::MAX_COMMITS * (shift + commit)
};

/// What a trace file is answered with where its replay is asked for.
#[derive(Clone, Copy, PartialEq, Eq, Debug)]
pub enum Replay {
    Refused(Refusal),
    /// The length of the file that stands at the start of the buffer.
    Written(usize),
}

impl Replay {
    /// The code; 0 where the replay was written.
    pub fn code(&self) -> u8 {
        match self {
            Replay::Refused(refusal) => refusal.code,
            Replay::Written(_) => 0,
        }
    }
}

/// The replay of a taken trace as a file, if SER accepts the trace; "code 16
/// with SER's failing record, key and version" if not.
pub fn replay_file(trace: &Trace, run: &Run, ser: &Verdict) -> Result<Vec<u8>, Refusal> {
    match *ser {
        Verdict::Accepted => Ok(encode(&replay_of(trace, run))),
        Verdict::Refused {
            record,
            key,
            version,
            ..
        } => Err(Refusal {
            code: 16,
            record,
            key,
            version,
            writer: 0,
        }),
    }
}

/// What a lent file buffer gets, of the replay or of an edition; 17 is "checked
/// after 16", and "22, then a short buffer 17".
pub fn write(file: &Result<Vec<u8>, Refusal>, buffer: &mut [u8]) -> Replay {
    match file {
        Err(refusal) => Replay::Refused(*refusal),
        Ok(file) if !put(file, buffer) => Replay::Refused(Refusal::at(17, 0)),
        Ok(file) => Replay::Written(file.len()),
    }
}

/// The same commits in the same order, each after a shift of its client to a
/// full view of the store it is made on, and left with a full view.
pub fn replay_of(trace: &Trace, run: &Run) -> Trace {
    let mut records = Vec::new();
    for step in &run.steps {
        records.push(Record::Shift {
            client: step.author.client,
            view: step.store.versions(),
        });
        records.push(Record::Commit {
            client: step.author.client,
            session: step.author.session,
            operations: step.operations.clone(),
            after: step.store_after.versions(),
        });
    }
    Trace {
        keys: trace.keys,
        clients: trace.clients,
        records,
    }
}
