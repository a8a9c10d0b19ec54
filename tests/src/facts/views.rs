//! Request E8, "what holds of stored views must hold of these": the views in an
//! image, and what they say of the verdicts, told from its bytes alone.

use crate::image::{before, image, read_back};
use crate::levels::{missing, verdicts_by, LEVELS};
use crate::run::{Run, Step};
use crate::store::{
    least_bad_key, least_split_version, newest, CommitNumber, Key, Store, Version, View,
};
use crate::trace::OperationKind;
use crate::{Report, Verdict};

/// Each is a view of the store as it was before its commit, and the versions that
/// the commit read are the newest that it holds. The image is that of what is
/// read from it, and clauses 3, 4, 5 and 8, which look at u and the store before,
/// come to what the report says.
pub fn stored_views_hold(bytes: &[u8], report: &Report) -> Result<(), String> {
    let store = read_back(bytes).ok_or("the image does not end where it should")?;
    if image(&store) != bytes {
        return Err("what is read from the image has another one".to_string());
    }
    let steps: Vec<Step> = store
        .commits()
        .into_iter()
        .map(|commit| step(&store, commit))
        .collect();
    for step in &steps {
        is_view_before(step).map_err(|fact| format!("commit {}: {fact}", step.commit.0))?;
    }
    let told = verdicts_by(&Run { steps, store }, told);
    for (place, level) in LEVELS.iter().enumerate() {
        let tells = level.clauses.iter().all(|clause| TOLD.contains(clause));
        if tells && told[place] != without_record(report.verdicts[place]) {
            let name = level.name;
            return Err(format!("by the image {name} is {:?}", told[place]));
        }
    }
    Ok(())
}

/// A commit, as far as an image knows it: neither its record nor the view after.
fn step(store: &Store, commit: CommitNumber) -> Step {
    Step {
        record: 0,
        commit,
        author: store.author(commit),
        operations: store.operations_of(commit),
        store: before(store, commit),
        u: store.view(commit).clone(),
        store_after: before(store, CommitNumber(commit.0 + 1)),
        u_after: View::new(),
    }
}

fn is_view_before(step: &Step) -> Result<(), String> {
    if let Some(key) = least_bad_key(&step.store, &step.u) {
        return Err(format!("its view lacks version 0 or holds none of {key:?}"));
    }
    if let Some(split) = least_split_version(&step.store, &step.u) {
        return Err(format!(
            "its view lacks {split:?} of a writer that it holds"
        ));
    }
    for operation in &step.operations {
        let key = operation.key;
        let seen = step.store_after.get(key, newest(&step.u, key));
        if operation.kind == OperationKind::Read && !seen.readers.contains(&step.commit) {
            return Err(format!("it read another version of {key:?}"));
        }
    }
    Ok(())
}

/// The clauses that are told from an image here. It tells 6 and 7 too; their
/// paths are slow to find.
const TOLD: [u8; 4] = [3, 4, 5, 8];

fn told(clause: u8, step: &Step) -> Option<(Key, Version)> {
    if TOLD.contains(&clause) {
        missing(clause, step)
    } else {
        None
    }
}

fn without_record(verdict: Verdict) -> Verdict {
    match verdict {
        Verdict::Accepted => Verdict::Accepted,
        Verdict::Refused {
            commit,
            clause,
            key,
            version,
            ..
        } => Verdict::Refused {
            commit,
            record: 0,
            clause,
            key,
            version,
        },
    }
}
