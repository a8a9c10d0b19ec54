//! Clause 2 before and after request E4, "Read-your-writes was too narrow": the
//! ways in which a commit can stand to it, so that a count can say which of them
//! were met, and what the request changes.

use crate::levels::{least_missing, missing, verdicts, verdicts_by, LEVELS};
use crate::run::{Run, Step};
use crate::store::{Key, Version, View};
use crate::Verdict;
use std::collections::BTreeSet;

/// What the view after a commit lacks of its client's versions: the commit's
/// own, those of earlier commits, or some of both, of which the least is named.
/// Nothing is asked of a commit without operations, whatever it lacks.
pub const WAYS: [&str; 6] = [
    "lacks its own",
    "lacks both, its own is named",
    "lacks both, an earlier commit's is named",
    "lacks an earlier commit's and holds its own",
    "only reads and lacks an earlier commit's",
    "has no operations and lacks an earlier commit's",
];

/// Those of the ways that a trace has: of its first commit that fails clause 2,
/// and of its commits without operations.
pub fn ways(run: &Run) -> BTreeSet<&'static str> {
    let (empty, others): (Vec<&Step>, Vec<&Step>) = run
        .steps
        .iter()
        .partition(|step| step.operations.is_empty());
    let failing = others.into_iter().find_map(way);
    let empty = empty.into_iter().find_map(way);
    failing.into_iter().chain(empty).collect()
}

fn way(step: &Step) -> Option<&'static str> {
    let own = step.store_after.written_by(step.commit);
    let lacked = lacked(step);
    let named_own = own.contains(lacked.first()?);
    let lacks_own = lacked.iter().any(|version| own.contains(version));
    let lacks_earlier = lacked.iter().any(|version| !own.contains(version));
    Some(match (lacks_own, lacks_earlier) {
        (true, false) => WAYS[0],
        (true, true) if named_own => WAYS[1],
        (true, true) => WAYS[2],
        _ if !own.is_empty() => WAYS[3],
        _ if !step.operations.is_empty() => WAYS[4],
        _ => WAYS[5],
    })
}

/// All versions by commits of the client that the view after lacks. The client
/// has no commits in the store but those that are before this one in SO, so it
/// is what clause 2 misses, where it asks anything. A view holds version 0, so
/// the opening transaction is no writer here.
pub fn lacked(step: &Step) -> View {
    let store = &step.store_after;
    let mut lacked: View = &store.versions() - &step.u_after;
    lacked.retain(|&(key, version)| {
        let writer = store.get(key, version).writer;
        store.author(writer).client == step.author.client
    });
    lacked
}

/// The clauses before the request: the second wants "versions written by this
/// commit in u'", and the others are as they are.
pub fn former_clauses(clause: u8, step: &Step) -> Option<(Key, Version)> {
    if clause != 2 {
        return missing(clause, step);
    }
    least_missing(&step.store_after, &step.u_after, |key, version| {
        step.store_after.get(key, version).writer == step.commit
    })
}

/// The names of the levels whose verdict the request changes, with what they
/// said before and say now.
pub fn changed_verdicts(run: &Run) -> Vec<(&'static str, Verdict, Verdict)> {
    let (before, now) = (verdicts_by(run, former_clauses), verdicts(run));
    LEVELS
        .iter()
        .zip(before.into_iter().zip(now))
        .filter(|(_, (before, now))| before != now)
        .map(|(level, (before, now))| (level.name, before, now))
        .collect()
}
