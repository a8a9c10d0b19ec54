//! Section "Clauses and levels": the table of clauses, the second one as request
//! E4 amends it, the ten levels, and the first failure of each level over a taken
//! trace.

use crate::relations::{prefix_paths, snapshot_paths, so, Relation};
use crate::run::{Run, Step};
use crate::store::{writers_in, CommitNumber, Key, Store, Version, View};
use crate::trace::OperationKind;
use crate::Verdict;
use std::collections::BTreeSet;

/// A level's name and its clauses, lowest first.
pub struct Level {
    pub name: &'static str,
    pub clauses: &'static [u8],
}

/// The levels in report order.
pub const LEVELS: [Level; 10] = [
    Level {
        name: "MR",
        clauses: &[1],
    },
    Level {
        name: "MW",
        clauses: &[3],
    },
    Level {
        name: "RYW",
        clauses: &[2],
    },
    Level {
        name: "WFR",
        clauses: &[4],
    },
    Level {
        name: "CC",
        clauses: &[1, 2, 3, 4],
    },
    Level {
        name: "UA",
        clauses: &[5],
    },
    Level {
        name: "PSI",
        clauses: &[1, 2, 3, 4, 5],
    },
    Level {
        name: "CP",
        clauses: &[1, 2, 6],
    },
    Level {
        name: "SI",
        clauses: &[1, 2, 5, 7],
    },
    Level {
        name: "SER",
        clauses: &[8],
    },
];

/// The place of a level in the report.
pub fn place_of(name: &str) -> usize {
    let place = LEVELS.iter().position(|level| level.name == name);
    place.expect("a level's name")
}

/// What is missing of a commit by a clause, if anything is.
pub type Clauses = fn(u8, &Step) -> Option<(Key, Version)>;

/// The verdicts of all levels, each its own first failure.
pub fn verdicts(run: &Run) -> [Verdict; 10] {
    verdicts_by(run, missing)
}

/// The same with the meaning of the clauses left open.
pub fn verdicts_by(run: &Run, missing: Clauses) -> [Verdict; 10] {
    let mut verdicts = [Verdict::Accepted; 10];
    for (verdict, level) in verdicts.iter_mut().zip(&LEVELS) {
        *verdict = first_failure(run, level, missing);
    }
    verdicts
}

/// The first commit that fails a level, at its lowest failing clause.
fn first_failure(run: &Run, level: &Level, missing: Clauses) -> Verdict {
    for step in &run.steps {
        for &clause in level.clauses {
            if let Some((key, version)) = missing(clause, step) {
                return Verdict::Refused {
                    commit: step.commit.0,
                    record: step.record,
                    clause,
                    key: key.0,
                    version: version.0,
                };
            }
        }
    }
    Verdict::Accepted
}

/// The least version that a clause wants of a commit and that is not there.
pub fn missing(clause: u8, step: &Step) -> Option<(Key, Version)> {
    let store = &step.store;
    let u = &step.u;
    match clause {
        // MR: all of u in u'.
        1 => least_missing(&step.store_after, &step.u_after, |key, version| {
            u.contains(&(key, version))
        }),
        // RYW: "A commit without operations asks nothing".
        2 if step.operations.is_empty() => None,
        // RYW: "u' holds every version written by this commit or by any commit
        // before it in SO".
        2 => {
            let session = session_of(step);
            least_missing(&step.store_after, &step.u_after, |key, version| {
                session.contains(&step.store_after.get(key, version).writer)
            })
        }
        // MW: if u holds a version by t, versions by any t' with t' SO t.
        3 => missing_before(step, &so(store)),
        // WFR: if u holds a version by t, each version read by t or by a t'
        // with t' SO t.
        4 => {
            let held = writers_in(store, u);
            let mut readers = led_to(&so(store), &held);
            readers.extend(held);
            least_missing(store, u, |key, version| {
                !store.get(key, version).readers.is_disjoint(&readers)
            })
        }
        // UA: every version of each key written.
        5 => least_missing(store, u, |key, _| {
            step.operations
                .iter()
                .any(|operation| operation.kind == OperationKind::Write && operation.key == key)
        }),
        // CP and SI: if u holds a version by t, versions by any t' with a path
        // from t' to t.
        6 => missing_before(step, &prefix_paths(store)),
        7 => missing_before(step, &snapshot_paths(store)),
        // SER: every version of every key.
        8 => least_missing(store, u, |_, _| true),
        _ => unreachable!("there are eight clauses"),
    }
}

/// A commit with operations and those before it in SO.
pub fn session_of(step: &Step) -> BTreeSet<CommitNumber> {
    let commit = BTreeSet::from([step.commit]);
    let mut session = led_to(&so(&step.store_after), &commit);
    session.extend(commit);
    session
}

/// If u holds a version by t, versions by any t' with a link from t' to t.
pub fn missing_before(step: &Step, links: &Relation) -> Option<(Key, Version)> {
    let before = led_to(links, &writers_in(&step.store, &step.u));
    least_missing(&step.store, &step.u, |key, version| {
        before.contains(&step.store.get(key, version).writer)
    })
}

/// The t' with a link to one of the given t.
fn led_to(links: &Relation, targets: &BTreeSet<CommitNumber>) -> BTreeSet<CommitNumber> {
    links
        .iter()
        .filter(|link| targets.contains(&link.1))
        .map(|link| link.0)
        .collect()
}

/// The search: by key and then version, it stops at the first version of the
/// store that is wanted and not in the view.
pub fn least_missing(
    store: &Store,
    view: &View,
    wanted: impl Fn(Key, Version) -> bool,
) -> Option<(Key, Version)> {
    for key in store.keys() {
        for version in store.versions_of(key) {
            if wanted(key, version) && !view.contains(&(key, version)) {
                return Some((key, version));
            }
        }
    }
    None
}
