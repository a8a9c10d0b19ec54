//! Section "The words of demand 3", with what request E11 adds: the facts that hold
//! of every taken trace, as functions to test with. Each answers what it found
//! false.

mod editions;
mod views;
mod visibility;

pub use editions::editions_hold;
pub use views::stored_views_hold;
pub use visibility::{is_transitive, visibility_holds};

use crate::levels::place_of;
use crate::relations::{
    dependencies, has_loop, one_or_more, rw, so, then_maybe, union, wr, ww, Relation,
};
use crate::run::{run, Run};
use crate::serial::holds_by_hand;
use crate::store::{CommitNumber, Store};
use crate::trace::Trace;
use crate::{form, outcome, Report, Taken, Verdict};
use std::collections::BTreeSet;

/// The number of the first commit that fails a level; one more than the number
/// of commits if it accepts.
pub fn failing_commit(report: &Report, level: &str) -> usize {
    match report.verdicts[place_of(level)] {
        Verdict::Accepted => report.commits + 1,
        Verdict::Refused { commit, .. } => commit,
    }
}

pub fn accepts(report: &Report, level: &str) -> bool {
    failing_commit(report, level) == report.commits + 1
}

/// The order of the failing commits.
pub fn order_holds(report: &Report) -> Result<(), String> {
    let at = |level| failing_commit(report, level);
    let no_later = [
        ("SI", "PSI"),
        ("SI", "CP"),
        ("PSI", "CC"),
        ("CP", "CC"),
        ("CC", "MR"),
        ("CC", "MW"),
        ("CC", "RYW"),
        ("CC", "WFR"),
    ];
    for (stronger, weaker) in no_later {
        if at(stronger) > at(weaker) {
            return Err(format!("{stronger} fails later than {weaker}"));
        }
    }
    if at("SI") < at("SER").min(at("MR")).min(at("RYW")) {
        return Err("SI fails earlier than SER, MR and RYW".to_string());
    }
    Ok(())
}

/// The rings of the final store: with SI each has two RW links side by side,
/// with SER there is none.
pub fn rings_hold(report: &Report, store: &Store) -> Result<(), String> {
    if accepts(report, "SI") && has_ring_without_adjacent_rw(store) {
        return Err("SI accepts a ring without two RW links side by side".to_string());
    }
    if accepts(report, "SER") && has_ring(store) {
        return Err("SER accepts a ring".to_string());
    }
    Ok(())
}

/// Is there a closed walk of one or more links?
pub fn has_ring(store: &Store) -> bool {
    has_loop(&one_or_more(&dependencies(store)))
}

/// Is there a closed walk in which no two RW links stand side by side, the
/// last link standing beside the first? Walks are followed link by link; all
/// that matters of a walk is where it started, whether its first link was RW,
/// where it is, and whether its last link was RW.
pub fn has_ring_without_adjacent_rw(store: &Store) -> bool {
    let others = union(&[so(store), wr(store), ww(store)]);
    let rw = rw(store);
    let nodes: BTreeSet<CommitNumber> = union(&[others.clone(), rw.clone()])
        .iter()
        .map(|link| link.0)
        .collect();
    for &start in &nodes {
        for first_is_rw in [false, true] {
            let first_links = if first_is_rw { &rw } else { &others };
            let mut reached = BTreeSet::new();
            let mut open: Vec<(CommitNumber, bool)> = targets(first_links, start)
                .into_iter()
                .map(|to| (to, first_is_rw))
                .collect();
            while let Some((place, last_is_rw)) = open.pop() {
                if !reached.insert((place, last_is_rw)) {
                    continue;
                }
                if place == start && !(last_is_rw && first_is_rw) {
                    return true;
                }
                open.extend(targets(&others, place).into_iter().map(|to| (to, false)));
                if !last_is_rw {
                    open.extend(targets(&rw, place).into_iter().map(|to| (to, true)));
                }
            }
        }
    }
    false
}

/// The same by a closure: such a walk, begun at a link that is not RW, is a
/// loop of ((SO or WR or WW);RW?)+. The two are compared by the tests.
pub fn has_ring_without_adjacent_rw_by_closure(store: &Store) -> bool {
    let others = union(&[so(store), wr(store), ww(store)]);
    has_loop(&one_or_more(&then_maybe(&others, &rw(store))))
}

fn targets(links: &Relation, from: CommitNumber) -> Vec<CommitNumber> {
    links
        .iter()
        .filter(|link| link.0 == from)
        .map(|link| link.1)
        .collect()
}

/// If SER accepts there is a replay, which is taken, gives the same store and
/// image, those of the views too, passes all ten levels, and is its own replay;
/// if not there is none.
pub fn replay_holds(taken: &Taken) -> Result<(), String> {
    if taken.replay.is_ok() != accepts(&taken.report, "SER") {
        return Err("a replay where SER refuses, or none where it accepts".to_string());
    }
    let Ok(file) = &taken.replay else {
        return Ok(());
    };
    let Ok(again) = outcome(file) else {
        return Err("the replay is refused".to_string());
    };
    if again.store != taken.store {
        return Err("the replay gives another store".to_string());
    }
    if again.image != taken.image {
        return Err("the replay gives another image".to_string());
    }
    if again.report.verdicts != [Verdict::Accepted; 10] {
        return Err("a level refuses the replay".to_string());
    }
    if again.replay != taken.replay {
        return Err("the replay has another replay".to_string());
    }
    Ok(())
}

/// If SER accepts, a serial run by hand finds what was read and comes to the
/// final store.
pub fn serial_run_holds(trace: &Trace, taken: &Taken) -> Result<(), String> {
    if accepts(&taken.report, "SER") {
        holds_by_hand(trace, &taken.store)
    } else {
        Ok(())
    }
}

/// Demand 3, whole, of one taken trace.
pub fn demand_3_holds(trace: &Trace, taken: &Taken) -> Result<(), String> {
    order_holds(&taken.report)?;
    rings_hold(&taken.report, &taken.store)?;
    replay_holds(taken)?;
    serial_run_holds(trace, taken)
}

/// The numbers of a client rise along the trace, over all its commits.
pub fn numbers_rise(store: &Store) -> Result<(), String> {
    for (place, earlier) in store.authors.iter().enumerate() {
        for later in &store.authors[place + 1..] {
            if earlier.client == later.client && earlier.session >= later.session {
                return Err(format!("{later:?} behind {earlier:?}"));
            }
        }
    }
    Ok(())
}

/// No two entries of the log in an image have equal client and number.
pub fn entries_differ(image: &[u8]) -> Result<(), String> {
    let commits = usize::from(image[5]);
    let length = 8 + 8 * usize::from(image[4]);
    let entries: Vec<&[u8]> = image[8..].chunks(length).take(commits).collect();
    let different: BTreeSet<(u8, &[u8])> = entries
        .iter()
        .map(|entry| (entry[0], &entry[4..8]))
        .collect();
    if different.len() != entries.len() {
        return Err("two entries of the log are alike".to_string());
    }
    Ok(())
}

/// The trace and its run, if none of codes 1 to 14 is due.
pub fn taken(file: &[u8]) -> Option<(Trace, Run)> {
    let trace = form::read(file).ok()?;
    let run = run(&trace).ok()?;
    Some((trace, run))
}
