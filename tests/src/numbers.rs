//! Rule 1 before and after request E7, "No number twice, even for empty commits":
//! the ways in which a commit can stand to an earlier one without operations, so
//! that a count can say which of them were met, and what the request changes.

use crate::run::Step;
use crate::trace::{Record, Trace};
use std::cmp::Ordering;
use std::collections::BTreeSet;

/// How a commit stands to the last one before it that its client made without
/// operations.
#[derive(Clone, Copy, PartialEq, Eq, PartialOrd, Ord, Debug)]
pub struct Way {
    /// Its number beside the number of that one.
    pub number: Ordering,
    /// Whether the client made commits with operations between the two.
    pub between: bool,
    /// Whether it has operations itself.
    pub operates: bool,
}

impl Way {
    pub fn all() -> Vec<Way> {
        let mut all = Vec::new();
        for number in [Ordering::Less, Ordering::Equal, Ordering::Greater] {
            for between in [false, true] {
                for operates in [false, true] {
                    all.push(Way {
                        number,
                        between,
                        operates,
                    });
                }
            }
        }
        all
    }

    pub fn name(&self) -> String {
        let commit = match self.operates {
            true => "a commit with operations",
            false => "a commit without operations",
        };
        let number = match self.number {
            Ordering::Less => "a smaller number",
            Ordering::Equal => "the same number",
            Ordering::Greater => "a greater number",
        };
        let between = match self.between {
            true => "others with operations between",
            false => "none with operations between",
        };
        format!("{commit}, {number}, {between}")
    }

    /// Can the request change the answer here? A commit with operations between
    /// the two has the greater number of both, and bound the later one before.
    pub fn is_new(&self) -> bool {
        self.number != Ordering::Greater && !self.between
    }
}

/// What matters of a commit.
struct Numbered {
    session: u32,
    operates: bool,
}

/// The ways that the first records of a trace have, and for each whether some
/// commit is refused for its number there and was not before the request.
pub fn ways(trace: &Trace, records: usize) -> BTreeSet<(Way, bool)> {
    let mut ways = BTreeSet::new();
    let mut clients: Vec<Vec<Numbered>> = (0..trace.clients).map(|_| Vec::new()).collect();
    for record in &trace.records[..records] {
        if let Record::Commit {
            client,
            session,
            operations,
            ..
        } = record
        {
            let commit = Numbered {
                session: *session,
                operates: !operations.is_empty(),
            };
            ways.extend(way(&clients[*client], &commit));
            clients[*client].push(commit);
        }
    }
    ways
}

/// The same of one commit, behind the earlier ones of its client.
fn way(earlier: &[Numbered], commit: &Numbered) -> Option<(Way, bool)> {
    let empty = earlier.iter().rposition(|commit| !commit.operates)?;
    let way = Way {
        number: commit.session.cmp(&earlier[empty].session),
        between: empty + 1 < earlier.len(),
        operates: commit.operates,
    };
    let binds = |other: &&Numbered| commit.session <= other.session;
    let mut binding = earlier.iter().filter(binds).peekable();
    let refused = binding.peek().is_some();
    Some((way, refused && binding.all(|commit| !commit.operates)))
}

/// Rule 1 before the request: the number is "above every number of that client
/// that appears in the store as writer or reader".
pub fn former_rule(step: &Step) -> bool {
    let store = &step.store;
    store.appearing().into_iter().all(|commit| {
        let earlier = store.author(commit);
        earlier.client != step.author.client || earlier.session < step.author.session
    })
}
