//! Section "Clauses and levels", first paragraph: SO, WR, WW and RW as sets of
//! pairs of commit numbers, and the ways in which clauses 6 and 7 put them
//! together.

use crate::store::{CommitNumber, Store, OPENING};
use std::collections::BTreeSet;

/// A set of links, each from one transaction to another.
pub type Relation = BTreeSet<(CommitNumber, CommitNumber)>;

/// Same client, smaller session number to larger, among commits in the store.
pub fn so(store: &Store) -> Relation {
    let mut links = Relation::new();
    let appearing = store.appearing();
    for &first in &appearing {
        for &second in &appearing {
            let (a, b) = (store.author(first), store.author(second));
            if a.client == b.client && a.session < b.session {
                links.insert((first, second));
            }
        }
    }
    links
}

/// Writer to reader of a version.
pub fn wr(store: &Store) -> Relation {
    let mut links = Relation::new();
    for list in &store.lists {
        for version in list {
            for &reader in &version.readers {
                links.insert((version.writer, reader));
            }
        }
    }
    links
}

/// Writer to writer of a later version of one key.
pub fn ww(store: &Store) -> Relation {
    let mut links = Relation::new();
    for list in &store.lists {
        for (place, version) in list.iter().enumerate() {
            for later in &list[place + 1..] {
                links.insert((version.writer, later.writer));
            }
        }
    }
    links
}

/// Reader of a version to the writer of a later one of that key, unless the
/// two are the same commit.
pub fn rw(store: &Store) -> Relation {
    let mut links = Relation::new();
    for list in &store.lists {
        for (place, version) in list.iter().enumerate() {
            for &reader in &version.readers {
                for later in &list[place + 1..] {
                    if reader != later.writer {
                        links.insert((reader, later.writer));
                    }
                }
            }
        }
    }
    links
}

/// One step of clause 6: SO;RW? or WR;RW? or WW.
pub fn prefix_steps(store: &Store) -> Relation {
    let rw = rw(store);
    union(&[
        then_maybe(&so(store), &rw),
        then_maybe(&wr(store), &rw),
        ww(store),
    ])
}

/// One step of clause 7: SO;RW? or WR;RW? or WW;RW?.
pub fn snapshot_steps(store: &Store) -> Relation {
    let rw = rw(store);
    union(&[
        then_maybe(&so(store), &rw),
        then_maybe(&wr(store), &rw),
        then_maybe(&ww(store), &rw),
    ])
}

/// Clause 6: (SO;RW? or WR;RW? or WW)+.
pub fn prefix_paths(store: &Store) -> Relation {
    one_or_more(&prefix_steps(store))
}

/// Clause 7: (SO;RW? or WR;RW? or WW;RW?)+.
pub fn snapshot_paths(store: &Store) -> Relation {
    one_or_more(&snapshot_steps(store))
}

/// All dependencies: SO, WR, WW and RW together.
pub fn dependencies(store: &Store) -> Relation {
    union(&[so(store), wr(store), ww(store), rw(store)])
}

pub fn union(relations: &[Relation]) -> Relation {
    relations.iter().flatten().copied().collect()
}

/// A;B: a link of A and then one of B.
pub fn compose(a: &Relation, b: &Relation) -> Relation {
    let mut links = Relation::new();
    for &(first, middle) in a {
        for &(_, last) in b
            .range((middle, OPENING)..)
            .take_while(|link| link.0 == middle)
        {
            links.insert((first, last));
        }
    }
    links
}

/// A;B?: a link of A, and then one of B or nothing.
pub fn then_maybe(a: &Relation, b: &Relation) -> Relation {
    union(&[a.clone(), compose(a, b)])
}

/// A+: one link more, until nothing new comes.
pub fn one_or_more(a: &Relation) -> Relation {
    let mut paths = a.clone();
    loop {
        let longer = union(&[paths.clone(), compose(&paths, a)]);
        if longer == paths {
            return paths;
        }
        paths = longer;
    }
}

/// Does some transaction link to itself?
pub fn has_loop(a: &Relation) -> bool {
    a.iter().any(|link| link.0 == link.1)
}
