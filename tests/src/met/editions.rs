//! What was met of the two editions: records of all four kinds, the edges of
//! their form, and files that grow or shrink.

use crate::editions::{over, Does, Entry};
use crate::form::Form;
use crate::generate::editions::kinds;
use crate::generate::{Case, EDGES, GROWING};
use crate::store::{held_of, opening_view, Key, Store};
use crate::{Edition, Outcome, Taken};
use std::collections::{BTreeMap, BTreeSet};

#[derive(Default)]
pub struct Editions {
    /// Taken files by the kinds of their records.
    kinds: BTreeMap<BTreeSet<u8>, usize>,
    /// Refusals of each code but 4 at records of each kind.
    refused: BTreeMap<(u8, u8), usize>,
    /// Short records in taken files, of some sorts.
    sorts: BTreeMap<&'static str, usize>,
    /// Files made for an edge, or to grow.
    made_for: BTreeMap<&'static str, usize>,
    /// Taken files by how long each edition is beside the file.
    lengths: BTreeMap<(Edition, &'static str), usize>,
}

/// How long an edition can be beside the file that it is written from.
const LENGTHS: [&str; 5] = [
    "shorter",
    "as long",
    "longer",
    "at the limit",
    "past the limit",
];

/// Sorts of short records in taken files.
const SORTS: [&str; 9] = [
    "6, no key",
    "6, every key",
    "6, a key that does not change",
    "6, a key that changes beside one that does not",
    "6, key 31",
    "5, no operation",
    "5, every key",
    "5, a key read and written",
    "5, a key that does not change",
];

impl Editions {
    /// Counts one file.
    pub fn file(&mut self, case: &Case, outcome: &Outcome) {
        for name in case.edge.iter().chain(&case.grows) {
            *self.made_for.entry(name).or_default() += 1;
        }
        match outcome {
            Ok(taken) => self.taken(&case.bytes, taken),
            Err(refusal) if refusal.record > 0 && refusal.code != 4 => {
                let kind = kinds(&case.bytes).get(refusal.record - 1).copied();
                if let Some(kind) = kind {
                    *self.refused.entry((refusal.code, kind)).or_default() += 1;
                }
            }
            Err(_) => {}
        }
    }

    fn taken(&mut self, file: &[u8], taken: &Taken) {
        let kinds = kinds(file);
        *self
            .kinds
            .entry(kinds.iter().copied().collect())
            .or_default() += 1;
        for edition in Edition::ALL {
            let length = match taken.converted(edition) {
                Err(_) => "past the limit",
                Ok(written) if written.len() == Store::MAX_BYTES => "at the limit",
                Ok(written) if written.len() < file.len() => "shorter",
                Ok(written) if written.len() == file.len() => "as long",
                Ok(_) => "longer",
            };
            *self.lengths.entry((edition, length)).or_default() += 1;
        }

        let read = Form::default().entries(file).expect("it is taken");
        let mut views = vec![opening_view(read.keys); read.clients];
        for (entry, kind) in read.entries.iter().zip(kinds) {
            let view = &mut views[entry.client];
            if kind == 5 || kind == 6 {
                let listed = entry.listed.iter();
                let unchanged = listed.filter(|(key, held)| held_of(view, **key) == **held);
                for sort in sorts(kind, entry, read.keys, unchanged.count()) {
                    *self.sorts.entry(sort).or_default() += 1;
                }
            }
            *view = over(view, &entry.listed);
        }
    }

    /// Takes the counts of another run in.
    pub fn add(&mut self, other: Editions) {
        add(&mut self.kinds, other.kinds);
        add(&mut self.refused, other.refused);
        add(&mut self.sorts, other.sorts);
        add(&mut self.made_for, other.made_for);
        add(&mut self.lengths, other.lengths);
    }

    pub fn print(&self) {
        println!("taken files by the kinds of their records");
        for (kinds, count) in &self.kinds {
            println!("  {kinds:?}: {count}");
        }
        println!("refusals of each code at records of each kind");
        for ((code, kind), count) in &self.refused {
            println!("  {code} at kind {kind}: {count}");
        }
        println!("short records in taken files");
        for (sort, count) in &self.sorts {
            println!("  {sort}: {count}");
        }
        println!("files made for an edge, or to grow");
        for (name, count) in &self.made_for {
            println!("  {name}: {count}");
        }
        println!("each edition beside the file");
        for ((edition, length), count) in &self.lengths {
            println!("  {edition:?}, {length}: {count}");
        }
    }

    /// Fails if something was never met.
    pub fn lacks_nothing(&self) {
        for kinds in [&[2, 3][..], &[5, 6], &[2, 3, 5, 6]] {
            let kinds = kinds.iter().copied().collect();
            assert!(self.kinds.contains_key(&kinds), "no file of {kinds:?}");
        }
        let refused = self.refused.keys().filter(|met| met.0 > 5);
        let refused: BTreeSet<(u8, u8)> = refused.copied().collect();
        assert_eq!(refused, possible_refusals());
        for kind in [2, 3, 5, 6] {
            assert!(self.refused.contains_key(&(3, kind)), "3 at kind {kind}");
        }
        for sort in SORTS {
            assert!(self.sorts.contains_key(sort), "no record: {sort}");
        }
        let edges = EDGES.iter().map(|edge| edge.name);
        for name in edges.chain(GROWING) {
            assert!(self.made_for.contains_key(name), "no file: {name}");
        }
        for edition in Edition::ALL {
            for length in LENGTHS {
                let met = self.lengths.contains_key(&(edition, length));
                assert!(met, "{edition:?}, {length}");
            }
        }
    }
}

/// The codes above 5 that a record of each kind can get: clients and bodies of
/// all kinds, commits beyond the last, and what each kind means. A kind 5 lists
/// the keys with an operation alone, so that 14 is not due for it.
fn possible_refusals() -> BTreeSet<(u8, u8)> {
    let mut possible = BTreeSet::from([(14, 3)]);
    for code in [6, 7, 10, 11] {
        possible.extend([2, 3, 5, 6].map(|kind| (code, kind)));
    }
    for code in [8, 9, 13] {
        possible.extend([3, 5].map(|kind| (code, kind)));
    }
    possible.extend([2, 6].map(|kind| (12, kind)));
    possible
}

/// The sorts that a record belongs to, of which so many listed keys keep the
/// versions that they had.
fn sorts(kind: u8, entry: &Entry, keys: usize, unchanged: usize) -> Vec<&'static str> {
    let listed = entry.listed.len();
    let operations = match &entry.does {
        Does::Shift => 0,
        Does::Commit { operations, .. } => operations.len(),
    };
    let is = match kind {
        6 => [
            ("6, no key", listed == 0),
            ("6, every key", listed == keys),
            ("6, a key that does not change", unchanged > 0),
            (
                "6, a key that changes beside one that does not",
                0 < unchanged && unchanged < listed,
            ),
            ("6, key 31", entry.listed.contains_key(&Key(31))),
        ]
        .to_vec(),
        5 => [
            ("5, no operation", operations == 0),
            ("5, every key", listed == keys),
            ("5, a key read and written", operations > listed),
            ("5, a key that does not change", unchanged > 0),
        ]
        .to_vec(),
        _ => vec![],
    };
    is.into_iter()
        .filter(|(_, is)| *is)
        .map(|(sort, _)| sort)
        .collect()
}

fn add<K: Ord>(counts: &mut BTreeMap<K, usize>, other: BTreeMap<K, usize>) {
    for (key, count) in other {
        *counts.entry(key).or_default() += count;
    }
}
