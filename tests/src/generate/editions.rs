//! Files of both editions: any trace with its records in all four kinds, and
//! files that grow past the limit where they are written short or long.

use super::mangled::small_trace;
use super::record_places;
use super::taken::{exactly_full, growing};
use super::Case;
use crate::editions::{changed, left_with, needed, short_bytes, touched, views_before, Edition};
use crate::random::Random;
use crate::store::{opening_view, Key, Store, View};
use crate::trace::{file_of, record_bytes, shift_len, Record, Trace};

/// How the records of a file are written, in so many cases of a hundred.
#[derive(Clone, Copy, Debug)]
pub struct Mixing {
    /// Records in kind 6 or 5.
    pub short: usize,
    /// Unchanged keys that a kind 6 lists.
    pub needless: usize,
    /// Whether a commit is written short too that changes the view of a key
    /// without an operation, and then means something else.
    pub lossy: bool,
}

impl Mixing {
    pub fn random(random: &mut Random) -> Mixing {
        Mixing {
            short: random.pick(&[0, 0, 0, 30, 50, 70, 100, 100]),
            needless: random.pick(&[0, 0, 10, 50, 100]),
            lossy: false,
        }
    }

    /// The records of a trace.
    pub fn records(&self, random: &mut Random, trace: &Trace) -> Vec<Vec<u8>> {
        let records = trace.records.iter().zip(views_before(trace));
        records
            .map(|(record, before)| self.record(random, record, &before, trace.keys))
            .collect()
    }

    fn record(&self, random: &mut Random, record: &Record, before: &View, keys: usize) -> Vec<u8> {
        let says_all = match record {
            Record::Shift { .. } => true,
            Record::Commit {
                operations, after, ..
            } => changed(before, after).is_subset(&touched(operations)),
        };
        if !random.percent(self.short) || !(says_all || self.lossy) {
            return record_bytes(record, keys);
        }
        let mut listed = needed(record, before);
        if let Record::Shift { .. } = record {
            listed.extend((0..keys).map(Key).filter(|_| random.percent(self.needless)));
        }
        short_bytes(record, &listed)
    }
}

/// The records of a trace in kinds mixed at random, as far as they fit into a
/// file; in kinds 2 and 3 if not.
pub fn mixed_records(random: &mut Random, trace: &Trace) -> Vec<Vec<u8>> {
    let records = Mixing::random(random).records(random, trace);
    if fits(&records) {
        return records;
    }
    let long = trace.records.iter();
    long.map(|record| record_bytes(record, trace.keys))
        .collect()
}

/// The file of a trace with its records in kinds mixed at random.
pub fn mixed(random: &mut Random, trace: &Trace) -> Vec<u8> {
    let records = mixed_records(random, trace);
    file_of(trace, records)
}

fn fits(records: &[Vec<u8>]) -> bool {
    let bytes: usize = records.iter().map(Vec::len).sum();
    Store::MIN_BYTES + bytes <= Store::MAX_BYTES
}

// Files that grow.

/// Every sort of file that grows.
pub const GROWING: [&str; 6] = [
    "long, at the limit",
    "long, one shift past the limit",
    "long, far past the limit",
    "short, at the limit",
    "short, two bytes past the limit",
    "short, past the limit",
];

/// A taken trace in a file that the limit has room for, where one of its
/// editions reaches the limit or goes past it.
pub fn growing_case(random: &mut Random) -> Case {
    let sort = random.pick(&GROWING);
    let trace = match sort {
        "long, at the limit" => exactly_full(random).trace,
        "long, one shift past the limit" => {
            let full = exactly_full(random).trace;
            with_needless_shifts(random, full, 1)
        }
        "long, far past the limit" => {
            let trace = small_trace(random);
            let room = Store::MAX_BYTES / shift_len(trace.keys) + 1;
            let shifts = room + random.below(200);
            with_needless_shifts(random, trace, shifts)
        }
        "short, at the limit" => growing(random, Store::MAX_BYTES).trace,
        "short, two bytes past the limit" => growing(random, Store::MAX_BYTES + 2).trace,
        _ => {
            let past = 4 + 2 * random.below(100);
            growing(random, Store::MAX_BYTES + past).trace
        }
    };
    let records = if sort.starts_with("long") {
        shortest_records(&trace)
    } else {
        mixed_records(random, &trace)
    };
    assert!(fits(&records), "{sort}");
    Case {
        grows: Some(sort),
        ..Case::taken("growing", file_of(&trace, records))
    }
}

/// A trace with more shifts at its end, each to the view that its client has.
fn with_needless_shifts(random: &mut Random, mut trace: Trace, shifts: usize) -> Trace {
    let mut views = vec![opening_view(trace.keys); trace.clients];
    for record in &trace.records {
        let (client, view) = left_with(record);
        views[client] = view.clone();
    }
    for _ in 0..shifts {
        let client = random.below(trace.clients);
        let view = views[client].clone();
        trace.records.push(Record::Shift { client, view });
    }
    trace
}

/// Each record in the edition in which it is shorter.
fn shortest_records(trace: &Trace) -> Vec<Vec<u8>> {
    let records = trace.records.iter().zip(views_before(trace));
    let shorter = records.map(|(record, before)| {
        let short = short_bytes(record, &needed(record, &before));
        let long = record_bytes(record, trace.keys);
        if short.len() < long.len() {
            short
        } else {
            long
        }
    });
    shorter.collect()
}

/// The kinds of the records of a file, in order, as far as their lengths lead.
pub fn kinds(file: &[u8]) -> Vec<u8> {
    let places = record_places(file).into_iter();
    places
        .filter_map(|place| file.get(place..place + 4))
        .map(|head| head[2])
        .collect()
}

/// Whether a file that is in form is of one edition.
pub fn is_of(file: &[u8], edition: Edition) -> bool {
    let own: &[u8] = match edition {
        Edition::Short => &[5, 6],
        Edition::Long => &[2, 3],
    };
    kinds(file).iter().all(|kind| own.contains(kind))
}
