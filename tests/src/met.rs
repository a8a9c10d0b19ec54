//! What a run over many files met, counted: to be printed, and to fail where
//! something was never met.

mod editions;
pub mod images;
mod views;

use crate::facts;
use crate::generate::{case, record_places, Case, FORMER_KEYS, KINDS};
use crate::levels::{place_of, LEVELS};
use crate::numbers::{self, Way};
use crate::own_writes::{ways, WAYS};
use crate::store::Store;
use crate::{form, outcome, Call, Outcome, Refusal, Taken, Verdict};
use std::collections::{BTreeMap, BTreeSet};

#[derive(Default)]
pub struct Met {
    /// Files of each kind.
    kinds: BTreeMap<&'static str, usize>,
    /// Files by the number of keys in the header: in all, and those taken.
    keys: BTreeMap<usize, (usize, usize)>,
    /// For each code planted alone, the records where it was.
    planted: BTreeMap<u8, BTreeSet<usize>>,
    /// Two codes planted together: in all, and in one record.
    pairs: BTreeMap<(u8, u8), (usize, usize)>,
    /// Answers of each call with each code.
    codes: BTreeMap<(Call, u8), usize>,
    /// Files by the levels that refuse them.
    combinations: BTreeMap<String, usize>,
    /// Refusals of each level by each of its clauses.
    clauses: BTreeMap<(&'static str, u8), usize>,
    /// Files that RYW refuses by the ways in which commits stand to clause 2.
    own_writes: BTreeMap<&'static str, usize>,
    /// Files by the ways in which commits stand to rule 1: in all, and those
    /// that were not refused there before request E7.
    numbers: BTreeMap<Way, (usize, usize)>,
    /// The writers that code 13 names.
    writers: BTreeSet<usize>,
    /// The failures of SER, as code 16 names them.
    ser_failures: BTreeSet<Refusal>,
    /// The most operations of a commit in the files that are taken.
    most_operations: usize,
    /// The longest of these files, and of what each call writes of them.
    longest_file: usize,
    longest_written: BTreeMap<Call, usize>,
    editions: editions::Editions,
    views: views::Views,
    /// Files with an image that was shorter before request E8: they are given a
    /// buffer of that length.
    lengthened: usize,
}

impl Met {
    /// Counts the files of some seeds, and the codes that each is found to get
    /// from the calls, what the model says of it being known.
    pub fn of(
        seeds: impl Iterator<Item = u64>,
        mut codes: impl FnMut(u64, &Case, &Outcome) -> Vec<(Call, u8)>,
    ) -> Met {
        let mut met = Met::default();
        for seed in seeds {
            let case = case(seed);
            let outcome = outcome(&case.bytes);
            met.file(&case);
            met.editions.file(&case, &outcome);
            met.header(&case.bytes, outcome.is_ok());
            match &outcome {
                Ok(taken) => met.taken(&case.bytes, taken),
                Err(refusal) if refusal.code == 13 => {
                    met.writers.insert(refusal.writer);
                }
                Err(_) => {}
            }
            met.numbers(&case.bytes, &outcome);
            for call in Call::ALL {
                let written = call.written(&outcome).map_or(0, <[u8]>::len);
                let longest = met.longest_written.entry(call).or_default();
                *longest = written.max(*longest);
            }
            met.lengthened += usize::from(Call::Judge.former_len(&outcome).is_some());
            for code in codes(seed, &case, &outcome) {
                *met.codes.entry(code).or_default() += 1;
            }
        }
        met
    }

    /// Counts how a file was made.
    fn file(&mut self, case: &Case) {
        *self.kinds.entry(case.kind).or_default() += 1;
        if let [one] = case.planted[..] {
            self.planted.entry(one.code).or_default().insert(one.record);
        }
        for one in &case.planted {
            for other in &case.planted {
                if one.code < other.code {
                    let pair = self.pairs.entry((one.code, other.code)).or_default();
                    pair.0 += 1;
                    pair.1 += (one.record == other.record) as usize;
                }
            }
        }
    }

    /// Counts a file by its keys, if it is long enough to say how many.
    fn header(&mut self, file: &[u8], is_taken: bool) {
        if let Some(&keys) = file.get(8) {
            let files = self.keys.entry(keys.into()).or_default();
            files.0 += 1;
            files.1 += is_taken as usize;
        }
    }

    /// Counts the verdicts on a file that is taken.
    fn taken(&mut self, file: &[u8], taken: &Taken) {
        let verdicts = &taken.report.verdicts;
        for (level, verdict) in LEVELS.iter().zip(verdicts) {
            if let Verdict::Refused { clause, .. } = verdict {
                *self.clauses.entry((level.name, *clause)).or_default() += 1;
            }
        }
        *self.combinations.entry(refusing(verdicts)).or_default() += 1;
        let (_, run) = facts::taken(file).expect("it is taken");
        self.views.taken(&run);
        if verdicts[place_of("RYW")] != Verdict::Accepted {
            for way in ways(&run) {
                *self.own_writes.entry(way).or_default() += 1;
            }
        }
        if let Err(refusal) = taken.replay {
            self.ser_failures.insert(refusal);
        }
        self.most_operations = self.most_operations.max(most_operations(file));
        self.longest_file = self.longest_file.max(file.len());
    }

    /// Counts the numbers of the commits, as far as no other code is due.
    fn numbers(&mut self, file: &[u8], outcome: &Outcome) {
        let Ok(trace) = form::read(file) else {
            return;
        };
        let records = match outcome {
            Ok(_) => trace.records.len(),
            Err(refusal) if refusal.code == 9 => refusal.record,
            Err(refusal) => refusal.record - 1,
        };
        let ways = numbers::ways(&trace, records);
        for way in Way::all() {
            let files = self.numbers.entry(way).or_default();
            let changed = ways.contains(&(way, true));
            files.0 += usize::from(changed || ways.contains(&(way, false)));
            files.1 += usize::from(changed);
        }
    }

    /// Takes the counts of another run in.
    pub fn add(&mut self, other: Met) {
        for (kind, count) in other.kinds {
            *self.kinds.entry(kind).or_default() += count;
        }
        for (keys, (files, taken)) in other.keys {
            let counts = self.keys.entry(keys).or_default();
            *counts = (counts.0 + files, counts.1 + taken);
        }
        for (code, records) in other.planted {
            self.planted.entry(code).or_default().extend(records);
        }
        for (codes, (files, in_one_record)) in other.pairs {
            let pair = self.pairs.entry(codes).or_default();
            *pair = (pair.0 + files, pair.1 + in_one_record);
        }
        for (code, count) in other.codes {
            *self.codes.entry(code).or_default() += count;
        }
        for (combination, count) in other.combinations {
            *self.combinations.entry(combination).or_default() += count;
        }
        for (clause, count) in other.clauses {
            *self.clauses.entry(clause).or_default() += count;
        }
        for (way, count) in other.own_writes {
            *self.own_writes.entry(way).or_default() += count;
        }
        for (way, (files, changed)) in other.numbers {
            let counts = self.numbers.entry(way).or_default();
            *counts = (counts.0 + files, counts.1 + changed);
        }
        self.writers.extend(other.writers);
        self.ser_failures.extend(other.ser_failures);
        self.most_operations = self.most_operations.max(other.most_operations);
        self.longest_file = self.longest_file.max(other.longest_file);
        for (call, length) in other.longest_written {
            let longest = self.longest_written.entry(call).or_default();
            *longest = length.max(*longest);
        }
        self.editions.add(other.editions);
        self.views.add(other.views);
        self.lengthened += other.lengthened;
    }

    pub fn print(&self) {
        println!("files of each kind");
        for (kind, count) in &self.kinds {
            println!("  {kind}: {count}");
        }
        println!("files of each number of keys, of these taken");
        for (keys, (files, taken)) in &self.keys {
            println!("  {keys}: {files}, {taken}");
        }
        println!("codes planted alone, at so many different records");
        for (code, records) in &self.planted {
            println!("  {code}: {}", records.len());
        }
        println!("codes planted together: files, of these in one record");
        for ((one, other), (files, in_one_record)) in &self.pairs {
            println!("  {one} and {other}: {files}, {in_one_record}");
        }
        println!("answers of each call with each code, over all lengths of the buffer");
        for ((call, code), count) in &self.codes {
            println!("  {} {code}: {count}", call.name());
        }
        println!("files that each level refuses, by clause");
        for ((level, clause), count) in &self.clauses {
            println!("  {level} by {clause}: {count}");
        }
        println!("files that RYW refuses, by a commit that");
        for (way, count) in &self.own_writes {
            println!("  {way}: {count}");
        }
        println!(
            "files by what follows a client's commit without operations, of these refused since E7"
        );
        for (way, (files, changed)) in &self.numbers {
            println!("  {}: {files}, {changed}", way.name());
        }
        println!("files by the levels that refuse them together");
        for (combination, count) in &self.combinations {
            println!("  {combination}: {count}");
        }
        println!("{} combinations", self.combinations.len());
        println!("writers named by code 13: {}", self.writers.len());
        let [records, keys, versions] = self.named_by_16();
        println!("named by code 16: {records} records, {keys} keys, {versions} versions");
        println!("most operations of a commit {}", self.most_operations);
        println!("longest file {}", self.longest_file);
        for (call, length) in &self.longest_written {
            println!("longest that {} writes: {length}", call.name());
        }
        self.editions.print();
        self.views.print();
        println!("images that were shorter before E8: {}", self.lengthened);
    }

    /// How many different records, keys and versions code 16 names.
    fn named_by_16(&self) -> [usize; 3] {
        let different = |named: fn(&Refusal) -> usize| {
            let named: BTreeSet<usize> = self.ser_failures.iter().map(named).collect();
            named.len()
        };
        [
            different(|refusal| refusal.record),
            different(|refusal| refusal.key),
            different(|refusal| refusal.version),
        ]
    }

    /// Fails if something was never met.
    pub fn lacks_nothing(&self) {
        for kind in KINDS {
            assert!(self.kinds.contains_key(kind), "no file of kind: {kind}");
        }
        self.lacks_no_keys();
        for code in 1..=14 {
            let records = self.planted.get(&code).map_or(0, BTreeSet::len);
            let due = if code <= 2 { 1 } else { 10 };
            assert!(records >= due, "code {code} planted at {records} records");
            for other in code + 1..=14 {
                let pair = (code, other);
                assert!(self.pairs.contains_key(&pair), "{pair:?} never planted");
            }
        }
        let met: BTreeSet<(Call, u8)> = self.codes.keys().copied().collect();
        assert_eq!(met, possible_codes());
        let writers = &self.writers;
        assert!(writers.contains(&0) && writers.len() >= 10, "{writers:?}");
        let named = self.named_by_16();
        assert!(named.iter().all(|&different| different >= 10), "{named:?}");
        for level in &LEVELS {
            for &clause in level.clauses {
                let pair = (level.name, clause);
                assert!(self.clauses.contains_key(&pair), "{pair:?} was never met");
            }
        }
        for way in WAYS {
            let files = self.own_writes.get(way).copied().unwrap_or_default();
            assert!(files >= 10, "{files} files with a commit that {way}");
        }
        for way in Way::all() {
            let (files, changed) = self.numbers[&way];
            assert!(files >= 10, "{files} files with {}", way.name());
            let due = if way.is_new() { 10..=files } else { 0..=0 };
            assert!(due.contains(&changed), "{changed} changed: {}", way.name());
        }
        let met: BTreeSet<String> = self.combinations.keys().cloned().collect();
        assert_eq!(met, possible_combinations());
        assert_eq!(self.most_operations, Store::MAX_OPERATIONS);
        assert_eq!(self.longest_file, Store::MAX_BYTES);
        for call in Call::ALL {
            assert_eq!(self.longest_written[&call], call.longest(), "{call:?}");
        }
        self.editions.lacks_nothing();
        self.views.lacks_nothing();
        assert!(self.lengthened >= 10, "{}", self.lengthened);
    }

    /// Every number of keys that a trace may have is met, and the first that it
    /// may not. At least half of the files have more keys than a trace could
    /// have before, and at least half of those taken.
    fn lacks_no_keys(&self) {
        for keys in 1..=Store::MAX_KEYS {
            let taken = self.keys.get(&keys).map_or(0, |files| files.1);
            assert!(taken > 0, "no trace of {keys} keys is taken");
        }
        let above = Store::MAX_KEYS + 1;
        assert!(self.keys.contains_key(&above), "no file of {above} keys");

        let wide = || self.keys.range(FORMER_KEYS + 1..=Store::MAX_KEYS);
        let all: usize = self.kinds.values().sum();
        let of_all: usize = wide().map(|(_, files)| files.0).sum();
        assert!(2 * of_all >= all, "{of_all} of {all} files");
        let taken: usize = self.keys.values().map(|files| files.1).sum();
        let of_taken: usize = wide().map(|(_, files)| files.1).sum();
        assert!(2 * of_taken >= taken, "{of_taken} of {taken} taken files");
    }
}

/// The most operations of a commit in a file that is taken.
fn most_operations(file: &[u8]) -> usize {
    let commits = record_places(file)
        .into_iter()
        .filter(|&place| matches!(file.get(place + 2), Some(3 | 5)));
    commits
        .map(|place| file[place + 5].into())
        .max()
        .unwrap_or_default()
}

/// The codes of each call: none, 1 to 14, and its own.
fn possible_codes() -> BTreeSet<(Call, u8)> {
    let mut codes = BTreeSet::new();
    for call in Call::ALL {
        let common = 0..=14;
        let own = call.own_codes().iter().copied();
        codes.extend(common.chain(own).map(|code| (call, code)));
    }
    codes
}

/// The levels that refuse a trace together, in report order.
pub fn refusing(verdicts: &[Verdict; 10]) -> String {
    combination(|place| verdicts[place] != Verdict::Accepted)
}

/// The names of the levels at the places in report order that refuse.
fn combination(refuses: impl Fn(usize) -> bool) -> String {
    let names: Vec<&str> = (0..LEVELS.len())
        .filter(|&place| refuses(place))
        .map(|place| LEVELS[place].name)
        .collect();
    match names[..] {
        [] => "none".to_string(),
        _ => names.join(" "),
    }
}

/// Every set of levels that can refuse one trace together. A trace fails some
/// of the clauses; where it fails 3 or 4 it fails 6, where 6 then 7, where 5 or
/// 7 then 8, and nothing else binds one clause to another. There are 39.
pub fn possible_combinations() -> BTreeSet<String> {
    let implied = [(3, 6), (4, 6), (6, 7), (5, 8), (7, 8)];
    let mut combinations = BTreeSet::new();
    for failing in 0..1u32 << 8 {
        let fails = |clause: u8| failing >> (clause - 1) & 1 == 1;
        if implied
            .iter()
            .all(|&(one, other)| !fails(one) || fails(other))
        {
            combinations.insert(combination(|place| {
                LEVELS[place].clauses.iter().any(|&clause| fails(clause))
            }));
        }
    }
    combinations
}

/// Prints in how many files each slip is noticed; fails if one is in none.
pub fn all_noticed(slips: &[(&str, usize)]) {
    for (name, noticed) in slips {
        println!("{name}: noticed in {noticed}");
    }
    let unnoticed: Vec<&str> = slips
        .iter()
        .filter(|slip| slip.1 == 0)
        .map(|slip| slip.0)
        .collect();
    assert!(unnoticed.is_empty(), "{unnoticed:?}");
}
