//! Traces to time a judge with, made from a seed.
//!
//! Two fifths are serial (every view is full before a commit), two fifths are
//! of snapshots (a view is what some number of commits left, with the client's
//! own versions if it commits again without a shift), one fifth is wild (any
//! growing views, and some odd views after a commit). All of them are taken.
//!
//! Beside these there are traces that ask much of the paths of links: CP and SI
//! accept them to the end, while nearly every view is behind the store; and the
//! kinds of `odd.rs`.

use crate::form::COMMITS;
use crate::{Answer, Judge};
use model::random::Random;
use model::{form, image, Edition};
use std::collections::HashMap;

const CLIENTS: usize = 16;

/// How the views of a trace go.
#[derive(Clone, Copy, PartialEq, Eq, Hash, Debug)]
pub enum Style {
    Serial,
    Snapshot,
    Wild,
    /// A view is what some number of commits left, the client's own among them,
    /// and only keys are written of which it holds every version.
    Isolated,
    /// The same with views close behind the store; each commit reads what the
    /// one before it wrote, and writes the next key.
    Chained,
    /// Any growing views, and then a full one before a commit.
    Detour,
    /// Each client reads and writes keys of its own; a view holds of each client
    /// its first commits, of some of them more than of others.
    Apart,
    /// Views of the same sort, with keys that all clients write.
    Shared,
    /// Any growing views, and an odd one after each commit.
    Odd,
    /// Each shift gains the versions of one commit.
    Creeping,
    /// The same, where a commit writes one key and does nothing else.
    Single,
    /// Each shift is to the view that the client has.
    Still,
}

impl Style {
    pub const ALL: [Style; 3] = [Style::Serial, Style::Snapshot, Style::Wild];

    /// Those of the traces that ask much of the paths of links.
    pub const ASKING: [Style; 2] = [Style::Isolated, Style::Chained];

    /// The styles of five traces one after the other: 2, 2 and 1 of each.
    pub(crate) const MIX: [Style; 5] = [
        Style::Serial,
        Style::Snapshot,
        Style::Serial,
        Style::Snapshot,
        Style::Wild,
    ];

    pub fn name(self) -> &'static str {
        match self {
            Style::Serial => "serial",
            Style::Snapshot => "snapshot",
            Style::Wild => "wild",
            Style::Isolated => "isolated",
            Style::Chained => "chained",
            Style::Detour => "detour",
            Style::Apart => "apart",
            Style::Shared => "shared",
            Style::Odd => "odd",
            Style::Creeping => "creeping",
            Style::Single => "single",
            Style::Still => "still",
        }
    }
}

/// Sizes of a trace, and how much is in it.
#[derive(Clone, Copy)]
pub(crate) struct Plan {
    pub keys: usize,
    pub clients: usize,
    /// The most shifts before a commit.
    pub shifts: usize,
    /// Of a hundred keys, how many a commit reads and how many it writes, where
    /// its style leaves that open.
    pub reads: usize,
    pub writes: usize,
    pub edition: Edition,
}

impl Plan {
    /// That of the traces which all figures but those of `odd.rs` are of.
    pub const fn over(keys: usize) -> Plan {
        Plan {
            keys,
            clients: CLIENTS,
            shifts: 1,
            reads: 45,
            writes: 45,
            edition: Edition::Long,
        }
    }
}

/// One trace file.
pub struct Trace {
    pub style: Style,
    pub bytes: Vec<u8>,
    pub records: usize,
    pub operations: usize,
}

/// How many traces are timed.
pub const NUMBER: usize = 1_000;

/// The traces of so many commits over so many keys that are timed.
pub fn timed(commits: usize, keys: usize) -> Vec<Trace> {
    traces(1, NUMBER, commits, keys)
}

/// Traces that ask much of the paths of links, so many of each style.
pub fn asking(number: usize, commits: usize, keys: usize) -> Vec<Trace> {
    planned(2, &Style::ASKING, Plan::over(keys), 2 * number, commits)
}

/// Traces of so many commits over so many keys, by 16 clients. The file is long
/// enough for each commit to have a shift before it and all operations.
pub fn traces(seed: u64, number: usize, commits: usize, keys: usize) -> Vec<Trace> {
    planned(seed, &Style::MIX, Plan::over(keys), number, commits)
}

/// So many traces, of the sorts that `traces` has, whose commits read so many of 100
/// keys, and write as many.
pub fn touching(share: usize, number: usize, keys: usize) -> Vec<Trace> {
    let plan = Plan {
        reads: share,
        writes: share,
        ..Plan::over(keys)
    };
    planned(4, &Style::MIX, plan, number, COMMITS)
}

/// Traces by a plan, of these styles in turn.
pub(crate) fn planned(
    seed: u64,
    styles: &[Style],
    plan: Plan,
    number: usize,
    commits: usize,
) -> Vec<Trace> {
    let mut random = Random::seeded(seed);
    let styles = styles.iter().cycle().take(number);
    styles
        .map(|&style| Maker::new(Random::seeded(random.word()), style, plan).trace(commits))
        .collect()
}

/// The same traces in an edition.
pub fn in_edition(traces: &[Trace], edition: Edition) -> Vec<Trace> {
    let written = traces.iter().map(|trace| Trace {
        bytes: edition.file(&form::read(&trace.bytes).expect("a trace in form")),
        ..*trace
    });
    written.collect()
}

/// The image of each trace.
pub fn images(traces: &[Trace]) -> Vec<Trace> {
    let mut judge = Judge::new();
    let mut buffer = vec![0; image::LONGEST];
    let mut image = |trace: &Trace| match judge.judge(&trace.bytes, &mut buffer) {
        Answer::Judged(report) => buffer[..report.image_len as usize].to_vec(),
        Answer::Refused(refusal) => panic!("{refusal:?}"),
    };
    let images = traces.iter().map(|trace| Trace {
        bytes: image(trace),
        ..*trace
    });
    images.collect()
}

/// A trace in the making, with the store that it has made so far.
struct Maker {
    random: Random,
    style: Style,
    plan: Plan,
    /// Value and writer of each version of each key.
    versions: Vec<Vec<(u32, usize)>>,
    /// The keys that each commit wrote; commit 0 is the opening transaction.
    wrote: Vec<Vec<usize>>,
    /// The commits of each client, in order.
    made: Vec<Vec<usize>>,
    clients: Vec<Client>,
    records: Vec<u8>,
    record_count: usize,
    operation_count: usize,
}

/// A client's view as the set of commits that it holds, the least number of
/// commits that a snapshot must have to hold as much, and its next number.
#[derive(Clone)]
struct Client {
    held: Vec<bool>,
    least: usize,
    session: u32,
}

impl Maker {
    fn new(mut random: Random, style: Style, plan: Plan) -> Maker {
        let clients = (0..plan.clients)
            .map(|_| Client {
                held: vec![true],
                least: 0,
                session: random.below(10) as u32,
            })
            .collect();
        Maker {
            random,
            style,
            plan,
            versions: vec![vec![(0, 0)]; plan.keys],
            wrote: vec![(0..plan.keys).collect()],
            made: vec![Vec::new(); plan.clients],
            clients,
            records: Vec::new(),
            record_count: 0,
            operation_count: 0,
        }
    }

    fn trace(mut self, commits: usize) -> Trace {
        for _ in 0..commits {
            let client = self.random.below(self.plan.clients);
            for left in (0..self.plan.shifts).rev() {
                self.shift(client, left);
            }
            self.commit(client);
        }
        let mut bytes = Vec::with_capacity(12 + self.records.len());
        bytes.extend((12 + self.records.len() as u32).to_le_bytes());
        bytes.extend(8u16.to_le_bytes());
        bytes.extend(1u16.to_le_bytes());
        bytes.extend([self.plan.keys as u8, self.plan.clients as u8]);
        bytes.extend((self.record_count as u16).to_le_bytes());
        bytes.extend(&self.records);
        Trace {
            style: self.style,
            bytes,
            records: self.record_count,
            operations: self.operation_count,
        }
    }

    /// The number of commits so far.
    fn now(&self) -> usize {
        self.wrote.len() - 1
    }

    /// A shift before the next commit of this client, or none; so many more may
    /// follow before that commit.
    fn shift(&mut self, number: usize, left: usize) {
        let now = self.now();
        let mut client = self.clients[number].clone();
        client.held.resize(now + 1, false);
        let before = self.masks(&client.held);
        match self.style {
            Style::Serial => {
                if client.held.iter().all(|&held| held) {
                    return;
                }
                client.held.fill(true);
            }
            Style::Snapshot => {
                if !self.random.percent(87) {
                    return;
                }
                let last = client.least + self.random.below(now + 1 - client.least);
                client.held[..=last].fill(true);
                client.least = last;
            }
            Style::Isolated | Style::Chained => {
                let behind = match self.style {
                    Style::Chained => 3,
                    _ => COMMITS,
                };
                let least = client.least.max((now + 1).saturating_sub(behind));
                let last = least + self.random.below(now + 1 - least);
                client.held[..=last].fill(true);
                client.least = last;
            }
            Style::Wild => {
                if !self.random.percent(80) {
                    return;
                }
                self.grow(&mut client.held);
            }
            Style::Odd => self.grow(&mut client.held),
            Style::Detour => match left {
                0 => client.held.fill(true),
                _ => self.grow(&mut client.held),
            },
            Style::Apart | Style::Shared => {
                for made in &self.made {
                    let had = made.iter().filter(|&&commit| client.held[commit]).count();
                    let more = self.random.below(made.len() + 1 - had);
                    for &commit in &made[had..had + more] {
                        client.held[commit] = true;
                    }
                }
            }
            Style::Creeping | Style::Single => {
                let lacking: Vec<usize> =
                    (1..=now).filter(|&commit| !client.held[commit]).collect();
                if lacking.is_empty() {
                    return;
                }
                client.held[self.random.pick(&lacking)] = true;
            }
            Style::Still => {}
        }
        let masks = self.masks(&client.held);
        self.clients[number] = client;
        let mut head = vec![number as u8, 0];
        match self.plan.edition {
            Edition::Long => self.record(2, &head, &[], &masks),
            Edition::Short => {
                let changed = |&key: &usize| masks[key] != before[key];
                let listed: Vec<usize> = (0..self.plan.keys).filter(changed).collect();
                let set: u32 = listed.iter().map(|key| 1 << key).sum();
                head.extend(set.to_le_bytes());
                let masks: Vec<u64> = listed.iter().map(|&key| masks[key]).collect();
                self.record(6, &head, &[], &masks);
            }
        }
    }

    /// Any of the commits that are not held, more or fewer of them.
    fn grow(&mut self, held: &mut [bool]) {
        let often = 10 + self.random.below(80);
        for held in held {
            *held |= self.random.percent(often);
        }
    }

    fn commit(&mut self, number: usize) {
        let mut client = self.clients[number].clone();
        let me = self.wrote.len();
        client.held.resize(me, false);
        let view = self.masks(&client.held);

        let mut operations = Vec::new();
        let mut touched = vec![false; self.plan.keys];
        let mut wrote = Vec::new();
        for key in 0..self.plan.keys {
            if self.reads(number, me, key) {
                let newest = 63 - view[key].leading_zeros() as usize;
                operations.push((0u8, key, self.versions[key][newest].0));
                touched[key] = true;
            }
            let whole = view[key].count_ones() as usize == self.versions[key].len();
            if self.writes(number, me, key, whole) {
                let value = self.random.word() as u32;
                operations.push((1u8, key, value));
                touched[key] = true;
                wrote.push(key);
            }
        }
        for &(kind, key, value) in &operations {
            if kind == 1 {
                self.versions[key].push((value, me));
            }
        }
        self.wrote.push(wrote);
        self.made[number].push(me);

        client.held.push(true);
        client.least = me;
        let odd = match self.style {
            Style::Wild => self.random.percent(15),
            Style::Odd => true,
            _ => false,
        };
        if odd {
            // A view may change in any way at the keys with an operation, as
            // long as it holds all of a writer or nothing.
            for commit in 1..=me {
                let inside = self.wrote[commit].iter().all(|&key| touched[key]);
                if inside && self.random.percent(50) {
                    client.held[commit] ^= true;
                }
            }
        }
        let after = self.masks(&client.held);
        let mut head = vec![number as u8, operations.len() as u8];
        head.extend(client.session.to_le_bytes());
        client.session += 1 + self.random.below(3) as u32;
        self.clients[number] = client;
        self.operation_count += operations.len();
        match self.plan.edition {
            Edition::Long => self.record(3, &head, &operations, &after),
            Edition::Short => {
                let listed = after.iter().zip(touched).filter(|&(_, touched)| touched);
                let masks: Vec<u64> = listed.map(|(&mask, _)| mask).collect();
                self.record(5, &head, &operations, &masks);
            }
        }
    }

    /// Whether a commit of this client reads this key.
    fn reads(&mut self, client: usize, commit: usize, key: usize) -> bool {
        match self.style {
            Style::Chained => key == (commit - 1) % self.plan.keys,
            Style::Single => false,
            Style::Apart if key % self.plan.clients != client => false,
            _ => self.random.percent(self.plan.reads),
        }
    }

    /// Whether it writes the key, of which its view holds every version or not.
    fn writes(&mut self, client: usize, commit: usize, key: usize, whole: bool) -> bool {
        match self.style {
            Style::Chained => whole && key == commit % self.plan.keys,
            Style::Single => key == commit % self.plan.keys,
            Style::Isolated if !whole => false,
            Style::Apart if key % self.plan.clients != client => false,
            _ => self.random.percent(self.plan.writes),
        }
    }

    /// The masks of a view that holds these commits.
    fn masks(&self, held: &[bool]) -> Vec<u64> {
        let mask = |versions: &Vec<(u32, usize)>| {
            let bits = versions.iter().enumerate();
            bits.map(|(version, &(_, writer))| u64::from(held[writer]) << version)
                .sum()
        };
        self.versions.iter().map(mask).collect()
    }

    fn record(&mut self, kind: u16, head: &[u8], operations: &[(u8, usize, u32)], masks: &[u64]) {
        let length = 4 + head.len() + 8 * operations.len() + 8 * masks.len();
        self.records.extend((length as u16).to_le_bytes());
        self.records.extend(kind.to_le_bytes());
        self.records.extend(head);
        for &(kind, key, value) in operations {
            self.records.extend([kind, key as u8, 0, 0]);
            self.records.extend(value.to_le_bytes());
        }
        for mask in masks {
            self.records.extend(mask.to_le_bytes());
        }
        self.record_count += 1;
    }
}

/// The mean of bytes, records and operations.
pub fn mean_sizes(traces: &[Trace]) -> [f64; 3] {
    let sizes: [fn(&Trace) -> usize; 3] = [
        |trace| trace.bytes.len(),
        |trace| trace.records,
        |trace| trace.operations,
    ];
    sizes.map(|size| traces.iter().map(size).sum::<usize>() as f64 / traces.len().max(1) as f64)
}

/// Mean numbers of traces, to be printed.
pub fn describe(traces: &[Trace]) -> String {
    let [bytes, records, operations] = mean_sizes(traces);
    let mut styles = HashMap::new();
    for trace in traces {
        *styles.entry(trace.style).or_insert(0) += 1;
    }
    let styles: Vec<String> = Style::ALL
        .iter()
        .chain(&Style::ASKING)
        .filter_map(|style| Some(format!("{} {}", styles.get(style)?, style.name())))
        .collect();
    format!(
        "{} traces ({}); mean: {bytes:.0} bytes, {records:.0} records, {operations:.0} operations",
        traces.len(),
        styles.join(", "),
    )
}
