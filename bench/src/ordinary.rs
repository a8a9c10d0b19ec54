//! The judge.
//!
//! One pass over the file does form and meaning of each record together. Form
//! comes first in the order of the codes, so a fault of meaning is kept and the
//! rest of the file is looked at for its form only.
//!
//! Sets of commits are `u64` with bit c for commit c (bit 0, the opening
//! transaction, is in none of them); sets of versions are `u64` masks as in the
//! file. As a view holds all versions of a writer or none, what a view holds is
//! kept as a set of commits too, and the clauses are tested on such sets. Keys
//! and versions are looked for only when a level fails for the first time.
//!
//! Loops over all keys have a fixed length. There are two lengths, each with a
//! workspace of its own: half of the keys, for a trace that has no more, and all.

mod bare;
mod editions;
mod replay;
mod session;

pub use bare::judge_image;
pub use session::Session;

use crate::answer::{Answer, Refusal, Report, Verdict};
use crate::form::{
    self, Header, Operation, Operations, Reader, Record, Row, CLIENTS, COMMITS, KEYS,
};

/// Commits are numbered from 1, so arrays by commit have one place more.
const SLOTS: usize = COMMITS + 1;

/// The clauses of each level in report order, bit i for clause i.
const LEVELS: [u16; 10] = [
    1 << 1,                                     // MR
    1 << 3,                                     // MW
    1 << 2,                                     // RYW
    1 << 4,                                     // WFR
    1 << 1 | 1 << 2 | 1 << 3 | 1 << 4,          // CC
    1 << 5,                                     // UA
    1 << 1 | 1 << 2 | 1 << 3 | 1 << 4 | 1 << 5, // PSI
    1 << 1 | 1 << 2 | 1 << 6,                   // CP
    1 << 1 | 1 << 2 | 1 << 5 | 1 << 7,          // SI
    1 << 8,                                     // SER
];

/// A judge with its workspaces, which are used again for each trace.
pub struct Judge {
    narrow: Workspace<NARROW>,
    wide: Workspace<KEYS>,
}

/// The most keys of a trace that is judged on short rows.
const NARROW: usize = KEYS / 2;

/// What is kept of a trace while it is judged.
struct Workspace<const WIDTH: usize> {
    keys: usize,
    store: Store<WIDTH>,
    clients: [Client<WIDTH>; CLIENTS],
    links: Links,
    levels: Levels,
    /// The operations and the masks of the record at hand.
    operations: Operations,
    fresh: Row<WIDTH>,
}

/// A fault of meaning (codes 9 to 14); the caller knows the record.
struct Fault {
    code: u8,
    key: usize,
    version: usize,
    writer: usize,
}

impl Fault {
    fn at(code: u8, key: usize, version: usize) -> Fault {
        Fault {
            code,
            key,
            version,
            writer: 0,
        }
    }

    fn at_record(&self, record: u32) -> Refusal {
        Refusal {
            code: self.code,
            record,
            key: self.key as u8,
            version: self.version as u8,
            writer: self.writer as u8,
        }
    }
}

impl Default for Judge {
    fn default() -> Judge {
        Judge::new()
    }
}

impl Judge {
    pub fn new() -> Judge {
        Judge {
            narrow: Workspace::new(),
            wide: Workspace::new(),
        }
    }

    /// Judges one trace file. With a refusal no byte of `image` changes;
    /// otherwise the image of the final store stands at its start, and the
    /// bytes after it are as they were.
    pub fn judge(&mut self, trace: &[u8], image: &mut [u8]) -> Answer {
        let judged = form::header(trace).and_then(|header| {
            if header.keys <= NARROW {
                self.narrow.judge(trace, &header, image)
            } else {
                self.wide.judge(trace, &header, image)
            }
        });
        match judged {
            Ok(report) => Answer::Judged(report),
            Err(refusal) => Answer::Refused(refusal),
        }
    }
}

impl<const WIDTH: usize> Workspace<WIDTH> {
    fn new() -> Workspace<WIDTH> {
        Workspace {
            keys: 0,
            store: Store::new(),
            clients: [Client::opening(&[0; WIDTH]); CLIENTS],
            links: Links::default(),
            levels: Levels::new(),
            operations: Operations::default(),
            fresh: [0; WIDTH],
        }
    }

    fn judge(
        &mut self,
        trace: &[u8],
        header: &Header,
        image: &mut [u8],
    ) -> Result<Report, Refusal> {
        self.take(trace, header)?;
        let image_len = self.store.image_len(header.keys);
        let Some(image) = image.get_mut(..image_len) else {
            return Err(Refusal::at(15, 0));
        };
        self.store.write_image(header.keys, image);
        Ok(Report {
            verdicts: self.levels.verdicts,
            records: header.records,
            commits: self.store.commits as u32,
            image_len: image_len as u32,
        })
    }

    /// Takes a trace file that has this header, or refuses it with one of codes
    /// 3 to 14: the store and the verdicts are those at its end then.
    fn take(&mut self, trace: &[u8], header: &Header) -> Result<(), Refusal> {
        self.open(header.keys);

        let mut reader = Reader::new(trace, header);
        let (mut fault, mut commits) = (None, 0);
        for number in 1..=header.records {
            let record = reader.next_record();
            let record = record.map_err(|code| Refusal::at(code, number))?;
            let outcome = match record {
                Record::Shift { client, masks } => {
                    if fault.is_some() {
                        continue;
                    }
                    masks.over(&self.clients[client].view, &mut self.fresh);
                    self.shift(client)
                }
                Record::Commit {
                    client,
                    session,
                    operations,
                    masks,
                } => {
                    if !self.operations.read(operations, header.keys) {
                        return Err(Refusal::at(7, number));
                    }
                    if commits == COMMITS {
                        return Err(Refusal::at(8, number));
                    }
                    commits += 1;
                    if fault.is_some() {
                        continue;
                    }
                    masks.over(&self.clients[client].view, &mut self.fresh);
                    self.commit(number, client, session)
                }
            };
            if let Err(found) = outcome {
                fault = Some(found.at_record(number));
            }
        }
        if !reader.at_end() {
            return Err(Refusal::at(5, header.records));
        }
        match fault {
            Some(refusal) => Err(refusal),
            None => Ok(()),
        }
    }

    /// The opening store and views.
    fn open(&mut self, keys: usize) {
        self.keys = keys;
        self.store.open(keys);
        self.clients = [Client::opening(&self.store.full); CLIENTS];
        self.links.open();
        self.levels = Levels::new();
        self.fresh = [0; WIDTH];
    }

    /// Replaces a client's view by one that holds as much or more.
    fn shift(&mut self, client: usize) -> Result<(), Fault> {
        let (store, fresh) = (&self.store, &self.fresh);
        let client = &mut self.clients[client];
        // The commonest shift is to the whole store.
        if same(fresh, &store.full) {
            client.held = store.writing;
            client.view = *fresh;
            return Ok(());
        }
        if let Some(key) = store.least_bad_key(fresh) {
            return Err(Fault::at(10, key, 0));
        }
        let held = if let Some(held) = store.snapshot(self.keys, fresh) {
            held
        } else {
            let lacking = store.writing & !client.held;
            store.changed(&client.view, client.held, fresh, lacking)?
        };
        if let Some(fault) = least_lost(&client.view, fresh) {
            return Err(fault);
        }
        client.held = held;
        client.view = *fresh;
        Ok(())
    }

    /// One commit: operations, view after, verdicts.
    fn commit(&mut self, record: u32, number: usize, session: u32) -> Result<(), Fault> {
        let (store, links, fresh) = (&mut self.store, &mut self.links, &self.fresh);
        let client = &mut self.clients[number];
        if u64::from(session) < client.bar {
            return Err(Fault::at(9, 0, 0));
        }
        let had = client.held;
        let lacking = store.writing & !had;

        let commit = store.enter(client, number, session, &self.operations)?;
        let me = store.commits;

        // The view after: nearly always the view before and the own versions.
        let wrote = commit.writes.keys != 0;
        let own = &store.own[me];
        let mut failing = 0;
        if same(fresh, &joined(&client.view, own)) {
            client.held |= u64::from(wrote) << me;
        } else {
            if let Some(key) = store.least_bad_key(fresh) {
                return Err(Fault::at(10, key, 0));
            }
            let lacking = lacking | u64::from(wrote) << me;
            client.held = store.changed(&client.view, had, fresh, lacking)?;
            let touched = commit.reads.keys | commit.writes.keys;
            for (key, (after, before)) in fresh.iter().zip(&client.view).enumerate() {
                if touched >> key & 1 == 0 && after != before {
                    return Err(Fault::at(14, key, 0));
                }
            }
            failing |= u16::from(any_beyond(&client.view, fresh)) << 1;
        }
        // Clause 2, of a commit with operations: the writers of its session.
        let operates = wrote || commit.reads.keys != 0;
        let writing = store.writing | u64::from(wrote) << me;
        let unseen = commit.session_with(me) & writing & !client.held;
        failing |= u16::from(operates && unseen != 0) << 2;

        // Verdicts. Where the view lacks nothing, clauses 3 to 8 hold.
        if lacking != 0 {
            failing |= self.levels.failing_before(store, links, had, lacking);
        }
        if failing & self.levels.asked != 0 {
            let step = Step {
                record,
                view: &client.view,
                fresh,
                had,
            };
            self.levels.strike(failing, store, links, &step);
        }

        // The commit takes its place in its session and in the links.
        client.view = *fresh;
        client.bar = u64::from(session) + 1;
        if operates {
            client.add(me, &commit);
        }
        if commit.reads.over != 0 {
            links.note_backward(&commit);
        }
        store.writing = writing;
        Ok(())
    }
}

/// What is kept of a client.
#[derive(Clone, Copy)]
struct Client<const WIDTH: usize> {
    view: Row<WIDTH>,
    /// The commits of which the view holds a version.
    held: u64,
    /// Its commits with operations.
    stored: u64,
    /// The writers of all versions that it has read.
    drawn: u64,
    /// The least session number that may come next.
    bar: u64,
}

impl<const WIDTH: usize> Client<WIDTH> {
    fn opening(view: &Row<WIDTH>) -> Client<WIDTH> {
        Client {
            view: *view,
            held: 0,
            stored: 0,
            drawn: 0,
            bar: 0,
        }
    }

    /// One more commit with operations.
    fn add(&mut self, me: usize, commit: &Commit) {
        self.stored |= 1 << me;
        self.drawn = commit.drawn;
    }
}

/// What is kept of a commit.
#[derive(Clone, Copy, Default)]
struct Commit {
    client: u8,
    session: u32,
    /// The commits that are before it in SO.
    before: u64,
    /// The writers of versions read by it or by a commit before it in SO.
    drawn: u64,
    reads: Reads,
    writes: Writes,
}

/// What the reads of a commit come to.
#[derive(Clone, Copy, Default)]
struct Reads {
    /// The set of keys.
    keys: u64,
    /// WR: the writers of the versions read.
    sources: u64,
    /// RW, as far as they came before: the writers of later versions.
    over: u64,
}

/// What the writes of a commit come to.
#[derive(Clone, Copy, Default)]
struct Writes {
    /// The set of keys.
    keys: u64,
    /// WW: those who wrote these keys earlier.
    earlier: u64,
}

impl Commit {
    /// The commit, which has this number, and those before it in SO.
    fn session_with(&self, me: usize) -> u64 {
        self.before | 1 << me
    }

    /// The links to it that RW may follow in clause 6.
    fn prefix_links(&self) -> u64 {
        self.before | self.reads.sources
    }

    /// The links to it that RW may follow in clause 7.
    fn snapshot_links(&self) -> u64 {
        self.prefix_links() | self.writes.earlier
    }
}

/// One version, without its number.
#[derive(Clone, Copy, Default)]
struct Version {
    value: u32,
    writer: u32,
    readers: u64,
}

/// The store, with what it was after each commit.
struct Store<const WIDTH: usize> {
    versions: [[Version; SLOTS]; WIDTH],
    /// All versions of each key.
    full: Row<WIDTH>,
    /// The commits that wrote each key. Version v is by the v-th of them.
    wrote: Row<WIDTH>,
    /// The commits that wrote anything.
    writing: u64,
    commits: usize,
    log: [Commit; SLOTS],
    /// The versions by each commit.
    own: [Row<WIDTH>; SLOTS],
    /// `full` as it was after each commit.
    history: [Row<WIDTH>; SLOTS],
    /// The view that each commit was judged from, for the image.
    views: [Row<WIDTH>; SLOTS],
}

impl<const WIDTH: usize> Store<WIDTH> {
    fn new() -> Store<WIDTH> {
        Store {
            versions: [[Version::default(); SLOTS]; WIDTH],
            full: [0; WIDTH],
            wrote: [0; WIDTH],
            writing: 0,
            commits: 0,
            log: [Commit::default(); SLOTS],
            own: [[0; WIDTH]; SLOTS],
            history: [[0; WIDTH]; SLOTS],
            views: [[0; WIDTH]; SLOTS],
        }
    }

    /// The opening store. Places beyond the counts keep what they had.
    fn open(&mut self, keys: usize) {
        self.full = [0; WIDTH];
        self.full[..keys].fill(1);
        for versions in &mut self.versions[..keys] {
            versions[0] = Version::default();
        }
        self.wrote = [0; WIDTH];
        self.writing = 0;
        self.commits = 0;
        self.history[0] = self.full;
    }

    /// Enters a commit: reads first, as they look at the store before it.
    fn enter(
        &mut self,
        client: &Client<WIDTH>,
        number: usize,
        session: u32,
        operations: &Operations,
    ) -> Result<Commit, Fault> {
        self.commits += 1;
        let me = self.commits;
        let reads = self.read(&client.view, operations.reads(), me)?;
        let writes = self.write(operations.writes(), me);
        self.history[me] = self.full;
        self.views[me] = client.view;
        let commit = Commit {
            client: number as u8,
            session,
            before: client.stored,
            drawn: client.drawn | reads.sources,
            reads,
            writes,
        };
        self.log[me] = commit;
        Ok(commit)
    }

    /// Enters the reads of a commit; code 13 is due at the least key whose
    /// newest version in the view has another value.
    #[inline(never)] // so that its loop has the registers to itself
    fn read(&mut self, view: &Row<WIDTH>, reads: &[Operation], me: usize) -> Result<Reads, Fault> {
        let mut result = Reads::default();
        for read in reads {
            let key = read.key();
            let newest = highest(view[key]);
            let version = &mut self.versions[key][newest];
            if version.value != read.value() {
                return Err(Fault {
                    writer: version.writer as usize,
                    ..Fault::at(13, key, newest)
                });
            }
            version.readers |= 1 << me;
            result.keys |= 1 << key;
            result.sources |= 1 << version.writer;
            result.over |= self.wrote[key] & above(version.writer as usize);
        }
        result.sources &= !1;
        Ok(result)
    }

    /// Enters the writes of a commit.
    #[inline(never)]
    fn write(&mut self, writes: &[Operation], me: usize) -> Writes {
        let mut result = Writes::default();
        let own = &mut self.own[me];
        *own = [0; WIDTH];
        for write in writes {
            let key = write.key();
            let bit = self.full[key] + 1;
            let version = &mut self.versions[key][highest(bit)];
            *version = Version {
                value: write.value(),
                writer: me as u32,
                readers: 0,
            };
            own[key] = bit;
            self.full[key] |= bit;
            result.keys |= 1 << key;
            result.earlier |= self.wrote[key];
            self.wrote[key] |= 1 << me;
        }
        result
    }

    /// The least key whose mask lacks version 0 or holds one that is not there.
    fn least_bad_key(&self, fresh: &Row<WIDTH>) -> Option<usize> {
        let bad = |(&fresh, &full): (&u64, &u64)| (full & 1 & !fresh) | (fresh & !full);
        // Mostly there is none, so all keys are looked at together first.
        let masks = fresh.iter().zip(&self.full);
        if masks.clone().map(bad).fold(0, |any, bad| any | bad) == 0 {
            return None;
        }
        masks.map(bad).position(|bad| bad != 0)
    }

    /// If the masks are those of the whole store as it was after some commit,
    /// the commits that they hold.
    fn snapshot(&self, keys: usize, fresh: &Row<WIDTH>) -> Option<u64> {
        // Such a mask has no bit above one that it lacks.
        let holes = |mask: &u64| mask & mask.wrapping_add(1);
        if fresh.iter().map(holes).fold(0, |any, holes| any | holes) != 0 {
            return None;
        }
        let mut last = 0;
        for (versions, &mask) in self.versions.iter().zip(fresh).take(keys) {
            last = last.max(versions[highest(mask)].writer);
        }
        let last = last as usize;
        same(&self.history[last], fresh).then(|| self.writing & !above(last))
    }

    /// The commits held by a view that comes after another one which holds
    /// `held` and lacks `lacking`; code 11 if it has a writer in part.
    fn changed(
        &self,
        view: &Row<WIDTH>,
        held: u64,
        fresh: &Row<WIDTH>,
        lacking: u64,
    ) -> Result<u64, Fault> {
        let gained = self.whole_writers(lacking, &beyond(fresh, view));
        let lost = beyond(view, fresh);
        let lost = if same(&lost, &[0; WIDTH]) {
            Some(0)
        } else {
            self.whole_writers(held, &lost)
        };
        match (gained, lost) {
            (Some(gained), Some(lost)) => Ok(held & !lost | gained),
            _ => Err(self.half_held(fresh)),
        }
    }

    /// Those of the candidates whose versions are in the masks; nothing if the
    /// masks are not exactly the versions of some of them.
    fn whole_writers(&self, candidates: u64, masks: &Row<WIDTH>) -> Option<u64> {
        let mut writers = 0;
        for writer in members(candidates) {
            // One of its versions tells of all.
            let key = lowest(self.log[writer].writes.keys);
            writers |= u64::from(masks[key] & self.own[writer][key] != 0) << writer;
        }
        let mut versions = [0; WIDTH];
        for writer in members(writers) {
            versions = joined(&versions, &self.own[writer]);
        }
        same(&versions, masks).then_some(writers)
    }

    /// Code 11: the least version that is lacking of a writer held in part.
    #[cold]
    fn half_held(&self, fresh: &Row<WIDTH>) -> Fault {
        let mut held: u64 = 0;
        for (versions, mask) in self.versions.iter().zip(fresh) {
            for version in members(mask & !1) {
                held |= 1 << versions[version].writer;
            }
        }
        let absent = beyond(&self.full, fresh);
        let (key, version) = self
            .least(&absent, |version| held >> version.writer & 1 != 0)
            .expect("a writer is held in part");
        Fault::at(11, key, version)
    }

    /// The least version in the masks, by key and then number, that is wanted.
    fn least(
        &self,
        masks: &Row<WIDTH>,
        wanted: impl Fn(&Version) -> bool,
    ) -> Option<(usize, usize)> {
        for (key, (versions, &mask)) in self.versions.iter().zip(masks).enumerate() {
            for version in members(mask) {
                if wanted(&versions[version]) {
                    return Some((key, version));
                }
            }
        }
        None
    }

    /// The commits that are before a member of the set in SO, and the writers
    /// of all versions read by these and the members.
    fn sessions(&self, set: u64) -> (u64, u64) {
        let (mut before, mut drawn) = (0, 0);
        let mut left = set;
        while left != 0 {
            // The last member of a session has what its earlier ones have.
            let last = highest(left);
            before |= self.log[last].before;
            drawn |= self.log[last].drawn;
            left &= !(self.log[last].before | 1 << last);
        }
        (before, drawn)
    }

    fn image_len(&self, keys: usize) -> usize {
        let versions: usize = self.full[..keys]
            .iter()
            .map(|&mask| highest(mask) + 1)
            .sum();
        8 + commit_len(keys) * self.commits + 4 * keys + 16 * versions
    }

    /// Writes the image into a buffer of exactly its length.
    fn write_image(&self, keys: usize, image: &mut [u8]) {
        let length = image.len() as u32;
        let (head, rest) = image.split_at_mut(8);
        head[..4].copy_from_slice(&length.to_le_bytes());
        head[4..].copy_from_slice(&[keys as u8, self.commits as u8, 0, 0]);

        let (commits, mut rest) = rest.split_at_mut(commit_len(keys) * self.commits);
        let entries = commits.chunks_exact_mut(commit_len(keys));
        for ((bytes, commit), view) in entries.zip(&self.log[1..]).zip(&self.views[1..]) {
            let (author, masks) = bytes.split_at_mut(8);
            author.copy_from_slice(&pair(u32::from(commit.client), commit.session));
            put_masks(masks, view);
        }
        for (versions, &mask) in self.versions.iter().zip(&self.full).take(keys) {
            let versions = &versions[..=highest(mask)];
            let (count, after) = rest.split_at_mut(4);
            count.copy_from_slice(&(versions.len() as u32).to_le_bytes());
            let (bytes, after) = after.split_at_mut(16 * versions.len());
            for (bytes, version) in bytes.chunks_exact_mut(16).zip(versions) {
                bytes[..8].copy_from_slice(&pair(version.value, version.writer));
                bytes[8..].copy_from_slice(&version.readers.to_le_bytes());
            }
            rest = after;
        }
    }
}

/// The bytes of a commit in the image, with its view.
fn commit_len(keys: usize) -> usize {
    8 + 8 * keys
}

/// The masks of a row, as many as there is room for.
fn put_masks<const WIDTH: usize>(bytes: &mut [u8], row: &Row<WIDTH>) {
    for (bytes, mask) in bytes.chunks_exact_mut(8).zip(row) {
        bytes.copy_from_slice(&mask.to_le_bytes());
    }
}

/// Two numbers one after the other.
fn pair(first: u32, second: u32) -> [u8; 8] {
    (u64::from(first) | u64::from(second) << 32).to_le_bytes()
}

/// The links of clauses 6 and 7.
///
/// Each step of a path of clause 6 is SO, WR or WW, or SO or WR with an RW link
/// after; in clause 7 WW may have an RW link after it too.
#[derive(Default)]
struct Links {
    prefix: Steps,
    snapshot: Steps,
}

/// The steps of one of the two clauses. Rows are built only when the clause is
/// asked for, and only for the commits that came since.
struct Steps {
    /// The commits one step before each.
    rows: [u64; SLOTS],
    /// For each key, what leads to its readers by the links that RW may follow.
    leads: [u64; KEYS],
    /// The number of commits that are in the rows and the leads.
    entered: usize,
    /// Bit p: some step leads from a commit above p to one that is not.
    crossed: u64,
}

impl Default for Steps {
    fn default() -> Steps {
        Steps {
            rows: [0; SLOTS],
            leads: [0; KEYS],
            entered: 0,
            crossed: 0,
        }
    }
}

impl Links {
    fn open(&mut self) {
        for steps in [&mut self.prefix, &mut self.snapshot] {
            steps.leads = [0; KEYS];
            steps.entered = 0;
            steps.crossed = 0;
        }
    }

    /// Only a commit that read what was already overwritten makes a step from
    /// a later commit to an earlier one.
    fn note_backward(&mut self, commit: &Commit) {
        self.prefix
            .note_backward(commit.prefix_links(), commit.reads.over);
        self.snapshot
            .note_backward(commit.snapshot_links(), commit.reads.over);
    }
}

impl Steps {
    fn note_backward(&mut self, first: u64, over: u64) {
        let (from, to) = (highest(first), lowest(over));
        if from > to {
            self.crossed |= above(to - 1) & !above(from - 1);
        }
    }

    /// Brings the rows up to all commits before the one at hand; `first` gives
    /// the links to a commit that RW may follow.
    fn catch_up<const WIDTH: usize>(&mut self, store: &Store<WIDTH>, first: fn(&Commit) -> u64) {
        for me in self.entered + 1..store.commits {
            let commit = &store.log[me];
            let first = first(commit);
            let mut row = first | commit.writes.earlier;
            for key in members(commit.writes.keys) {
                row |= self.leads[key];
            }
            self.rows[me] = row;
            for writer in members(commit.reads.over) {
                self.rows[writer] |= first;
            }
            for key in members(commit.reads.keys) {
                self.leads[key] |= first;
            }
        }
        self.entered = store.commits - 1;
    }

    /// The commits that lead to a member of the set by one or more steps, or
    /// enough of them to have one that is lacking.
    fn walk(&self, set: u64, lacking: u64) -> u64 {
        let mut seen = 0;
        let mut left = set;
        while left != 0 && seen & lacking == 0 {
            let commit = highest(left);
            let row = self.rows[commit];
            left = left & !(1 << commit) | row & !(seen | set);
            seen |= row;
        }
        seen
    }
}

/// The verdicts so far.
struct Levels {
    verdicts: [Verdict; 10],
    /// The clauses of the levels that have not failed.
    asked: u16,
}

/// What a commit is judged by, beside the store.
struct Step<'a, const WIDTH: usize> {
    record: u32,
    view: &'a Row<WIDTH>,
    fresh: &'a Row<WIDTH>,
    had: u64,
}

impl Levels {
    fn new() -> Levels {
        Levels {
            verdicts: [Verdict::Accepted; 10],
            asked: 0b1_1111_1110,
        }
    }

    fn asks(&self, clause: u8) -> bool {
        self.asked >> clause & 1 != 0
    }

    /// The failing ones of clauses 3 to 8, as far as they are asked for, where
    /// the view before holds the commits `had` and lacks others.
    fn failing_before<const WIDTH: usize>(
        &self,
        store: &Store<WIDTH>,
        links: &mut Links,
        had: u64,
        lacking: u64,
    ) -> u16 {
        let mut failing = 1 << 8;
        let commit = &store.log[store.commits];
        if commit.writes.earlier & lacking != 0 {
            failing |= 1 << 5;
        }
        // If all that is held came before all that is lacking, only a step
        // from a later commit to an earlier one can ask for what is lacking.
        let last = highest(had);
        let apart = last < lowest(lacking);
        if !apart && self.asked & (1 << 3 | 1 << 4) != 0 {
            let (before, drawn) = store.sessions(had);
            failing |= u16::from(before & lacking != 0) << 3;
            failing |= u16::from(drawn & lacking != 0) << 4;
        }
        if self.asks(6) && !(apart && links.prefix.crossed >> last & 1 == 0) {
            links.prefix.catch_up(store, Commit::prefix_links);
            failing |= u16::from(links.prefix.walk(had, lacking) & lacking != 0) << 6;
        }
        if self.asks(7) && !(apart && links.snapshot.crossed >> last & 1 == 0) {
            links.snapshot.catch_up(store, Commit::snapshot_links);
            failing |= u16::from(links.snapshot.walk(had, lacking) & lacking != 0) << 7;
        }
        failing
    }

    /// Notes the failure of each level that has not failed before and asks for
    /// a failing clause.
    #[cold]
    fn strike<const WIDTH: usize>(
        &mut self,
        failing: u16,
        store: &Store<WIDTH>,
        links: &Links,
        step: &Step<WIDTH>,
    ) {
        self.asked = 0;
        for (verdict, clauses) in self.verdicts.iter_mut().zip(LEVELS) {
            if *verdict != Verdict::Accepted {
                continue;
            }
            let failing = failing & clauses;
            if failing == 0 {
                self.asked |= clauses;
                continue;
            }
            let clause = failing.trailing_zeros() as u8;
            let (key, version) =
                missing(clause, store, links, step).expect("a failing clause lacks a version");
            *verdict = Verdict::Refused {
                commit: store.commits as u8,
                record: step.record,
                clause,
                key: key as u8,
                version: version as u8,
            };
        }
    }
}

/// The least version that a clause wants and that is not there.
fn missing<const WIDTH: usize>(
    clause: u8,
    store: &Store<WIDTH>,
    links: &Links,
    step: &Step<WIDTH>,
) -> Option<(usize, usize)> {
    let own = &store.own[store.commits];
    // What the view lacks of the store before the commit.
    let mut lacked = beyond(&beyond(&store.full, own), step.view);
    let by = |writers: u64| store.least(&lacked, |version| writers >> version.writer & 1 != 0);
    match clause {
        1 => store.least(&beyond(step.view, step.fresh), |_| true),
        2 => {
            let session = store.log[store.commits].session_with(store.commits);
            store.least(&beyond(&store.full, step.fresh), |version| {
                session >> version.writer & 1 != 0
            })
        }
        3 => by(store.sessions(step.had).0),
        4 => {
            let readers = step.had | store.sessions(step.had).0;
            store.least(&lacked, |version| version.readers & readers != 0)
        }
        5 => {
            for (lacked, own) in lacked.iter_mut().zip(own) {
                if *own == 0 {
                    *lacked = 0;
                }
            }
            store.least(&lacked, |_| true)
        }
        6 => by(links.prefix.walk(step.had, 0)),
        7 => by(links.snapshot.walk(step.had, 0)),
        _ => store.least(&lacked, |_| true),
    }
}

/// Code 12, if the fresh view has not all of the old one.
fn least_lost<const WIDTH: usize>(view: &Row<WIDTH>, fresh: &Row<WIDTH>) -> Option<Fault> {
    if !any_beyond(view, fresh) {
        return None;
    }
    let lost = beyond(view, fresh);
    let key = lost.iter().position(|&mask| mask != 0)?;
    Some(Fault::at(12, key, lowest(lost[key])))
}

/// What the first row has and the second has not.
fn beyond<const WIDTH: usize>(first: &Row<WIDTH>, second: &Row<WIDTH>) -> Row<WIDTH> {
    let mut row = *first;
    for (mask, second) in row.iter_mut().zip(second) {
        *mask &= !second;
    }
    row
}

/// Whether the first row has anything that the second has not.
fn any_beyond<const WIDTH: usize>(first: &Row<WIDTH>, second: &Row<WIDTH>) -> bool {
    let masks = first.iter().zip(second);
    masks.fold(0, |any, (first, second)| any | (first & !second)) != 0
}

/// What either row has.
fn joined<const WIDTH: usize>(first: &Row<WIDTH>, second: &Row<WIDTH>) -> Row<WIDTH> {
    let mut row = *first;
    for (mask, second) in row.iter_mut().zip(second) {
        *mask |= second;
    }
    row
}

/// Whether two rows are equal, without a branch for each key.
fn same<const WIDTH: usize>(first: &Row<WIDTH>, second: &Row<WIDTH>) -> bool {
    let masks = first.iter().zip(second);
    masks.fold(0, |differing, (first, second)| differing | (first ^ second)) == 0
}

/// The greatest member of a set, 0 if there is none.
fn highest(set: u64) -> usize {
    (set | 1).ilog2() as usize
}

/// The least member of a set that has one.
fn lowest(set: u64) -> usize {
    set.trailing_zeros() as usize
}

/// All numbers above one.
fn above(number: usize) -> u64 {
    !1 << number
}

/// The members of a set, least first.
fn members(mut set: u64) -> impl Iterator<Item = usize> {
    std::iter::from_fn(move || {
        if set == 0 {
            return None;
        }
        let member = lowest(set);
        set &= set - 1;
        Some(member)
    })
}
