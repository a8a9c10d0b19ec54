//! Traces that are taken. A view holds all versions of a writer or none, so
//! a view is chosen as a set of writers; what is left to a style is which
//! writers a client sees before a commit and keeps after it.

mod growing;

pub use growing::growing;

use crate::random::Random;
use crate::relations::{
    one_or_more, prefix_paths, prefix_steps, snapshot_paths, snapshot_steps, so, union, wr, ww,
    Relation,
};
use crate::store::{
    newest, opening_view, writers_in, Author, CommitNumber, Key, Store, View, OPENING,
};
use crate::trace::{commit_len, shift_len, Operation, OperationKind, Record, Trace};
use std::collections::BTreeSet;
use std::rc::Rc;

pub(super) type Writers = BTreeSet<CommitNumber>;

/// The reads and writes of a commit.
pub(super) type Accesses = BTreeSet<(Key, OperationKind)>;

/// What a client sees more of before it commits.
#[derive(Clone, Copy, PartialEq, Eq, Debug)]
pub enum Seeing {
    Nothing,
    Everything,
    /// All commits up to some number.
    UpToSome,
    /// Each unseen commit in so many cases of a hundred.
    Each(usize),
}

/// What the view of a commit is widened to keep.
#[derive(Clone, Copy, PartialEq, Eq, Debug)]
pub enum Rule {
    /// Clauses 3 to 8.
    Sessions,
    Reads,
    Written,
    Prefix,
    Snapshot,
    Everything,
    /// Clauses 6 and 7 nearly: one step only, no step by way of a commit that
    /// only reads, no RW link.
    OneStepOfPrefix,
    OneStepOfSnapshot,
    PrefixOfWriters,
    SnapshotOfWriters,
    WithoutRw,
}

/// How the session numbers of a client rise.
#[derive(Clone, Copy, PartialEq, Eq, Debug)]
pub enum Numbering {
    ByOne,
    WithGaps,
    Wild,
}

/// What kind of trace to make. The last fields are percentages.
#[derive(Clone, Debug)]
pub struct Style {
    pub keys: usize,
    /// The keys that commits touch.
    pub used: BTreeSet<Key>,
    pub clients: usize,
    pub commits: usize,
    /// Values written are below this.
    pub values: usize,
    pub numbering: Numbering,
    pub seeing: Seeing,
    /// What the view of a commit is widened to.
    pub keeping: Vec<Rule>,
    /// Commits that leave `keeping` aside.
    pub lapses: usize,
    /// Views after without the commit's own versions.
    pub hides_own: usize,
    /// Writers lost, of those that a view after may lose; the client's own ones
    /// too, or not.
    pub loses: usize,
    pub loses_own: bool,
    /// Writers gained, of those that a view after may gain.
    pub gains: usize,
    /// Commits without operations, and without writes.
    pub empty: usize,
    pub only_reads: usize,
    /// Used keys that a commit touches besides one that it always does;
    /// touched keys that are written; written keys that are also read.
    pub touched: usize,
    pub written: usize,
    pub also_read: usize,
    /// Shifts that stand between commits for no purpose.
    pub idle: usize,
}

impl Style {
    /// Any style; one in four is of the kind where the paths matter.
    pub fn random(random: &mut Random) -> Style {
        let style = Style::anything(random);
        if random.percent(75) {
            style
        } else {
            style.about_paths(random)
        }
    }

    /// Nothing is lost, views nearly keep clause 6 or 7, and commits read some
    /// keys and write others: whether CP and SI fail is a matter of paths.
    fn about_paths(self, random: &mut Random) -> Style {
        use Rule::*;
        let keeping: &[&[Rule]] = &[
            &[Sessions, Reads],
            &[Prefix],
            &[OneStepOfPrefix],
            &[OneStepOfSnapshot],
            &[PrefixOfWriters],
            &[SnapshotOfWriters],
            &[WithoutRw],
        ];
        let mut keeping = random.pick(keeping).to_vec();
        if random.percent(70) {
            keeping.push(Written);
        }
        let used = random.between(2, 5);
        let keys = number_of_keys(random, used);
        Style {
            keys,
            used: some_keys(random, used, keys).into_iter().collect(),
            clients: random.between(2, 6),
            commits: random.between(5, 14),
            seeing: Seeing::Each(random.pick(&[10, 20, 30])),
            keeping,
            lapses: 0,
            hides_own: 0,
            loses: 0,
            only_reads: random.pick(&[20, 40, 60]),
            touched: random.pick(&[20, 40, 60]),
            written: random.pick(&[40, 60]),
            also_read: random.pick(&[0, 0, 30]),
            ..self
        }
    }

    /// Small and middling traces, now and then one of 63 commits.
    fn anything(random: &mut Random) -> Style {
        let commits = match random.below(100) {
            0..=2 => random.below(2),
            3..=59 => random.between(2, 9),
            60..=92 => random.between(10, 16),
            93..=98 => random.between(17, 30),
            _ => random.between(31, Store::MAX_COMMITS),
        };
        let used = match random.below(100) {
            0..=9 => 1,
            10..=74 => random.between(2, 4),
            75..=89 => random.between(5, 8),
            _ => random.between(9, Store::MAX_KEYS),
        };
        let keys = number_of_keys(random, used);
        let clients = match random.below(100) {
            0..=4 => 1,
            5..=79 => random.between(2, 5),
            _ => random.between(6, Store::MAX_CLIENTS),
        };
        Style {
            keys,
            used: some_keys(random, used, keys).into_iter().collect(),
            clients,
            commits,
            values: random.pick(&[1, 2, 3, 100, 1 << 32]),
            numbering: random.pick(&[Numbering::ByOne, Numbering::WithGaps, Numbering::Wild]),
            seeing: match random.below(10) {
                0 => Seeing::Nothing,
                1 => Seeing::Everything,
                2 => Seeing::UpToSome,
                _ => Seeing::Each(random.pick(&[5, 15, 30, 50, 80])),
            },
            keeping: some_rules(random, commits),
            lapses: random.pick(&[0, 0, 0, 5, 20]),
            hides_own: random.pick(&[0, 0, 0, 5, 40]),
            loses: random.pick(&[0, 0, 3, 10, 30]),
            loses_own: random.percent(40),
            gains: random.pick(&[0, 0, 10, 50]),
            empty: random.pick(&[0, 0, 5, 20]),
            only_reads: random.pick(&[0, 20, 40]),
            touched: random.pick(&[5, 30, 50, 80, 100]),
            written: random.pick(&[30, 50, 80, 100]),
            also_read: random.pick(&[0, 30, 70, 100]),
            idle: random.pick(&[0, 0, 10, 40]),
        }
    }
}

/// The most keys that a trace could have before request E2.
pub const FORMER_KEYS: usize = 16;

/// How many keys a trace has where so many are used: mostly more than it could
/// have before, or just these.
pub fn number_of_keys(random: &mut Random, used: usize) -> usize {
    if random.percent(57) {
        random.between(FORMER_KEYS + 1, Store::MAX_KEYS).max(used)
    } else {
        used
    }
}

/// So many different ones of so many keys, in any order.
pub(super) fn some_keys(random: &mut Random, number: usize, keys: usize) -> Vec<Key> {
    let mut left: Vec<Key> = (0..keys).map(Key).collect();
    (0..number)
        .map(|_| left.swap_remove(random.below(left.len())))
        .collect()
}

/// Rules for a trace of so many commits.
fn some_rules(random: &mut Random, commits: usize) -> Vec<Rule> {
    use Rule::*;
    let rules: &[&[Rule]] = &[
        &[],
        &[Sessions],
        &[Reads],
        &[Sessions, Reads],
        &[Written],
        &[Sessions, Written],
        &[Reads, Written],
        &[Sessions, Reads, Written],
        &[Everything],
        &[Prefix],
        &[Snapshot],
        &[Prefix, Written],
        &[Snapshot, Written],
    ];
    // Paths over many commits are slow to find.
    let rules = if commits > 30 { &rules[..9] } else { rules };
    random.pick(rules).to_vec()
}

/// What a record meets: the store and each client's view. What did not change
/// is shared with the states before.
#[derive(Clone, Debug)]
pub struct State {
    pub store: Rc<Store>,
    pub views: Vec<Rc<View>>,
}

/// A taken trace, and for each of its records the state that it meets.
#[derive(Clone, Debug)]
pub struct Built {
    pub trace: Trace,
    pub states: Vec<State>,
}

/// Makes a trace of the given style.
pub fn build(random: &mut Random, style: &Style) -> Built {
    let mut builder = Builder::new(style.keys, style.clients, style.commits);
    for _ in 0..style.commits {
        while random.percent(style.idle) {
            let client = random.below(style.clients);
            let unseen = builder.unseen(client);
            let more = unseen.into_iter().filter(|_| random.percent(20)).collect();
            builder.needless_shift(client, more);
        }
        let client = random.below(style.clients);
        builder.styled_commit(random, style, client);
    }
    if random.percent(style.idle) {
        let client = random.below(style.clients);
        builder.needless_shift(client, builder.unseen(client));
    }
    builder.built()
}

#[derive(Clone, Copy, PartialEq, Eq, Debug)]
enum Link {
    So,
    Wr,
    Ww,
    Rw,
}

/// A trace around one path of links, from a first commit to a last one. Each
/// commit of the path keeps some rules, and then a client commits from a view
/// that holds the last commit and what some rule wants with it; whether it
/// must hold the first is what the clauses are about.
pub fn build_path(random: &mut Random) -> Built {
    let path = Path::random(random);
    let observer = path.links.len() + 1;
    let more = if random.percent(30) {
        random.between(1, 4)
    } else {
        0
    };
    let commits = path.clients.len() + 1 + more;
    let mut builder = Builder::new(path.keys, observer + 1, commits);
    let last = path.commits(random, &mut builder);
    path.observed(random, &mut builder, observer, last);

    // And something more, now and then.
    let style = Style {
        keys: path.keys,
        used: path.used.iter().copied().collect(),
        clients: observer + 1,
        ..Style::random(random)
    };
    for _ in 0..more {
        let client = random.below(style.clients);
        builder.styled_commit(random, &style, client);
    }
    builder.built()
}

/// A path of links, and for each commit on it the client and the accesses.
struct Path {
    links: Vec<Link>,
    /// How many keys there are.
    keys: usize,
    /// One key for each link, one for a write of the first commit and one for
    /// a write of the last; now and then a key is used twice.
    used: Vec<Key>,
    clients: Vec<usize>,
    accesses: Vec<Accesses>,
}

impl Path {
    fn random(random: &mut Random) -> Path {
        use Link::*;
        let kinds = random.pick(&[[So, Wr, Ww, Rw], [So, Wr, Rw, Rw], [Wr, Ww, Rw, Rw]]);
        let links: Vec<Link> = (0..random.between(1, 5))
            .map(|_| random.pick(&kinds))
            .collect();
        let keys = number_of_keys(random, links.len() + 2);
        let mut used = some_keys(random, links.len() + 2, keys);
        for place in 0..used.len() {
            if random.percent(5) {
                used[place] = used[0];
            }
        }
        let clients = clients_along(random, &links);
        let accesses = accesses_along(random, &links, &used);
        Path {
            links,
            keys,
            used,
            clients,
            accesses,
        }
    }

    /// The commits in parts of which each is in order: RW alone says nothing of
    /// which commit comes first.
    fn chains(&self) -> Vec<Vec<usize>> {
        let mut chains: Vec<Vec<usize>> = vec![vec![0]];
        for (place, link) in self.links.iter().enumerate() {
            if *link == Link::Rw {
                chains.push(Vec::new());
            }
            chains.last_mut().expect("there is one").push(place + 1);
        }
        chains
    }

    /// Makes the commits of the path; answers the number of the last.
    fn commits(&self, random: &mut Random, builder: &mut Builder) -> CommitNumber {
        let mut chains = self.chains();
        let keeping = random.pick(&[
            vec![],
            vec![Rule::Written],
            vec![Rule::Sessions, Rule::Reads, Rule::Written],
            vec![Rule::Prefix],
            vec![Rule::Snapshot, Rule::Written],
            vec![Rule::Snapshot, Rule::Written],
        ]);
        let mut numbers = vec![OPENING; self.clients.len()];
        while !chains.is_empty() {
            let chosen = random.below(chains.len());
            let place = chains[chosen].remove(0);
            if chains[chosen].is_empty() {
                chains.swap_remove(chosen);
            }
            let client = self.clients[place];
            let mut writers = builder.seen(client);
            if place > 0 && self.links[place - 1] == Link::Wr {
                writers.insert(numbers[place - 1]);
            }
            numbers[place] = builder.next_commit();
            builder.plain_commit(random, client, &self.accesses[place], &keeping, writers);
        }
        numbers[self.links.len()]
    }

    /// A commit from a view that holds the last one of the path.
    fn observed(
        &self,
        random: &mut Random,
        builder: &mut Builder,
        observer: usize,
        last: CommitNumber,
    ) {
        let nearly = random.pick(&[
            vec![],
            vec![Rule::Sessions],
            vec![Rule::Sessions, Rule::Reads],
            vec![Rule::OneStepOfPrefix],
            vec![Rule::OneStepOfSnapshot],
            vec![Rule::PrefixOfWriters],
            vec![Rule::SnapshotOfWriters],
            vec![Rule::Prefix],
            vec![Rule::WithoutRw],
        ]);
        let read = match random.below(3) {
            0 => None,
            1 => self.used.last().copied(),
            _ => Some(random.pick(&self.used)),
        };
        let accesses = read.map(|key| (key, OperationKind::Read));
        let accesses = accesses.into_iter().collect();
        builder.plain_commit(random, observer, &accesses, &nearly, BTreeSet::from([last]));
    }
}

/// A client of its own for each commit of a path, but for SO.
fn clients_along(random: &mut Random, links: &[Link]) -> Vec<usize> {
    let mut clients = vec![0];
    for (place, link) in links.iter().enumerate() {
        let client = match link {
            Link::So => clients[place],
            _ if random.percent(10) => random.pick(&clients),
            _ => place + 1,
        };
        clients.push(client);
    }
    clients
}

/// The accesses that make the links of a path, and a write of its first commit
/// and of its last.
fn accesses_along(
    random: &mut Random,
    links: &[Link],
    keys: &[Key],
) -> Vec<BTreeSet<(Key, OperationKind)>> {
    let last = links.len();
    let mut accesses = vec![BTreeSet::new(); last + 1];
    for (place, link) in links.iter().enumerate() {
        let (from, to) = match link {
            Link::So => continue,
            Link::Wr => (OperationKind::Write, OperationKind::Read),
            Link::Ww => (OperationKind::Write, OperationKind::Write),
            Link::Rw => (OperationKind::Read, OperationKind::Write),
        };
        accesses[place].insert((keys[place], from));
        accesses[place + 1].insert((keys[place], to));
    }
    accesses[0].insert((keys[last], OperationKind::Write));
    accesses[last].insert((keys[last + 1], OperationKind::Write));
    for accesses in &mut accesses {
        if accesses.is_empty() {
            // Between two SO links.
            accesses.insert((random.pick(keys), OperationKind::Read));
        }
    }
    accesses
}

/// As many commits, clients, keys and operations of each commit as there may
/// be, and their shifts.
pub fn largest(random: &mut Random) -> Built {
    let style = largest_style(random);
    build(random, &style)
}

/// The same where each commit is made from a full view: SER accepts.
pub fn largest_serial(random: &mut Random) -> Built {
    let style = Style {
        seeing: Seeing::Everything,
        ..largest_style(random)
    };
    build(random, &style)
}

fn largest_style(random: &mut Random) -> Style {
    Style {
        keys: Store::MAX_KEYS,
        used: (0..Store::MAX_KEYS).map(Key).collect(),
        clients: Store::MAX_CLIENTS,
        commits: Store::MAX_COMMITS,
        values: 1 << 32,
        numbering: Numbering::WithGaps,
        seeing: random.pick(&[
            Seeing::Nothing,
            Seeing::Everything,
            Seeing::UpToSome,
            Seeing::Each(3),
            Seeing::Each(50),
        ]),
        keeping: random.pick(&[
            vec![],
            vec![Rule::Sessions, Rule::Reads],
            vec![Rule::Everything],
        ]),
        lapses: 0,
        hides_own: random.pick(&[0, 2]),
        loses: random.pick(&[0, 0, 5]),
        loses_own: true,
        gains: random.pick(&[0, 5]),
        empty: 0,
        only_reads: 0,
        touched: 100,
        written: 100,
        also_read: 100,
        idle: 0,
    }
}

/// A trace whose file has exactly 65,536 bytes: 63 commits over 32 keys, as many
/// operations as there is room for, and the fewest shifts that fill the rest.
pub fn exactly_full(random: &mut Random) -> Built {
    let (shifts, operations) = filling();
    let mut spare = Store::MAX_COMMITS * Store::MAX_OPERATIONS - operations;
    let mut builder = Builder::new(Store::MAX_KEYS, Store::MAX_CLIENTS, Store::MAX_COMMITS);
    let mut shifted = 0;
    for commit in 1..=Store::MAX_COMMITS {
        while shifted < shifts * commit / Store::MAX_COMMITS {
            let client = random.below(Store::MAX_CLIENTS);
            let unseen = builder.unseen(client);
            builder.shift(
                client,
                unseen.into_iter().filter(|_| random.percent(10)).collect(),
            );
            shifted += 1;
        }
        let client = random.below(Store::MAX_CLIENTS);
        let mut accesses = Vec::new();
        for key in builder.state.store.keys() {
            if spare > 0 {
                spare -= 1; // one operation less than two on this key
            } else {
                accesses.push((OperationKind::Read, key));
            }
            accesses.push((OperationKind::Write, key));
        }
        let number = builder.state.store.sessions_of(client).len() as u32;
        let operations = builder.with_values(client, &accesses, || 1);
        let mut after = builder.seen(client);
        after.insert(builder.next_commit());
        builder.commit(client, number, operations, &after);
    }
    builder.built()
}

/// The shifts and the operations of a full file.
fn filling() -> (usize, usize) {
    let empty = commit_len(0, Store::MAX_KEYS);
    let room = Store::MAX_BYTES - Store::MIN_BYTES - Store::MAX_COMMITS * empty;
    let most = Store::MAX_COMMITS * Store::MAX_OPERATIONS;
    let filled = |shifts| {
        let left = room - shifts * shift_len(Store::MAX_KEYS);
        let operations = left / 8;
        (8 * operations == left && operations <= most).then_some((shifts, operations))
    };
    let found = (0..room / shift_len(Store::MAX_KEYS)).find_map(filled);
    found.expect("shifts and operations that fill a file")
}

/// The trace so far, with the state after its last record.
pub(super) struct Builder {
    trace: Trace,
    states: Vec<State>,
    pub(super) state: State,
    /// How many shifts there is room for in the file, beyond one before each
    /// commit, were all its commits as long as they can be.
    spare_shifts: usize,
}

impl Builder {
    /// For a trace of so many commits, and one more that a fault may add.
    pub(super) fn new(keys: usize, clients: usize, commits: usize) -> Builder {
        let longest = shift_len(keys) + commit_len(2 * keys, keys);
        let needed = Store::MIN_BYTES + (commits + 1) * longest;
        let view = Rc::new(opening_view(keys));
        let state = State {
            store: Rc::new(Store::opening(keys)),
            views: vec![view; clients],
        };
        let trace = Trace {
            keys,
            clients,
            records: Vec::new(),
        };
        Builder {
            trace,
            states: Vec::new(),
            state,
            spare_shifts: Store::MAX_BYTES.saturating_sub(needed) / shift_len(keys),
        }
    }

    pub(super) fn built(self) -> Built {
        Built {
            trace: self.trace,
            states: self.states,
        }
    }

    /// How many records there are.
    pub(super) fn records(&self) -> usize {
        self.trace.records.len()
    }

    pub(super) fn next_commit(&self) -> CommitNumber {
        CommitNumber(self.state.store.authors.len() + 1)
    }

    /// The writers that a client sees.
    pub(super) fn seen(&self, client: usize) -> Writers {
        writers_in(&self.state.store, &self.state.views[client])
    }

    /// The writers of which a client sees nothing.
    fn unseen(&self, client: usize) -> Writers {
        let all = writers_in(&self.state.store, &self.state.store.versions());
        all.difference(&self.seen(client)).copied().collect()
    }

    /// A shift of a client to more writers, or to as many.
    fn shift(&mut self, client: usize, more: Writers) {
        let mut writers = self.seen(client);
        writers.extend(more);
        let view = versions_by(&self.state.store, &writers);
        self.states.push(self.state.clone());
        self.trace.records.push(Record::Shift {
            client,
            view: view.clone(),
        });
        self.state.views[client] = Rc::new(view);
    }

    /// A shift without which the next commit could be made as well, if there is
    /// room for it.
    fn needless_shift(&mut self, client: usize, more: Writers) {
        if self.spare_shifts > 0 {
            self.spare_shifts -= 1;
            self.shift(client, more);
        }
    }

    /// A commit whose view after holds the given writers.
    pub(super) fn commit(
        &mut self,
        client: usize,
        session: u32,
        operations: Vec<Operation>,
        after: &Writers,
    ) {
        let author = Author { client, session };
        let u = &self.state.views[client];
        let store = self.state.store.with_commit(author, &operations, u);
        let view = versions_by(&store, after);
        self.states.push(self.state.clone());
        self.trace.records.push(Record::Commit {
            client,
            session,
            operations,
            after: view.clone(),
        });
        self.state.store = Rc::new(store);
        self.state.views[client] = Rc::new(view);
    }

    /// Gives reads the value that they must have, and writes a new one.
    pub(super) fn with_values(
        &self,
        client: usize,
        accesses: &[(OperationKind, Key)],
        mut new_value: impl FnMut() -> u32,
    ) -> Vec<Operation> {
        let mut operations = Vec::new();
        for &(kind, key) in accesses {
            let value = match kind {
                OperationKind::Read => {
                    let version = newest(&self.state.views[client], key);
                    self.state.store.get(key, version).value
                }
                OperationKind::Write => new_value(),
            };
            operations.push(Operation { kind, key, value });
        }
        operations
    }

    /// One commit that loses nothing, after a shift to the given writers and
    /// what the rules want with them. The client has made few commits.
    pub(super) fn plain_commit(
        &mut self,
        random: &mut Random,
        client: usize,
        accesses: &Accesses,
        rules: &[Rule],
        writers: Writers,
    ) {
        let session = self.state.store.sessions_of(client).len() as u32;
        self.numbered_commit(random, client, session, accesses, rules, writers);
    }

    /// The same with any number.
    pub(super) fn numbered_commit(
        &mut self,
        random: &mut Random,
        client: usize,
        session: u32,
        accesses: &Accesses,
        rules: &[Rule],
        mut writers: Writers,
    ) {
        let accesses: Vec<(OperationKind, Key)> =
            accesses.iter().map(|&(key, kind)| (kind, key)).collect();
        writers.extend(self.seen(client));
        self.keep(rules, &accesses, &mut writers);
        if writers != self.seen(client) {
            self.shift(client, writers.clone());
        }
        let operations = self.with_values(client, &accesses, || random.below(3) as u32);
        if accesses
            .iter()
            .any(|access| access.0 == OperationKind::Write)
        {
            writers.insert(self.next_commit());
        }
        self.commit(client, session, operations, &writers);
    }

    /// One commit as a style has it, with a shift before it if it needs one.
    /// Nothing comes of it if the client has no session number left.
    pub(super) fn styled_commit(&mut self, random: &mut Random, style: &Style, client: usize) {
        let Some(session) = self.next_session(random, style.numbering, client) else {
            return;
        };
        let accesses = accesses(random, style);

        let seen = self.seen(client);
        let mut writers = seen.clone();
        self.see_more(random, style.seeing, &mut writers);
        if !random.percent(style.lapses) {
            self.keep(&style.keeping, &accesses, &mut writers);
        }
        if writers != seen || random.percent(style.idle) {
            if random.percent(20) {
                // Part of the way first.
                let part = writers
                    .iter()
                    .filter(|_| random.percent(50))
                    .copied()
                    .collect();
                self.needless_shift(client, part);
            }
            self.shift(client, writers.clone());
        }

        let operations = self.with_values(client, &accesses, || random.below(style.values) as u32);
        let touched: BTreeSet<Key> = accesses.iter().map(|access| access.1).collect();
        let mut after = writers.clone();
        for writer in self.free_writers(&touched) {
            if writers.contains(&writer) {
                let own = self.state.store.author(writer).client == client;
                if (style.loses_own || !own) && random.percent(style.loses) {
                    after.remove(&writer);
                }
            } else if random.percent(style.gains) {
                after.insert(writer);
            }
        }
        let writes = accesses
            .iter()
            .any(|access| access.0 == OperationKind::Write);
        if writes && !random.percent(style.hides_own) {
            after.insert(self.next_commit());
        }
        self.commit(client, session, operations, &after);
    }

    /// The least number that is above all of the client's, if there is one.
    pub(super) fn least_session(&self, client: usize) -> Option<u32> {
        match self.state.store.sessions_of(client).last() {
            Some(largest) => largest.checked_add(1),
            None => Some(0),
        }
    }

    /// A number above all of the client's.
    fn next_session(
        &self,
        random: &mut Random,
        numbering: Numbering,
        client: usize,
    ) -> Option<u32> {
        let least = self.least_session(client)?;
        let gap = match numbering {
            Numbering::ByOne => 0,
            Numbering::WithGaps => random.below(4) as u32,
            Numbering::Wild => {
                let room = u32::MAX - least;
                match random.below(20) {
                    0 => room,
                    1 => room / 2,
                    _ => random.below(room as usize / 8 + 1) as u32,
                }
            }
        };
        Some(least.saturating_add(gap))
    }

    fn see_more(&self, random: &mut Random, seeing: Seeing, writers: &mut Writers) {
        let last = self.next_commit().0 - 1;
        let bound = random.below(last + 1);
        for number in 1..=last {
            let sees = match seeing {
                Seeing::Nothing => false,
                Seeing::Everything => true,
                Seeing::UpToSome => number <= bound,
                Seeing::Each(percent) => random.percent(percent),
            };
            if sees {
                writers.insert(CommitNumber(number));
            }
        }
        self.drop_non_writers(writers);
    }

    /// Adds writers until a view for a commit with these accesses keeps the
    /// rules.
    fn keep(&self, rules: &[Rule], accesses: &[(OperationKind, Key)], writers: &mut Writers) {
        writers.extend(self.needed(rules, accesses));
        let links = self.links(rules);
        self.widen(&links, writers);
    }

    /// The writers that rules want of any view.
    fn needed(&self, rules: &[Rule], accesses: &[(OperationKind, Key)]) -> Writers {
        let store = &self.state.store;
        let mut needed = View::new();
        for (key, version) in store.versions() {
            let written = accesses.contains(&(OperationKind::Write, key));
            let wanted =
                rules.contains(&Rule::Everything) || rules.contains(&Rule::Written) && written;
            if wanted {
                needed.insert((key, version));
            }
        }
        writers_in(store, &needed)
    }

    /// The links from a writer that rules want to one of which a view holds
    /// something.
    fn links(&self, rules: &[Rule]) -> Relation {
        let store = &self.state.store;
        let mut links = Relation::new();
        for rule in rules {
            links.extend(match rule {
                Rule::Written | Rule::Everything => Relation::new(),
                Rule::Sessions => so(store),
                Rule::Reads => read_links(store),
                Rule::Prefix => prefix_paths(store),
                Rule::Snapshot => snapshot_paths(store),
                Rule::OneStepOfPrefix => prefix_steps(store),
                Rule::OneStepOfSnapshot => snapshot_steps(store),
                Rule::PrefixOfWriters => one_or_more(&self.among_writers(prefix_steps(store))),
                Rule::SnapshotOfWriters => one_or_more(&self.among_writers(snapshot_steps(store))),
                Rule::WithoutRw => one_or_more(&union(&[so(store), wr(store), ww(store)])),
            });
        }
        links
    }

    /// Adds writers until nothing is missing by the links.
    fn widen(&self, links: &Relation, writers: &mut Writers) {
        loop {
            let mut wider = writers.clone();
            for (before, commit) in links {
                if writers.contains(commit) {
                    wider.insert(*before);
                }
            }
            self.drop_non_writers(&mut wider);
            if wider == *writers {
                return;
            }
            *writers = wider;
        }
    }

    /// The links from a writer to a writer.
    fn among_writers(&self, mut links: Relation) -> Relation {
        let all = writers_in(&self.state.store, &self.state.store.versions());
        links.retain(|link| all.contains(&link.0) && all.contains(&link.1));
        links
    }

    fn drop_non_writers(&self, writers: &mut Writers) {
        let all = writers_in(&self.state.store, &self.state.store.versions());
        writers.retain(|writer| all.contains(writer));
    }

    /// The writers whose versions are all at touched keys: a view after may
    /// lose or gain them.
    fn free_writers(&self, touched: &BTreeSet<Key>) -> Writers {
        let store = &self.state.store;
        let mut free = writers_in(store, &store.versions());
        free.remove(&OPENING);
        for (key, version) in store.versions() {
            if !touched.contains(&key) {
                free.remove(&store.get(key, version).writer);
            }
        }
        free
    }
}

/// The reads and writes of one commit, rising by key and then kind.
fn accesses(random: &mut Random, style: &Style) -> Vec<(OperationKind, Key)> {
    let mut accesses = Vec::new();
    if random.percent(style.empty) {
        return accesses;
    }
    let only_reads = random.percent(style.only_reads);
    let used = Vec::from_iter(style.used.iter().copied());
    let always = random.pick(&used);
    for key in used {
        if key == always || random.percent(style.touched) {
            let writes = !only_reads && random.percent(style.written);
            if !writes || random.percent(style.also_read) {
                accesses.push((OperationKind::Read, key));
            }
            if writes {
                accesses.push((OperationKind::Write, key));
            }
        }
    }
    accesses
}

/// The writer of each version that clause 4 wants of a view with t, to t.
fn read_links(store: &Store) -> Relation {
    let so = so(store);
    let mut links = Relation::new();
    for (key, version) in store.versions() {
        let stored = store.get(key, version);
        for &reader in &stored.readers {
            links.insert((stored.writer, reader));
            for link in &so {
                if link.0 == reader {
                    links.insert((stored.writer, link.1));
                }
            }
        }
    }
    links
}

/// All versions by some writers; those by the opening transaction always.
pub fn versions_by(store: &Store, writers: &Writers) -> View {
    let mut view = store.versions();
    view.retain(|&(key, version)| {
        let writer = store.get(key, version).writer;
        writer == OPENING || writers.contains(&writer)
    });
    view
}
