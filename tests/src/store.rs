//! Sections "Sizes of a rack" and "Store and views": the limits, that of the
//! keys by request E2; the store with its versions, and by request E8 the view of
//! each commit; and what makes a set of versions a view of it.

use crate::trace::{Operation, OperationKind};
use std::collections::BTreeSet;
use std::rc::Rc;

/// The number of a key, from 0.
#[derive(Clone, Copy, PartialEq, Eq, PartialOrd, Ord, Debug)]
pub struct Key(pub usize);

/// The place of a version in the list of its key, from 0.
#[derive(Clone, Copy, PartialEq, Eq, PartialOrd, Ord, Debug)]
pub struct Version(pub usize);

/// The number of a commit, from 1; number 0 is the opening transaction.
#[derive(Clone, Copy, PartialEq, Eq, PartialOrd, Ord, Debug)]
pub struct CommitNumber(pub usize);

/// The opening transaction, writer of version 0 of every key.
pub const OPENING: CommitNumber = CommitNumber(0);

/// A set of versions. Its order is by key and then version.
pub type View = BTreeSet<(Key, Version)>;

/// One version of one key.
#[derive(Clone, PartialEq, Eq, Debug)]
pub struct StoredVersion {
    pub value: u32,
    pub writer: CommitNumber,
    pub readers: BTreeSet<CommitNumber>,
}

/// Who made a commit, and under which session number.
#[derive(Clone, Copy, PartialEq, Eq, Debug)]
pub struct Author {
    pub client: usize,
    pub session: u32,
}

/// Each key's list of versions; the author of each commit so far, and "the view u
/// that it was judged from", which does not change and is shared with the stores
/// before.
#[derive(Clone, PartialEq, Eq, Debug)]
pub struct Store {
    pub lists: Vec<Vec<StoredVersion>>,
    pub authors: Vec<Author>,
    pub views: Vec<Rc<View>>,
}

impl Store {
    pub const MAX_KEYS: usize = 32;
    pub const MAX_CLIENTS: usize = 16;
    pub const MAX_COMMITS: usize = 63;
    /// Of a commit: a read and a write of each key.
    pub const MAX_OPERATIONS: usize = 2 * Store::MAX_KEYS;
    /// A header without records.
    pub const MIN_BYTES: usize = 12;
    pub const MAX_BYTES: usize = 65_536;

    /// The fresh store: version 0 of each key, value 0, no readers.
    pub fn opening(keys: usize) -> Store {
        let first = StoredVersion {
            value: 0,
            writer: OPENING,
            readers: BTreeSet::new(),
        };
        Store {
            lists: vec![vec![first]; keys],
            authors: Vec::new(),
            views: Vec::new(),
        }
    }

    /// All keys, least first.
    pub fn keys(&self) -> Vec<Key> {
        (0..self.lists.len()).map(Key).collect()
    }

    /// All versions of one key, oldest first.
    pub fn versions_of(&self, key: Key) -> Vec<Version> {
        (0..self.lists[key.0].len()).map(Version).collect()
    }

    /// All versions, by key and then version.
    pub fn versions(&self) -> View {
        let mut all = View::new();
        for key in self.keys() {
            for version in self.versions_of(key) {
                all.insert((key, version));
            }
        }
        all
    }

    pub fn get(&self, key: Key, version: Version) -> &StoredVersion {
        &self.lists[key.0][version.0]
    }

    /// All commits so far, those without operations included.
    pub fn commits(&self) -> Vec<CommitNumber> {
        (1..=self.authors.len()).map(CommitNumber).collect()
    }

    pub fn author(&self, commit: CommitNumber) -> Author {
        self.authors[commit.0 - 1]
    }

    /// The view that a commit was judged from.
    pub fn view(&self, commit: CommitNumber) -> &View {
        &self.views[commit.0 - 1]
    }

    /// The versions that a transaction wrote.
    pub fn written_by(&self, writer: CommitNumber) -> View {
        let mut written = self.versions();
        written.retain(|&(key, version)| self.get(key, version).writer == writer);
        written
    }

    /// The commits that appear in the store, as writer or reader of a version.
    pub fn appearing(&self) -> BTreeSet<CommitNumber> {
        let mut appearing = BTreeSet::new();
        for (key, version) in self.versions() {
            let stored = self.get(key, version);
            if stored.writer != OPENING {
                appearing.insert(stored.writer);
            }
            appearing.extend(&stored.readers);
        }
        appearing
    }

    /// The reads and writes of a commit, told from the versions: by key, a read
    /// before a write.
    pub fn operations_of(&self, commit: CommitNumber) -> Vec<Operation> {
        let mut operations = Vec::new();
        for key in self.keys() {
            let list = &self.lists[key.0];
            let read = list
                .iter()
                .filter(|version| version.readers.contains(&commit));
            let written = list.iter().filter(|version| version.writer == commit);
            let of_kind = |kind| {
                move |version: &StoredVersion| Operation {
                    kind,
                    key,
                    value: version.value,
                }
            };
            operations.extend(read.map(of_kind(OperationKind::Read)));
            operations.extend(written.map(of_kind(OperationKind::Write)));
        }
        operations
    }

    /// The session numbers of a client in the trace so far, those of commits
    /// without operations included.
    pub fn sessions_of(&self, client: usize) -> BTreeSet<u32> {
        let own = self.authors.iter().filter(|author| author.client == client);
        own.map(|author| author.session).collect()
    }

    /// The store after one more commit, made from the view `u`, which is kept:
    /// reads add the commit to the readers of the newest version that `u` holds,
    /// writes append. The read positions are those before the commit.
    pub fn with_commit(&self, author: Author, operations: &[Operation], u: &View) -> Store {
        let mut next = self.clone();
        next.authors.push(author);
        next.views.push(Rc::new(u.clone()));
        let commit = CommitNumber(next.authors.len());
        for operation in operations {
            let list = &mut next.lists[operation.key.0];
            match operation.kind {
                OperationKind::Read => {
                    let version = newest_visible(self, u, operation.key).version;
                    list[version.0].readers.insert(commit);
                }
                OperationKind::Write => list.push(StoredVersion {
                    value: operation.value,
                    writer: commit,
                    readers: BTreeSet::new(),
                }),
            }
        }
        next
    }
}

/// The view that each client starts with: version 0 of each key.
pub fn opening_view(keys: usize) -> View {
    (0..keys).map(|key| (Key(key), Version(0))).collect()
}

/// What a view holds of one key.
pub fn held_of(view: &View, key: Key) -> BTreeSet<Version> {
    view.iter()
        .filter(|held| held.0 == key)
        .map(|held| held.1)
        .collect()
}

/// The newest version that a view holds of a key; a view holds version 0.
pub fn newest(view: &View, key: Key) -> Version {
    held_of(view, key).last().copied().unwrap_or(Version(0))
}

/// What a read sees.
#[derive(Clone, Copy, PartialEq, Eq, Debug)]
pub struct Visible {
    pub value: u32,
    pub version: Version,
    pub writer: CommitNumber,
}

/// "The lookup of the newest visible version must answer value, version and
/// writer" (request E13).
pub fn newest_visible(store: &Store, view: &View, key: Key) -> Visible {
    let version = newest(view, key);
    let stored = store.get(key, version);
    Visible {
        value: stored.value,
        version,
        writer: stored.writer,
    }
}

/// The transactions of which a view holds a version.
pub fn writers_in(store: &Store, view: &View) -> BTreeSet<CommitNumber> {
    view.iter()
        .map(|&(key, version)| store.get(key, version).writer)
        .collect()
}

/// The least key where version 0 is not held, or one that does not exist is.
pub fn least_bad_key(store: &Store, view: &View) -> Option<Key> {
    for key in store.keys() {
        let held = held_of(view, key);
        if !held.contains(&Version(0)) {
            return Some(key);
        }
        for version in held {
            if version.0 >= store.lists[key.0].len() {
                return Some(key);
            }
        }
    }
    None
}

/// The least version that is not held although another one of its writer is.
/// The view holds existing versions only.
pub fn least_split_version(store: &Store, view: &View) -> Option<(Key, Version)> {
    let writers = writers_in(store, view);
    for key in store.keys() {
        for version in store.versions_of(key) {
            let held = view.contains(&(key, version));
            if !held && writers.contains(&store.get(key, version).writer) {
                return Some((key, version));
            }
        }
    }
    None
}
