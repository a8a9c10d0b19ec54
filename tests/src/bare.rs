//! Request E9, "Judge a bare image": what an image of request E8 says, if it is
//! one; an order of its commits, "each made from a full view", that gives it; or
//! a ring of links where there is none.

use crate::image::read_back;
use crate::relations::{rw, union, wr, ww, Relation};
use crate::store::{CommitNumber, Store, StoredVersion, OPENING};
use crate::Refusal;
use std::collections::BTreeSet;

/// What an image comes to before the buffer is looked at.
#[derive(Clone, PartialEq, Eq, Debug)]
pub enum Bare {
    /// Code 20.
    Misshapen,
    /// Code 0.
    Order(Vec<CommitNumber>),
    /// Code 19.
    Ring(Vec<CommitNumber>),
}

/// What an image is answered with.
#[derive(Clone, Copy, PartialEq, Eq, Debug)]
pub enum Shown {
    /// Code 20, or 17.
    Refused(Refusal),
    /// How many commits stand at the start of the buffer.
    Order(usize),
    Ring(usize),
}

impl Shown {
    pub fn code(&self) -> u8 {
        match self {
            Shown::Refused(refusal) => refusal.code,
            Shown::Order(_) => 0,
            Shown::Ring(_) => 19,
        }
    }
}

/// "under 63 bytes is code 17", however many commits there are.
pub const ROOM: usize = Store::MAX_COMMITS;

/// Judges an image. Codes 17 and 20 write nothing; otherwise the commits stand at
/// the start of `shown`, one byte each, and later bytes keep what they had.
pub fn judge_image(image: &[u8], shown: &mut [u8]) -> Shown {
    show(&bare(image), shown)
}

/// What a lent buffer gets; 17 is "after 20".
pub fn show(bare: &Bare, shown: &mut [u8]) -> Shown {
    let commits = match bare {
        Bare::Misshapen => return Shown::Refused(Refusal::at(20, 0)),
        Bare::Order(commits) | Bare::Ring(commits) => commits,
    };
    if shown.len() < ROOM {
        return Shown::Refused(Refusal::at(17, 0));
    }
    for (byte, commit) in shown.iter_mut().zip(commits) {
        *byte = commit.0 as u8;
    }
    match bare {
        Bare::Order(_) => Shown::Order(commits.len()),
        _ => Shown::Ring(commits.len()),
    }
}

pub fn bare(image: &[u8]) -> Bare {
    match shaped(image) {
        None => Bare::Misshapen,
        Some(store) => order_or_ring(&store, &links(&store)),
    }
}

/// The line that the program `order` prints.
pub fn line(bare: &Bare) -> String {
    let listed = |word: &str, commits: &[CommitNumber]| {
        let numbers = commits.iter().map(|commit| format!(" {}", commit.0));
        format!("{word}{}\n", numbers.collect::<String>())
    };
    match bare {
        Bare::Misshapen => crate::text::refused(&Refusal::at(20, 0)),
        Bare::Order(commits) => listed("order", commits),
        Bare::Ring(commits) => listed("ring", commits),
    }
}

/// The bytes of an image with what they say.
pub struct Read<'a> {
    pub bytes: &'a [u8],
    pub store: Store,
}

/// A test that every image passes, with what request E9 says of it.
pub type Test = (&'static str, fn(&Read) -> bool);

/// Code 20 is due where one of them fails, or where the bytes do not end with the
/// last version of the last key. Where a number of one byte has three spare bytes
/// behind it, all four are read as one number: it is small only if they are zero.
pub const TESTS: [Test; 14] = [
    ("wrong length", |read| {
        let length = (read.bytes.len() as u32).to_le_bytes();
        read.bytes.starts_with(&length)
    }),
    ("no key, or too many", |read| {
        (1..=Store::MAX_KEYS).contains(&read.store.lists.len())
    }),
    ("too many commits", |read| {
        read.store.authors.len() <= Store::MAX_COMMITS
    }),
    ("a key without versions", |read| {
        read.store.lists.iter().all(|list| !list.is_empty())
    }),
    ("client above 15", |read| {
        let mut authors = read.store.authors.iter();
        authors.all(|author| author.client & 0xFF < Store::MAX_CLIENTS)
    }),
    ("spare not zero, in the head", |read| {
        read.bytes[6..8] == [0, 0]
    }),
    ("spare not zero, of a commit", |read| {
        let mut authors = read.store.authors.iter();
        authors.all(|author| author.client <= 0xFF)
    }),
    ("spare not zero, of a version", |read| {
        versions(&read.store).all(|version| version.writer.0 <= 0xFF)
    }),
    ("version 0 not (0, opening)", |read| {
        let mut first = read.store.lists.iter().filter_map(|list| list.first());
        first.all(|version| version.value == 0 && version.writer.0 & 0xFF == 0)
    }),
    ("writer not among the commits", |read| {
        let mut lists = read.store.lists.iter();
        lists.all(|list| {
            let mut later = list.iter().skip(1);
            later.all(|version| is_commit(&read.store, version.writer.0 & 0xFF))
        })
    }),
    ("reader not among the commits", |read| {
        let mut readers = versions(&read.store).flat_map(|version| &version.readers);
        readers.all(|reader| is_commit(&read.store, reader.0))
    }),
    ("one commit twice as writer of a key", |read| {
        let writers = |list: &Vec<StoredVersion>| -> Vec<CommitNumber> {
            let later = list.iter().skip(1);
            later
                .map(|version| CommitNumber(version.writer.0 & 0xFF))
                .collect()
        };
        read.store.lists.iter().map(writers).all(no_two_alike)
    }),
    ("one commit twice as reader of a key", |read| {
        let readers = |list: &Vec<StoredVersion>| -> Vec<CommitNumber> {
            let readers = list.iter().flat_map(|version| &version.readers);
            readers.copied().collect()
        };
        read.store.lists.iter().map(readers).all(no_two_alike)
    }),
    ("two entries of equal client and number", |read| {
        let authors = read.store.authors.iter();
        no_two_alike(
            authors
                .map(|author| (author.client & 0xFF, author.session))
                .collect(),
        )
    }),
];

fn versions(store: &Store) -> impl Iterator<Item = &StoredVersion> {
    store.lists.iter().flatten()
}

/// The opening transaction is none of the commits.
fn is_commit(store: &Store, number: usize) -> bool {
    (1..=store.authors.len()).contains(&number)
}

fn no_two_alike<T: Ord + Clone>(all: Vec<T>) -> bool {
    let different: BTreeSet<T> = all.iter().cloned().collect();
    different.len() == all.len()
}

/// What an image says; nothing where it is misshapen.
pub fn shaped(image: &[u8]) -> Option<Store> {
    shaped_by(image, &TESTS)
}

/// The same with other tests.
pub fn shaped_by(image: &[u8], tests: &[Test]) -> Option<Store> {
    let read = Read {
        bytes: image,
        store: read_back(image)?,
    };
    tests
        .iter()
        .all(|(_, test)| test(&read))
        .then_some(read.store)
}

/// SO, which "covers commits without operations too", WR, WW and RW, between
/// commits.
pub fn links(store: &Store) -> Relation {
    union(&[
        sessions(store),
        between_commits(wr(store)),
        between_commits(ww(store)),
        between_commits(rw(store)),
    ])
}

/// SO of all commits.
pub fn sessions(store: &Store) -> Relation {
    let mut links = Relation::new();
    for first in store.commits() {
        for second in store.commits() {
            let (a, b) = (store.author(first), store.author(second));
            if a.client == b.client && a.session < b.session {
                links.insert((first, second));
            }
        }
    }
    links
}

pub fn between_commits(mut links: Relation) -> Relation {
    links.retain(|link| link.0 != OPENING);
    links
}

/// "the lowest-numbered ready commit first each time (ready: all commits with a
/// link to it are placed)"; or a ring of the commits that are left when none is
/// ready.
pub fn order_or_ring(store: &Store, links: &Relation) -> Bare {
    let mut order = Vec::new();
    let mut left: BTreeSet<CommitNumber> = store.commits().into_iter().collect();
    while let Some(&ready) = left.iter().find(|&&commit| is_ready(commit, links, &order)) {
        left.remove(&ready);
        order.push(ready);
    }
    match left.first() {
        None => Bare::Order(order),
        Some(&first) => Bare::Ring(ring_behind(first, links, &left)),
    }
}

pub fn is_ready(commit: CommitNumber, links: &Relation, placed: &[CommitNumber]) -> bool {
    let mut before = links.iter().filter(|link| link.1 == commit);
    before.all(|link| placed.contains(&link.0))
}

/// Each of the commits has a link from another of them, or from itself: going back
/// from one of them comes to a ring.
fn ring_behind(
    first: CommitNumber,
    links: &Relation,
    among: &BTreeSet<CommitNumber>,
) -> Vec<CommitNumber> {
    let mut way = vec![first];
    loop {
        let at = way[way.len() - 1];
        let back = links.iter().filter(|link| link.1 == at);
        let back = back.map(|link| link.0).find(|from| among.contains(from));
        let back = back.expect("it is not ready");
        if let Some(place) = way.iter().position(|&commit| commit == back) {
            let mut ring = way.split_off(place);
            ring.reverse();
            return ring;
        }
        way.push(back);
    }
}

/// "it is such a ring and names no commit twice", "in the order of its links".
pub fn is_ring(links: &Relation, ring: &[CommitNumber]) -> bool {
    let next = ring.iter().cycle().skip(1);
    let mut pairs = ring.iter().copied().zip(next.copied());
    !ring.is_empty() && no_two_alike(ring.to_vec()) && pairs.all(|pair| links.contains(&pair))
}

/// Does an order of all commits, "each made from a full view", give "those
/// versions, writers and readers, with sessions in number order"? The commits are
/// run as any commits are; the run gives them numbers of its own, and "commit
/// numbers may be renamed by the order".
pub fn gives(store: &Store, order: &[CommitNumber]) -> bool {
    let mut run = Store::opening(store.lists.len());
    for &commit in order {
        let author = store.author(commit);
        let mut earlier = run.sessions_of(author.client).into_iter();
        if earlier.any(|earlier| earlier >= author.session) {
            return false;
        }
        let u = run.versions();
        run = run.with_commit(author, &store.operations_of(commit), &u);
    }
    let named = |number: CommitNumber| match number.0 {
        0 => OPENING,
        place => order[place - 1],
    };
    let renamed = |version: StoredVersion| StoredVersion {
        value: version.value,
        writer: named(version.writer),
        readers: version.readers.into_iter().map(named).collect(),
    };
    let lists = run.lists.into_iter();
    let lists = lists.map(|list| list.into_iter().map(renamed).collect::<Vec<_>>());
    order.len() == store.authors.len() && lists.eq(store.lists.iter().cloned())
}

/// The first order that gives the image, of all that there are, tried one by one;
/// by their numbers, the first commits counting most.
pub fn first_that_gives(store: &Store) -> Option<Vec<CommitNumber>> {
    let mut order = store.commits();
    loop {
        if gives(store, &order) {
            return Some(order);
        }
        if !to_next(&mut order) {
            return None;
        }
    }
}

/// The next of all orders; none after the last.
fn to_next(order: &mut [CommitNumber]) -> bool {
    let Some(place) = order.windows(2).rposition(|pair| pair[0] < pair[1]) else {
        return false;
    };
    let larger = order.iter().rposition(|&commit| commit > order[place]);
    order.swap(place, larger.expect("the next one is"));
    order[place + 1..].reverse();
    true
}
