//! Images whose trace is lost: of taken traces, of commits that were made one
//! after the other and then numbered anyhow, with a link turned or with a ring,
//! of any versions, writers and readers; damaged ones; and bytes that are none.

mod damages;

pub use damages::DAMAGES;

use super::taken_case;
use crate::facts::has_ring;
use crate::image::image;
use crate::outcome;
use crate::random::Random;
use crate::store::{Author, CommitNumber, Key, Store, StoredVersion, Version, View, OPENING};
use crate::trace::with_true_length;
use std::collections::{BTreeMap, BTreeSet};
use std::rc::Rc;

/// One generated image.
pub struct ImageCase {
    pub kind: &'static str,
    pub bytes: Vec<u8>,
    pub expected: ImageExpected,
    /// The damage, where it is damaged.
    pub damage: Option<&'static str>,
}

/// What is known of the answer from how an image was made.
#[derive(Clone, Copy, PartialEq, Eq, Debug)]
pub enum ImageExpected {
    Order,
    Ring,
    /// Code 20.
    Misshapen,
    /// An order or a ring.
    Shaped,
    /// Nothing is known.
    Anything,
}

/// Every kind of an image.
pub const IMAGE_KINDS: [&str; 11] = [
    "of a trace",
    "in some order",
    "a link turned",
    "any versions",
    "a long ring",
    "a ring of one",
    "the longest",
    "damaged",
    "cut",
    "flipped bits",
    "random bytes",
];

/// The image of a seed.
pub fn image_case(seed: u64) -> ImageCase {
    let random = &mut Random::seeded(seed);
    if random.below(500) == 0 {
        return longest(random);
    }
    match random.below(100) {
        0..=19 => of_a_trace(random),
        20..=34 => {
            let store = in_some_order(random);
            shaped("in some order", &store, ImageExpected::Order)
        }
        35..=52 => {
            let store = turned(random);
            shaped("a link turned", &store, ImageExpected::Shaped)
        }
        53..=69 => {
            let store = anyhow(random);
            shaped("any versions", &store, ImageExpected::Shaped)
        }
        70..=72 => {
            let length = random.between(3, LONGEST_RING);
            let store = long_ring(random, length);
            shaped("a long ring", &store, ImageExpected::Ring)
        }
        73..=75 => {
            let store = own_read(random);
            shaped("a ring of one", &store, ImageExpected::Ring)
        }
        76..=93 => damaged(random),
        94..=95 => cut(random),
        96..=97 => flipped(random),
        _ => random_bytes(random),
    }
}

fn shaped(kind: &'static str, store: &Store, expected: ImageExpected) -> ImageCase {
    ImageCase {
        kind,
        bytes: image(store),
        expected,
        damage: None,
    }
}

/// Where SER accepts a trace there is no ring in its store; where it does not
/// there may be none either. Commits without operations make none.
fn of_a_trace(random: &mut Random) -> ImageCase {
    let taken = outcome(&taken_case(random).bytes).expect("it is taken");
    let expected = match has_ring(&taken.store) {
        true => ImageExpected::Ring,
        false => ImageExpected::Order,
    };
    shaped("of a trace", &taken.store, expected)
}

/// How many commits: few, so that all their orders can be tried, or many.
fn commits(random: &mut Random) -> usize {
    match random.below(100) {
        0..=1 => 0,
        2..=69 => random.between(1, 5),
        70..=89 => random.between(6, 12),
        90..=97 => random.between(13, 40),
        _ => random.between(41, Store::MAX_COMMITS),
    }
}

fn keys(random: &mut Random) -> usize {
    match random.below(100) {
        0..=79 => random.between(1, 4),
        80..=94 => random.between(5, 16),
        _ => random.between(17, Store::MAX_KEYS),
    }
}

/// Numbers 1 and on, in any order.
fn numbered_anyhow(random: &mut Random, commits: usize) -> Vec<CommitNumber> {
    let mut left: Vec<CommitNumber> = (1..=commits).map(CommitNumber).collect();
    if random.percent(15) {
        return left;
    }
    let mut order = Vec::new();
    while !left.is_empty() {
        order.push(left.swap_remove(random.below(left.len())));
    }
    order
}

/// Commits that were made one after the other, each from all that was there; the
/// stored views are anything.
fn in_some_order(random: &mut Random) -> Store {
    let (commits, keys) = (commits(random), keys(random));
    let order = numbered_anyhow(random, commits);
    let mut store = opened(random, keys, commits);
    let [touched, written] = [random.pick(&[0, 20, 50, 90]), random.pick(&[30, 60, 90])];
    let empty = random.pick(&[0, 10, 40]);
    let clients = random.between(1, Store::MAX_CLIENTS);
    let mut numbers: BTreeMap<usize, u32> = BTreeMap::new();
    for &commit in &order {
        let client = random.below(clients);
        let number = numbers
            .entry(client)
            .or_insert_with(|| random.below(3) as u32);
        store.authors[commit.0 - 1] = Author {
            client,
            session: *number,
        };
        *number += random.between(1, 3) as u32;
        if random.percent(empty) {
            continue;
        }
        let always = random.below(keys);
        for key in 0..keys {
            if key == always || random.percent(touched) {
                let writes = random.percent(written);
                let list = &mut store.lists[key];
                if !writes || random.percent(50) {
                    let newest = list.last_mut().expect("there is version 0");
                    newest.readers.insert(commit);
                }
                if writes {
                    list.push(version(random, commit));
                }
            }
        }
    }
    store
}

/// As many commits as there may be, each of them a writer of as many keys; now and
/// then the versions of one of them have changed places.
fn longest(random: &mut Random) -> ImageCase {
    let commits = Store::MAX_COMMITS;
    let order = numbered_anyhow(random, commits);
    let mut store = opened(random, Store::MAX_KEYS, commits);
    for (place, &commit) in order.iter().enumerate() {
        store.authors[commit.0 - 1] = Author {
            client: random.below(Store::MAX_CLIENTS),
            session: place as u32,
        };
        for list in &mut store.lists {
            if random.percent(50) {
                let newest = list.last_mut().expect("there is version 0");
                newest.readers.insert(commit);
            }
            list.push(version(random, commit));
        }
    }
    if random.percent(50) {
        return shaped("the longest", &store, ImageExpected::Order);
    }
    versions_swapped(random, &mut store);
    shaped("the longest", &store, ImageExpected::Ring)
}

/// The opening versions, so many commits of client 0, and any views of theirs.
fn opened(random: &mut Random, keys: usize, commits: usize) -> Store {
    let mut store = Store::opening(keys);
    for number in 0..commits {
        store.authors.push(Author {
            client: 0,
            session: number as u32,
        });
        store.views.push(Rc::new(any_view(random, keys)));
    }
    store
}

/// A set of versions that need not be a view of anything.
fn any_view(random: &mut Random, keys: usize) -> View {
    let mut view = View::new();
    let most = random.pick(&[1, 3, 64]);
    for key in 0..keys {
        for _ in 0..random.below(3) {
            view.insert((Key(key), Version(random.below(most))));
        }
    }
    view
}

fn version(random: &mut Random, writer: CommitNumber) -> StoredVersion {
    let most = random.pick(&[1, 2, 1 << 32]);
    StoredVersion {
        value: random.below(most) as u32,
        writer,
        readers: BTreeSet::new(),
    }
}

/// An image that has an order, changed in one place: two numbers of a client, two
/// versions of a key, or the version that a commit read.
fn turned(random: &mut Random) -> Store {
    loop {
        let mut store = in_some_order(random);
        let changed = match random.below(3) {
            0 => numbers_swapped(random, &mut store),
            1 => versions_swapped(random, &mut store),
            _ => reader_moved(random, &mut store),
        };
        if changed.is_some() {
            return store;
        }
    }
}

fn numbers_swapped(random: &mut Random, store: &mut Store) -> Option<()> {
    let first = random.below(store.authors.len().max(1));
    let client = store.authors.get(first)?.client;
    let others: Vec<usize> = (0..store.authors.len())
        .filter(|&other| other != first && store.authors[other].client == client)
        .collect();
    if others.is_empty() {
        return None;
    }
    let second = random.pick(&others);
    store.authors.swap(first, second);
    Some(())
}

fn versions_swapped(random: &mut Random, store: &mut Store) -> Option<()> {
    let key = random.below(store.lists.len());
    let list = &mut store.lists[key];
    if list.len() < 3 {
        return None;
    }
    let first = random.between(1, list.len() - 2);
    list.swap(first, first + 1);
    Some(())
}

fn reader_moved(random: &mut Random, store: &mut Store) -> Option<()> {
    let key = random.below(store.lists.len());
    let list = &mut store.lists[key];
    let read: Vec<usize> = (0..list.len())
        .filter(|&version| !list[version].readers.is_empty())
        .collect();
    if read.is_empty() || list.len() < 2 {
        return None;
    }
    let from = random.pick(&read);
    let readers: Vec<CommitNumber> = list[from].readers.iter().copied().collect();
    let reader = random.pick(&readers);
    let to = (from + random.between(1, list.len() - 1)) % list.len();
    list[from].readers.remove(&reader);
    list[to].readers.insert(reader);
    Some(())
}

/// Any writers and readers, each once for a key.
fn anyhow(random: &mut Random) -> Store {
    let (commits, keys) = (commits(random), keys(random));
    let mut store = opened(random, keys, commits);
    let clients = random.between(1, Store::MAX_CLIENTS);
    let numbers = numbered_anyhow(random, commits);
    for (author, number) in store.authors.iter_mut().zip(numbers) {
        author.client = random.below(clients);
        author.session = number.0 as u32 * random.pick(&[1, 1, 1_000_000]);
    }
    let written = random.pick(&[10, 30, 60]);
    let read = random.pick(&[10, 30, 60]);
    let own = random.percent(20);
    for key in 0..keys {
        for writer in numbered_anyhow(random, commits) {
            if random.percent(written) {
                let version = version(random, writer);
                store.lists[key].push(version);
            }
        }
        for reader in store.commits() {
            if random.percent(read) {
                let list = &mut store.lists[key];
                let place = random.below(list.len());
                if own || list[place].writer != reader {
                    list[place].readers.insert(reader);
                }
            }
        }
    }
    store
}

/// The most commits of `long_ring`: two of each client.
pub const LONGEST_RING: usize = 2 * Store::MAX_CLIENTS;

/// A ring of so many commits, three or more, and no other ring: a key has two of
/// its links, RW to a writer and WR from it. Two commits of it that follow on each
/// other are of one client, so that SO adds no link; from the ring it leads on to
/// the other commits, and none leads back.
pub fn long_ring(random: &mut Random, length: usize) -> Store {
    let keys = random.between(length.div_ceil(2), Store::MAX_KEYS);
    let commits = random.between(length, Store::MAX_COMMITS);
    let mut store = opened(random, keys, commits);
    let order = numbered_anyhow(random, commits);
    for (place, commit) in order.iter().enumerate() {
        store.authors[commit.0 - 1] = Author {
            client: place / 2 % Store::MAX_CLIENTS,
            session: place as u32,
        };
    }
    let ring = |place: usize| order[place % length];
    for from in (0..length).step_by(2) {
        let list = &mut store.lists[from / 2];
        list[0].readers.insert(ring(from));
        let mut written = version(random, ring(from + 1));
        if from + 1 < length {
            written.readers.insert(ring(from + 2));
        }
        list.push(written);
    }
    store
}

/// A commit that read its own version, among others.
fn own_read(random: &mut Random) -> Store {
    loop {
        let mut store = in_some_order(random);
        let key = random.below(store.lists.len());
        let list = &mut store.lists[key];
        let place = list.len() - 1;
        let writer = list[place].writer;
        if writer == OPENING {
            continue;
        }
        for version in list.iter_mut() {
            version.readers.remove(&writer);
        }
        list[place].readers.insert(writer);
        return store;
    }
}

/// The store of some image that is not damaged.
fn some_store(random: &mut Random) -> Store {
    match random.below(3) {
        0 => in_some_order(random),
        1 => turned(random),
        _ => anyhow(random),
    }
}

fn damaged(random: &mut Random) -> ImageCase {
    let (name, way) = &DAMAGES[random.below(DAMAGES.len())];
    loop {
        let store = some_store(random);
        if let Some(bytes) = way.done(random, store) {
            return ImageCase {
                kind: "damaged",
                bytes,
                expected: ImageExpected::Misshapen,
                damage: Some(name),
            };
        }
    }
}

/// An image that ends too soon, with its own length or with that of what is left.
fn cut(random: &mut Random) -> ImageCase {
    let mut bytes = image(&some_store(random));
    bytes.truncate(random.below(bytes.len()));
    if bytes.len() >= 4 && random.percent(50) {
        bytes = with_true_length(bytes);
    }
    ImageCase {
        kind: "cut",
        bytes,
        expected: ImageExpected::Misshapen,
        damage: None,
    }
}

fn flipped(random: &mut Random) -> ImageCase {
    let mut bytes = image(&some_store(random));
    for _ in 0..random.between(1, 3) {
        let place = random.below(bytes.len());
        bytes[place] ^= 1 << random.below(8);
    }
    ImageCase {
        kind: "flipped bits",
        bytes,
        expected: ImageExpected::Anything,
        damage: None,
    }
}

/// Any bytes, or bytes of the sizes of an image, most of them small.
fn random_bytes(random: &mut Random) -> ImageCase {
    let mut bytes: Vec<u8>;
    if random.percent(30) {
        let length = random.below(200);
        bytes = (0..length).map(|_| random.byte()).collect();
    } else {
        let [keys, commits] = [random.between(1, 3), random.below(4)];
        bytes = vec![0, 0, 0, 0, keys as u8, commits as u8, 0, 0];
        let small = |random: &mut Random| match random.percent(80) {
            true => 0,
            false => random.below(8) as u8,
        };
        bytes.extend((0..commits * (8 + 8 * keys)).map(|_| small(random)));
        for _ in 0..keys {
            let versions = random.between(1, 3);
            bytes.extend((versions as u32).to_le_bytes());
            bytes.extend((0..16 * versions).map(|_| small(random)));
        }
        bytes = with_true_length(bytes);
    }
    ImageCase {
        kind: "random bytes",
        bytes,
        expected: ImageExpected::Anything,
        damage: None,
    }
}
