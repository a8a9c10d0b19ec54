//! Ways to damage an image, each of which makes it misshapen by one of the words
//! of request E9.

use super::{opened, version, CommitNumber, Random, Store};
use crate::image::image;
use crate::trace::with_true_length;

/// What is changed: the store that is put into bytes, or the bytes.
pub enum Way {
    Store(fn(&mut Random, &mut Store) -> Option<()>),
    Bytes(fn(&mut Random, &Store, &mut Vec<u8>) -> Option<()>),
}

impl Way {
    /// The bytes of a damaged image; nothing where the store has no place for it.
    pub fn done(&self, random: &mut Random, mut store: Store) -> Option<Vec<u8>> {
        match self {
            Way::Store(change) => {
                change(random, &mut store)?;
                Some(image(&store))
            }
            Way::Bytes(change) => {
                let mut bytes = image(&store);
                change(random, &store, &mut bytes)?;
                Some(bytes)
            }
        }
    }
}

pub const DAMAGES: [(&str, Way); 33] = [
    (
        "the length one less",
        Way::Bytes(|_, _, bytes| lie(bytes, 0, -1)),
    ),
    (
        "the length one more",
        Way::Bytes(|_, _, bytes| lie(bytes, 0, 1)),
    ),
    (
        "the length in three bytes",
        Way::Bytes(|random, _, bytes| {
            bytes[3] = random.between(1, 255) as u8;
            Some(())
        }),
    ),
    (
        "under 8 bytes",
        Way::Bytes(|random, _, bytes| {
            let left = random.below(8);
            *bytes = vec![0; left];
            if left > 0 {
                bytes[0] = left as u8;
            }
            Some(())
        }),
    ),
    (
        "a byte behind the last version",
        Way::Bytes(|random, _, bytes| {
            bytes.push(random.byte());
            truly(bytes)
        }),
    ),
    (
        "a version behind the last one",
        Way::Bytes(|_, _, bytes| {
            bytes.extend([0; 16]);
            truly(bytes)
        }),
    ),
    (
        "without the last byte",
        Way::Bytes(|_, _, bytes| {
            bytes.pop();
            truly(bytes)
        }),
    ),
    (
        "without the last key",
        Way::Bytes(|_, store, bytes| {
            bytes.truncate(key_place(store, store.lists.len() - 1));
            truly(bytes)
        }),
    ),
    (
        "no key",
        Way::Store(|_, store| {
            store.lists.clear();
            Some(())
        }),
    ),
    (
        "33 keys",
        Way::Store(|_, store| {
            *store = Store::opening(Store::MAX_KEYS + 1);
            Some(())
        }),
    ),
    (
        "255 keys",
        Way::Store(|_, store| {
            *store = Store::opening(255);
            Some(())
        }),
    ),
    (
        "64 commits",
        Way::Store(|random, store| {
            *store = opened(random, store.lists.len(), Store::MAX_COMMITS + 1);
            Some(())
        }),
    ),
    (
        "255 commits",
        Way::Store(|random, store| {
            *store = opened(random, store.lists.len(), 255);
            Some(())
        }),
    ),
    (
        "a key without versions",
        Way::Store(|random, store| {
            let key = random.below(store.lists.len());
            store.lists[key].clear();
            Some(())
        }),
    ),
    (
        "a version fewer than is counted",
        Way::Bytes(|random, store, bytes| lie(bytes, some_key(random, store), 1)),
    ),
    (
        "a version more than is counted",
        Way::Bytes(|_, store, bytes| lie(bytes, key_place(store, store.lists.len() - 1), -1)),
    ),
    (
        "as many versions as wrap 32 bits",
        Way::Bytes(|random, store, bytes| {
            let place = some_key(random, store);
            bytes[place + 3] |= 1 << random.between(4, 7);
            Some(())
        }),
    ),
    (
        "as many versions as a number can say",
        Way::Bytes(|random, store, bytes| {
            let place = some_key(random, store);
            bytes[place..place + 4].fill(0xFF);
            Some(())
        }),
    ),
    (
        "client above 15",
        Way::Store(|random, store| {
            let commit = some_commit(random, store)?;
            store.authors[commit].client = random.pick(&[16, 17, 31, 128, 255]);
            Some(())
        }),
    ),
    (
        "spare of the head",
        Way::Bytes(|random, _, bytes| dirty(random, bytes, 6, 7)),
    ),
    (
        "spare of a commit",
        Way::Bytes(|random, store, bytes| {
            let commit = some_commit(random, store)?;
            let place = 8 + commit * (8 + 8 * store.lists.len());
            dirty(random, bytes, place + 1, place + 3)
        }),
    ),
    (
        "spare of a version",
        Way::Bytes(|random, store, bytes| {
            let place = some_version(random, store);
            dirty(random, bytes, place + 5, place + 7)
        }),
    ),
    (
        "version 0 has a value",
        Way::Store(|random, store| {
            let key = random.below(store.lists.len());
            store.lists[key][0].value = random.pick(&[1, 256, 1 << 31]);
            Some(())
        }),
    ),
    (
        "version 0 has a writer",
        Way::Store(|random, store| {
            let key = random.below(store.lists.len());
            let mut free = store.commits();
            free.retain(|commit| store.lists[key].iter().all(|one| one.writer != *commit));
            (!free.is_empty()).then_some(())?;
            store.lists[key][0].writer = random.pick(&free);
            Some(())
        }),
    ),
    (
        "version 0 is not the first",
        Way::Store(|random, store| {
            let key = random.below(store.lists.len());
            let list = &mut store.lists[key];
            (list.len() > 1).then_some(())?;
            let other = random.between(1, list.len() - 1);
            list.swap(0, other);
            Some(())
        }),
    ),
    (
        "the opening transaction writes again",
        Way::Store(|random, store| {
            let key = random.below(store.lists.len());
            let version = version(random, CommitNumber(0));
            store.lists[key].push(version);
            Some(())
        }),
    ),
    (
        "writer above the commits",
        Way::Store(|random, store| {
            let key = random.below(store.lists.len());
            let least = store.authors.len() + 1;
            let writer = random.pick(&[least, least + 64, 255]);
            let version = version(random, CommitNumber(writer));
            store.lists[key].push(version);
            Some(())
        }),
    ),
    (
        "the opening transaction reads",
        Way::Store(|random, store| read_by(random, store, 0)),
    ),
    (
        "reader above the commits",
        Way::Store(|random, store| {
            let least = store.authors.len() + 1;
            (least <= 63).then_some(())?;
            let reader = random.pick(&[least, 63]);
            read_by(random, store, reader)
        }),
    ),
    (
        "twice a writer of a key",
        Way::Store(|random, store| {
            let key = random.below(store.lists.len());
            (store.lists[key].len() > 1).then_some(())?;
            let place = random.between(1, store.lists[key].len() - 1);
            let again = version(random, store.lists[key][place].writer);
            let place = random.between(1, store.lists[key].len());
            store.lists[key].insert(place, again);
            Some(())
        }),
    ),
    (
        "twice a reader of a key",
        Way::Store(|random, store| {
            let key = random.below(store.lists.len());
            let list = &mut store.lists[key];
            (list.len() > 1).then_some(())?;
            let from = random.below(list.len());
            let reader = *list[from].readers.first()?;
            let to = (from + random.between(1, list.len() - 1)) % list.len();
            list[to].readers.insert(reader);
            Some(())
        }),
    ),
    (
        "two entries alike",
        Way::Store(|random, store| {
            let first = some_commit(random, store)?;
            let second = some_commit(random, store)?;
            (first != second).then_some(())?;
            store.authors[second] = store.authors[first];
            Some(())
        }),
    ),
    (
        "no bytes",
        Way::Bytes(|_, _, bytes| {
            bytes.clear();
            Some(())
        }),
    ),
];

/// Adds to the first byte of a number, if that has room for it.
fn lie(bytes: &mut [u8], place: usize, by: i8) -> Option<()> {
    bytes[place] = bytes[place].checked_add_signed(by)?;
    Some(())
}

fn truly(bytes: &mut Vec<u8>) -> Option<()> {
    *bytes = with_true_length(std::mem::take(bytes));
    Some(())
}

/// A byte that must be zero is not.
fn dirty(random: &mut Random, bytes: &mut [u8], first: usize, last: usize) -> Option<()> {
    bytes[random.between(first, last)] = random.pick(&[1, 128, 255]);
    Some(())
}

/// The index of a commit, if there is one.
fn some_commit(random: &mut Random, store: &Store) -> Option<usize> {
    (!store.authors.is_empty()).then(|| random.below(store.authors.len()))
}

/// Where the stretch of a key begins.
fn key_place(store: &Store, key: usize) -> usize {
    let commits = store.authors.len() * (8 + 8 * store.lists.len());
    let before = store.lists[..key].iter().map(|list| 4 + 16 * list.len());
    8 + commits + before.sum::<usize>()
}

fn some_key(random: &mut Random, store: &Store) -> usize {
    key_place(store, random.below(store.lists.len()))
}

/// Where a version begins.
fn some_version(random: &mut Random, store: &Store) -> usize {
    let key = random.below(store.lists.len());
    let version = random.below(store.lists[key].len());
    key_place(store, key) + 4 + 16 * version
}

/// One more reader of a key.
fn read_by(random: &mut Random, store: &mut Store, reader: usize) -> Option<()> {
    let key = random.below(store.lists.len());
    let list = &mut store.lists[key];
    let place = random.below(list.len());
    list[place].readers.insert(CommitNumber(reader));
    Some(())
}
