//! Section "The image", with the views of request E8: the store as bytes, and
//! read back from them.

use crate::store::{Author, CommitNumber, Key, Store, StoredVersion, Version, View};
use crate::trace::{masks_bytes, with_true_length};
use std::rc::Rc;

/// No image is longer: as many commits as there may be, each of them a writer
/// of as many keys.
pub const LONGEST: usize = {
    let versions = Store::MAX_COMMITS + 1;
    let commit = 8 + 8 * Store::MAX_KEYS;
    8 + commit * Store::MAX_COMMITS + Store::MAX_KEYS * (4 + 16 * versions)
};

/// The image of a store, whole.
pub fn image(store: &Store) -> Vec<u8> {
    let mut bytes = vec![0; 4];
    let keys = store.lists.len();
    bytes.extend([keys as u8, store.authors.len() as u8, 0, 0]);
    for (author, view) in store.authors.iter().zip(&store.views) {
        bytes.extend(author_bytes(author));
        bytes.extend(masks_bytes(view, keys));
    }
    for list in &store.lists {
        bytes.extend(list_bytes(list));
    }
    with_true_length(bytes)
}

/// The 8 bytes of a commit.
pub fn author_bytes(author: &Author) -> Vec<u8> {
    let mut bytes = vec![author.client as u8, 0, 0, 0];
    bytes.extend(author.session.to_le_bytes());
    bytes
}

/// The stretch of a key.
pub fn list_bytes(list: &[StoredVersion]) -> Vec<u8> {
    let mut bytes = (list.len() as u32).to_le_bytes().to_vec();
    for version in list {
        bytes.extend(version.value.to_le_bytes());
        bytes.extend([version.writer.0 as u8, 0, 0, 0]);
        let readers: u64 = version.readers.iter().map(|reader| 1u64 << reader.0).sum();
        bytes.extend(readers.to_le_bytes());
    }
    bytes
}

/// How long an image was before request E8, when it had no views.
pub fn former_len(image: &[u8]) -> usize {
    let [keys, commits] = [image[4], image[5]].map(usize::from);
    image.len() - 8 * keys * commits
}

/// The store whose image this is, told from the bytes alone; nothing where they
/// end too soon or go on after the last key.
pub fn read_back(image: &[u8]) -> Option<Store> {
    let mut bytes = Bytes(image);
    let [_, keys_and_commits] = [bytes.number(4)?, bytes.number(4)?];
    let [keys, commits] = [keys_and_commits & 0xFF, keys_and_commits >> 8 & 0xFF];
    let mut store = Store::opening(0);
    for _ in 0..commits {
        store.authors.push(Author {
            client: bytes.number(4)? as usize,
            session: bytes.number(4)? as u32,
        });
        let mut view = View::new();
        for key in 0..keys as usize {
            let mask = bytes.number(8)?;
            view.extend(members(mask).map(|version| (Key(key), Version(version))));
        }
        store.views.push(Rc::new(view));
    }
    for _ in 0..keys {
        let mut list = Vec::new();
        for _ in 0..bytes.number(4)? {
            list.push(StoredVersion {
                value: bytes.number(4)? as u32,
                writer: CommitNumber(bytes.number(4)? as usize),
                readers: members(bytes.number(8)?).map(CommitNumber).collect(),
            });
        }
        store.lists.push(list);
    }
    bytes.0.is_empty().then_some(store)
}

/// What is left to read.
struct Bytes<'a>(&'a [u8]);

impl Bytes<'_> {
    /// The next number, of so many bytes.
    fn number(&mut self, length: usize) -> Option<u64> {
        let (bytes, rest) = self.0.split_at_checked(length)?;
        self.0 = rest;
        let mut number = [0; 8];
        number[..length].copy_from_slice(bytes);
        Some(u64::from_le_bytes(number))
    }
}

/// The numbers of the bits that are set.
pub fn members(mask: u64) -> impl Iterator<Item = usize> {
    (0..64).filter(move |bit| mask >> bit & 1 == 1)
}

/// The store as it was before a commit, told from a later one: the versions by
/// earlier commits, of their readers those that are earlier, and what is kept of
/// the earlier commits.
pub fn before(store: &Store, commit: CommitNumber) -> Store {
    let earlier = |other: &CommitNumber| *other < commit;
    let list = |list: &Vec<StoredVersion>| {
        let versions = list.iter().filter(|version| earlier(&version.writer));
        let with_earlier = |version: &StoredVersion| StoredVersion {
            readers: version.readers.iter().copied().filter(earlier).collect(),
            ..version.clone()
        };
        versions.map(with_earlier).collect()
    };
    Store {
        lists: store.lists.iter().map(list).collect(),
        authors: store.authors[..commit.0 - 1].to_vec(),
        views: store.views[..commit.0 - 1].to_vec(),
    }
}
