//! Sections "The trace file" and "Bench codes", codes 1 to 8, with the kinds and
//! the codes that request E6 adds: bytes to a trace, or the first fault of form.
//! Nothing here looks at the store.

use crate::editions::{
    masks_of_commit, meaning, short_commit_len, short_shift_len, Does, Entries, Entry, Listed,
};
use crate::store::{Key, Store, Version};
use crate::trace::{commit_len, shift_len, Operation, OperationKind, Trace};
use crate::Refusal;
use std::collections::BTreeSet;

/// Reads a whole file.
pub fn read(file: &[u8]) -> Result<Trace, Refusal> {
    read_within(file, Store::MAX_KEYS, Store::MAX_CLIENTS)
}

/// The same with the limits of code 2 left open.
pub fn read_within(file: &[u8], most_keys: usize, most_clients: usize) -> Result<Trace, Refusal> {
    let form = Form {
        most_keys,
        most_clients,
        ..Form::default()
    };
    form.entries(file).map(|entries| meaning(&entries))
}

/// What the form of a file is read by: the limits of code 2, and how the masks
/// of kinds 5 and 6 are counted, all left open.
#[derive(Clone, Copy)]
pub struct Form {
    pub most_keys: usize,
    pub most_clients: usize,
    /// The masks of kind 5, by the keys of its operations.
    pub masks_of_commit: fn(&[u8]) -> usize,
    /// The masks of kind 6, by its set and the number of keys.
    pub masks_of_shift: fn(u32, usize) -> usize,
    /// The sets of kind 6 that are taken, by the number of keys.
    pub takes_set: fn(u32, usize) -> bool,
}

impl Default for Form {
    fn default() -> Form {
        Form {
            most_keys: Store::MAX_KEYS,
            most_clients: Store::MAX_CLIENTS,
            masks_of_commit,
            masks_of_shift: |set, _| set.count_ones() as usize,
            takes_set: |set, keys| set_bits(set).iter().all(|key| key.0 < keys),
        }
    }
}

impl Form {
    /// What a whole file says. The faults come in the order of the paper: 1 and
    /// 2, then record after record, then 5.
    pub fn entries(&self, file: &[u8]) -> Result<Entries, Refusal> {
        if file.len() < Store::MIN_BYTES || file.len() > Store::MAX_BYTES {
            return Err(Refusal::at(1, 0));
        }
        if u32_at(file, 0) as usize != file.len() {
            return Err(Refusal::at(1, 0));
        }

        let (length, kind) = (u16_at(file, 4), u16_at(file, 6));
        let (keys, clients) = (file[8] as usize, file[9] as usize);
        let count = u16_at(file, 10) as usize;
        if length != 8 || kind != 1 {
            return Err(Refusal::at(2, 0));
        }
        if !(1..=self.most_keys).contains(&keys) || !(1..=self.most_clients).contains(&clients) {
            return Err(Refusal::at(2, 0));
        }

        let mut entries = Vec::new();
        let mut commits = 0;
        let mut place = Store::MIN_BYTES;
        for number in 1..=count {
            let (entry, length) = self.record(&file[place..], number, keys, clients)?;
            if let Does::Commit { .. } = entry.does {
                commits += 1;
                if commits > Store::MAX_COMMITS {
                    return Err(Refusal::at(8, number));
                }
            }
            entries.push(entry);
            place += length;
        }
        if place < file.len() {
            return Err(Refusal::at(5, count));
        }
        Ok(Entries {
            keys,
            clients,
            entries,
        })
    }

    /// Reads the record at the start of what is left of the file, and its
    /// length.
    fn record(
        &self,
        left: &[u8],
        number: usize,
        keys: usize,
        clients: usize,
    ) -> Result<(Entry, usize), Refusal> {
        let length = self.length_of(left, keys);
        let length = length.map_err(|code| Refusal::at(code, number))?;
        let client = left[4] as usize;
        if client >= clients {
            return Err(Refusal::at(6, number));
        }
        let kind = u16_at(left, 2);
        let entry = if kind == 2 || kind == 6 {
            let set = if kind == 6 { u32_at(left, 6) } else { 0 };
            if left[5] != 0 || !(self.takes_set)(set, keys) {
                return Err(Refusal::at(7, number));
            }
            Entry {
                client,
                does: Does::Shift,
                listed: match kind {
                    2 => masks_at(left, 6, &every(keys)),
                    _ => masks_at(left, 10, &set_bits(set)),
                },
            }
        } else {
            let operations = operations_of(left, number, keys)?;
            let masks = 10 + 8 * operations.len();
            Entry {
                client,
                listed: match kind {
                    3 => masks_at(left, masks, &every(keys)),
                    _ => masks_at(left, masks, &in_turn(&operations)),
                },
                does: Does::Commit {
                    session: u32_at(left, 6),
                    operations,
                },
            }
        };
        Ok((entry, length))
    }

    /// The length of a record, if it is the one that is due for its kind and the
    /// file has it. Code 3, first part; then code 4; then the rest of code 3.
    fn length_of(&self, left: &[u8], keys: usize) -> Result<usize, u8> {
        let within = |end: usize| if end <= left.len() { Ok(()) } else { Err(3) };
        within(4)?;
        let due = match u16_at(left, 2) {
            2 => shift_len(keys),
            3 => {
                within(6)?;
                commit_len(left[5] as usize, keys)
            }
            5 => {
                within(6)?;
                let mut keys = Vec::new();
                for index in 0..left[5] as usize {
                    let key = 10 + 8 * index + 1;
                    within(key + 1)?;
                    keys.push(left[key]);
                }
                short_commit_len(keys.len(), (self.masks_of_commit)(&keys))
            }
            6 => {
                within(10)?;
                short_shift_len((self.masks_of_shift)(u32_at(left, 6), keys))
            }
            _ => return Err(4),
        };
        if u16_at(left, 0) as usize != due || due > left.len() {
            return Err(3);
        }
        Ok(due)
    }
}

/// The keys of a set, bit k for key k, rising.
fn set_bits(set: u32) -> Vec<Key> {
    let bits = (0..32).filter(|bit| set >> bit & 1 == 1);
    bits.map(Key).collect()
}

fn every(keys: usize) -> Vec<Key> {
    (0..keys).map(Key).collect()
}

/// The keys of operations that are in order, rising.
fn in_turn(operations: &[Operation]) -> Vec<Key> {
    let mut keys: Vec<Key> = operations.iter().map(|operation| operation.key).collect();
    keys.dedup();
    keys
}

/// The operations of a commit, each good and all of them in order.
fn operations_of(left: &[u8], number: usize, keys: usize) -> Result<Vec<Operation>, Refusal> {
    let mut operations = Vec::new();
    for index in 0..left[5] as usize {
        operations.push(operation_at(left, 10 + 8 * index, number, keys)?);
    }
    for pair in operations.windows(2) {
        if (pair[0].key, pair[0].kind) >= (pair[1].key, pair[1].kind) {
            return Err(Refusal::at(7, number));
        }
    }
    Ok(operations)
}

fn operation_at(bytes: &[u8], at: usize, number: usize, keys: usize) -> Result<Operation, Refusal> {
    let kind = match bytes[at] {
        0 => OperationKind::Read,
        1 => OperationKind::Write,
        _ => return Err(Refusal::at(7, number)),
    };
    let key = bytes[at + 1] as usize;
    if key >= keys || u16_at(bytes, at + 2) != 0 {
        return Err(Refusal::at(7, number));
    }
    Ok(Operation {
        kind,
        key: Key(key),
        value: u32_at(bytes, at + 4),
    })
}

/// One mask after another from a place on, one for each of these keys.
fn masks_at(bytes: &[u8], at: usize, keys: &[Key]) -> Listed {
    let masks = keys.iter().enumerate().map(|(index, &key)| {
        let mask = u64_at(bytes, at + 8 * index);
        let held = (0..64).filter(|version| mask >> version & 1 == 1);
        (key, held.map(Version).collect::<BTreeSet<Version>>())
    });
    masks.collect()
}

pub fn u16_at(bytes: &[u8], at: usize) -> u16 {
    u16::from_le_bytes([bytes[at], bytes[at + 1]])
}

fn u32_at(bytes: &[u8], at: usize) -> u32 {
    u32::from_le_bytes([bytes[at], bytes[at + 1], bytes[at + 2], bytes[at + 3]])
}

fn u64_at(bytes: &[u8], at: usize) -> u64 {
    u32_at(bytes, at) as u64 + ((u32_at(bytes, at + 4) as u64) << 32)
}
