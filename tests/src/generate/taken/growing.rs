//! Traces that grow where they are written short: every shift changes every key,
//! and has the set besides.

use super::{Builder, Built};
use crate::editions::{short_commit_len, short_shift_len};
use crate::random::Random;
use crate::store::Store;
use crate::trace::OperationKind;

/// The fewest keys over which commits and shifts fill a file.
const FEWEST_KEYS: usize = 7;

/// A trace whose short file has exactly so many bytes, an even number close to
/// the limit. One client commits writes of all keys, then each of the others
/// shifts to everything, and so on; reads fill the rest.
pub fn growing(random: &mut Random, bytes: usize) -> Built {
    let keys = random.between(FEWEST_KEYS, Store::MAX_KEYS);
    let (records, mut reads) = filling(keys, bytes);
    let mut builder = Builder::new(keys, Store::MAX_CLIENTS, Store::MAX_COMMITS);
    let mut clients: Vec<usize> = Vec::new();
    for number in 0..records {
        if number % Store::MAX_CLIENTS != 0 {
            let client = clients.pop().expect("as many as the shifts of a round");
            builder.shift(client, builder.unseen(client));
            continue;
        }
        clients = (0..Store::MAX_CLIENTS).collect();
        let client = clients.swap_remove(random.below(clients.len()));
        let mut accesses = Vec::new();
        for key in builder.state.store.keys() {
            if reads > 0 {
                reads -= 1;
                accesses.push((OperationKind::Read, key));
            }
            accesses.push((OperationKind::Write, key));
        }
        let session = builder.state.store.sessions_of(client).len() as u32;
        let operations = builder.with_values(client, &accesses, || random.below(3) as u32);
        let mut after = builder.seen(client);
        after.insert(builder.next_commit());
        builder.commit(client, session, operations, &after);
    }
    builder.built()
}

/// As many records as there is room for, with as many reads as fill the rest.
fn filling(keys: usize, bytes: usize) -> (usize, usize) {
    let length = |record: usize| match record % Store::MAX_CLIENTS {
        0 => short_commit_len(keys, keys),
        _ => short_shift_len(keys),
    };
    let mut room = bytes - Store::MIN_BYTES;
    let mut found = None;
    for records in 0.. {
        let commits = records / Store::MAX_CLIENTS + 1;
        if commits > Store::MAX_COMMITS || room < length(records) {
            break;
        }
        room -= length(records);
        if room.is_multiple_of(8) && room / 8 <= commits * keys {
            found = Some((records + 1, room / 8));
        }
    }
    found.expect("records and reads that fill a file")
}
