//! Files with faults planted on purpose: one of the codes 1 to 14 at some
//! record of a taken trace, or several codes that compete in one file.

use super::edges::{with_bit_above, with_due_masks};
use super::editions::mixed_records;
use super::taken::{build, Built, Numbering, State, Style};
use super::Expected;
use crate::form::u16_at;
use crate::random::Random;
use crate::store::{newest, writers_in, Author, Key, Store, Version, View, OPENING};
use crate::trace::{commit_len, header_bytes, Operation, OperationKind, Record, Trace};
use crate::Refusal;
use std::collections::BTreeSet;

/// A file with one fault, and the refusal that it must get.
pub fn planted(random: &mut Random, code: u8) -> (Vec<u8>, Refusal) {
    let (bytes, refusals) = plant(random, &[code]);
    (bytes, refusals[0])
}

/// A file with two or three faults, half of the time in one record if they can
/// be; what each would get alone; and what is known of the answer.
pub fn competing(random: &mut Random) -> (Vec<u8>, Vec<Refusal>, Expected) {
    let mut codes = BTreeSet::new();
    let count = if random.percent(75) { 2 } else { 3 };
    let low = if random.percent(40) { 9 } else { 1 };
    while codes.len() < count {
        codes.insert(random.between(low, 14) as u8);
    }
    let highest_first: Vec<u8> = codes.iter().rev().copied().collect();
    let (bytes, refusals) = plant(random, &highest_first);
    let first = *refusals
        .iter()
        .min_by_key(|refusal| turn(refusal))
        .expect("some were planted");
    // Codes 3 to 5 can change which bytes are taken for a record.
    let shifting = codes.iter().filter(|code| (3..=5).contains(*code)).count();
    if first.code > 2 && shifting > 1 {
        return (bytes, refusals, Expected::Anything);
    }
    (bytes, refusals, Expected::Refused(first))
}

/// When a fault's turn comes: 1; 2; form by record; 5 after the last counted
/// record; meaning by record; and the order of the codes within a record.
fn turn(refusal: &Refusal) -> (usize, usize, usize) {
    let orders: [&[u8]; 4] = [&[1], &[2], &[4, 3, 6, 7, 8, 5], &[9, 13, 10, 11, 12, 14]];
    for (phase, order) in orders.iter().enumerate() {
        if let Some(place) = order.iter().position(|code| *code == refusal.code) {
            return (phase, refusal.record, place);
        }
    }
    unreachable!("codes 1 to 14 are planted")
}

/// Plants all of the codes, highest first, trying one trace after another
/// until each code has a place. Answers what each would get alone.
fn plant(random: &mut Random, codes: &[u8]) -> (Vec<u8>, Vec<Refusal>) {
    for _ in 0..100_000 {
        let mut style = Style::random(random);
        if codes.contains(&8) {
            style = Style {
                commits: Store::MAX_COMMITS,
                keeping: vec![],
                ..style
            };
            style.used = style.used.into_iter().take(3).collect();
            style.numbering = Numbering::WithGaps;
        } else if style.commits > 16 {
            continue;
        }
        let built = build(random, &style);
        if let Some(found) = plant_in(random, &built, codes) {
            return found;
        }
    }
    panic!("no trace found with a place for {codes:?}");
}

fn plant_in(random: &mut Random, built: &Built, codes: &[u8]) -> Option<(Vec<u8>, Vec<Refusal>)> {
    let mut refusals: Vec<Refusal> = Vec::new();
    let mut trace = built.trace.clone();
    for &code in codes.iter().filter(|code| **code >= 8) {
        let near = refusals.last().map(|refusal| refusal.record);
        refusals.push(plant_meaning(random, built, &mut trace, code, near)?);
    }
    let mut raw = Raw::of(random, &trace);
    for &code in codes.iter().filter(|code| **code < 8) {
        let near = refusals.last().map(|refusal| refusal.record);
        refusals.push(plant_form(random, &mut raw, code, near)?);
    }
    Some((raw.file(), refusals))
}

/// One of the candidates, half of the time the one near to the last fault.
fn choose(random: &mut Random, candidates: &[usize], near: Option<usize>) -> Option<usize> {
    if let Some(near) = near {
        if candidates.contains(&near) && random.percent(50) {
            return Some(near);
        }
    }
    if candidates.is_empty() {
        return None;
    }
    Some(random.pick(candidates))
}

// Faults of meaning, and the 64th commit: changes to the trace as data.

/// Plants one of the codes 8 to 14. `built` tells what each record meets.
fn plant_meaning(
    random: &mut Random,
    built: &Built,
    trace: &mut Trace,
    code: u8,
    near: Option<usize>,
) -> Option<Refusal> {
    if code == 8 {
        return plant_64th_commit(random, trace);
    }
    let mut candidates = Vec::new();
    for number in 1..=trace.records.len() {
        let is_commit = matches!(trace.records[number - 1], Record::Commit { .. });
        let fits = match code {
            9 | 13 | 14 => is_commit,
            12 => !is_commit,
            _ => true,
        };
        if fits {
            candidates.push(number);
        }
    }
    let record = choose(random, &candidates, near)?;
    let state = &built.states[record - 1];
    let (key, version) = match &mut trace.records[record - 1] {
        Record::Shift { client, view } => {
            plant_in_view(random, &state.store, &state.views[*client], view, code)?
        }
        commit => plant_in_commit(random, state, commit, code)?,
    };
    let writer = match code {
        13 => state.store.get(key, version).writer,
        _ => OPENING,
    };
    Some(Refusal {
        code,
        record,
        key: key.0,
        version: version.0,
        writer: writer.0,
    })
}

/// Plants one of the codes 10 to 12 in a view that comes after an old one;
/// answers the key and the version that it names.
fn plant_in_view(
    random: &mut Random,
    store: &Store,
    old: &View,
    view: &mut View,
    code: u8,
) -> Option<(Key, Version)> {
    match code {
        10 => Some((spoil_masks(random, store, view)?, Version(0))),
        11 => split_writers(random, store, view),
        12 => lose_writers(random, store, old, view),
        _ => None,
    }
}

/// Plants one of the codes 9 to 14, but for 12, in a commit.
fn plant_in_commit(
    random: &mut Random,
    state: &State,
    commit: &mut Record,
    code: u8,
) -> Option<(Key, Version)> {
    let Record::Commit {
        client,
        session,
        operations,
        after,
    } = commit
    else {
        return None;
    };
    let u = &state.views[*client];
    match code {
        9 => {
            let largest = *state.store.sessions_of(*client).last()?;
            *session = random.pick(&[largest, largest / 2, 0]);
            Some((Key(0), Version(0)))
        }
        13 => {
            let key = spoil_reads(random, operations)?;
            Some((key, newest(u, key)))
        }
        14 => {
            let touched = operations.iter().map(|operation| operation.key).collect();
            let key = change_elsewhere(random, &state.store, &touched, after)?;
            Some((key, Version(0)))
        }
        _ => {
            let author = Author {
                client: *client,
                session: *session,
            };
            let store_after = state.store.with_commit(author, operations, u);
            plant_in_view(random, &store_after, u, after, code)
        }
    }
}

/// Gives some reads another value; answers the least of their keys.
fn spoil_reads(random: &mut Random, operations: &mut [Operation]) -> Option<Key> {
    let reads: Vec<usize> = (0..operations.len())
        .filter(|&index| operations[index].kind == OperationKind::Read)
        .collect();
    let wrong = some_of(random, reads);
    for &index in &wrong {
        let change = random.pick(&[1, 2, 256, 1 << 31, u32::MAX]);
        operations[index].value = operations[index].value.wrapping_add(change);
    }
    wrong.iter().map(|&index| operations[index].key).min()
}

/// Takes some writers out of a view that the old one holds; answers the least
/// of their versions.
fn lose_writers(
    random: &mut Random,
    store: &Store,
    old: &View,
    view: &mut View,
) -> Option<(Key, Version)> {
    let mut writers = writers_in(store, old);
    writers.remove(&OPENING);
    let mut lost = View::new();
    for writer in some_of(random, writers.into_iter().collect()) {
        lost.extend(store.written_by(writer));
    }
    view.retain(|held| !lost.contains(held));
    lost.first().copied()
}

/// Copies a commit of a trace that has 63.
fn plant_64th_commit(random: &mut Random, trace: &mut Trace) -> Option<Refusal> {
    let commits = |trace: &Trace| -> Vec<usize> {
        (0..trace.records.len())
            .filter(|&index| matches!(trace.records[index], Record::Commit { .. }))
            .collect()
    };
    if commits(trace).len() != Store::MAX_COMMITS {
        return None;
    }
    let copied = random.pick(&commits(trace));
    let place = if random.percent(50) {
        trace.records.len()
    } else {
        random.between(0, trace.records.len())
    };
    trace.records.insert(place, trace.records[copied].clone());
    Some(Refusal::at(8, commits(trace)[Store::MAX_COMMITS] + 1))
}

/// Mostly one of the candidates, now and then up to three; none if there are
/// none.
fn some_of<T>(random: &mut Random, mut candidates: Vec<T>) -> Vec<T> {
    let count = random.pick(&[1, 1, 1, 2, 3]);
    let mut chosen = Vec::new();
    while chosen.len() < count && !candidates.is_empty() {
        chosen.push(candidates.swap_remove(random.below(candidates.len())));
    }
    chosen
}

/// Takes version 0 out of a mask, or puts a version in that does not exist;
/// answers the least key where it did.
fn spoil_masks(random: &mut Random, store: &Store, view: &mut View) -> Option<Key> {
    let keys = some_of(random, store.keys());
    for &key in &keys {
        let count = store.lists[key.0].len();
        if random.percent(40) || count > 63 {
            view.remove(&(key, Version(0)));
        } else {
            let some = random.between(count, 63);
            let version = random.pick(&[count, 63, some]);
            view.insert((key, Version(version)));
        }
    }
    keys.into_iter().min()
}

/// Takes out one version of a writer that the view holds, or puts in one of a
/// writer that it does not hold; answers the least version missing then.
fn split_writers(random: &mut Random, store: &Store, view: &mut View) -> Option<(Key, Version)> {
    let mut candidates = store.commits();
    candidates.retain(|&writer| store.written_by(writer).len() > 1);
    let mut split = View::new();
    for writer in some_of(random, candidates) {
        let written = store.written_by(writer);
        let chosen = random.pick(&Vec::from_iter(written.clone()));
        if !view.remove(&chosen) {
            view.insert(chosen);
        }
        split.extend(written);
    }
    split.difference(view).next().copied()
}

/// Takes a writer out of a view after, or puts one in, that has a version at a
/// key without operation; answers the least such key.
fn change_elsewhere(
    random: &mut Random,
    store: &Store,
    touched: &BTreeSet<Key>,
    after: &mut View,
) -> Option<Key> {
    let elsewhere = |writer| -> Option<Key> {
        let written = store.written_by(writer);
        written
            .into_iter()
            .map(|(key, _)| key)
            .find(|key| !touched.contains(key))
    };
    let mut candidates = store.commits();
    candidates.retain(|&writer| elsewhere(writer).is_some());
    let chosen = some_of(random, candidates);
    for &writer in &chosen {
        for version in store.written_by(writer) {
            if !after.remove(&version) {
                after.insert(version);
            }
        }
    }
    chosen.into_iter().filter_map(elsewhere).min()
}

// Faults of form: changes to the bytes.

/// A file in pieces.
struct Raw {
    keys: usize,
    clients: usize,
    /// Stands for the true length if it is there.
    first_field: Option<u32>,
    /// The file is cut or filled up to this many bytes if it is there.
    size: Option<usize>,
    header: Vec<u8>,
    records: Vec<Vec<u8>>,
    rest: Vec<u8>,
}

impl Raw {
    fn of(random: &mut Random, trace: &Trace) -> Raw {
        Raw {
            keys: trace.keys,
            clients: trace.clients,
            first_field: None,
            size: None,
            header: header_bytes(trace),
            records: mixed_records(random, trace),
            rest: Vec::new(),
        }
    }

    fn file(&self) -> Vec<u8> {
        let mut file = vec![0; 4];
        file.extend(&self.header);
        file.extend(self.records.iter().flatten());
        file.extend(&self.rest);
        if let Some(size) = self.size {
            file.resize(size, 0);
        }
        let field = self.first_field.unwrap_or(file.len() as u32);
        for (byte, new) in file.iter_mut().zip(field.to_le_bytes()) {
            *byte = new;
        }
        file
    }

    fn count(&self) -> usize {
        u16_at(&self.header, 6) as usize
    }

    fn set_count(&mut self, count: usize) {
        self.header[6..8].copy_from_slice(&(count as u16).to_le_bytes());
    }

    /// Bytes of the file as it would be without a wrong length.
    fn len(&self) -> usize {
        12 + self.records.iter().map(Vec::len).sum::<usize>() + self.rest.len()
    }
}

fn is_commit(record: &[u8]) -> bool {
    record.len() > 9 && (record[2] == 3 || record[2] == 5)
}

/// Plants one of the codes 1 to 7.
fn plant_form(
    random: &mut Random,
    raw: &mut Raw,
    code: u8,
    near: Option<usize>,
) -> Option<Refusal> {
    let all: Vec<usize> = (1..=raw.records.len()).collect();
    match code {
        1 => {
            plant_wrong_length(random, raw);
            Some(Refusal::at(1, 0))
        }
        2 => {
            plant_wrong_header(random, raw);
            Some(Refusal::at(2, 0))
        }
        3 => plant_wrong_record_length(random, raw, near),
        4 => {
            let number = choose(random, &all, near)?;
            let kind: u16 = random.pick(&[
                0, 1, 4, 7, 9, 0x0102, 0x0300, 0x0203, 0x0105, 0x0600, 0xFFFF,
            ]);
            raw.records[number - 1][2..4].copy_from_slice(&kind.to_le_bytes());
            Some(Refusal::at(4, number))
        }
        5 => {
            if raw.count() > 0 && random.percent(40) {
                raw.set_count(random.below(raw.count()));
            } else {
                let size = random.pick(&[1, 2, 3, 4, 8, 40]);
                raw.rest = (0..size).map(|_| random.byte()).collect();
            }
            Some(Refusal::at(5, raw.count()))
        }
        6 => {
            let number = choose(random, &all, near)?;
            let some = random.between(raw.clients, 255);
            let client = random.pick(&[raw.clients, some]);
            raw.records[number - 1][4] = client as u8;
            Some(Refusal::at(6, number))
        }
        7 => {
            let number = choose(random, &all, near)?;
            plant_in_body(random, &mut raw.records[number - 1], raw.keys)?;
            Some(Refusal::at(7, number))
        }
        _ => unreachable!("codes of form are 1 to 7"),
    }
}

fn plant_wrong_length(random: &mut Random, raw: &mut Raw) {
    let true_length = raw.len();
    match random.below(5) {
        0 => {
            let wrong = [
                0,
                12,
                true_length - 1,
                true_length + 1,
                true_length + 65_536,
            ];
            let field = random.pick(&wrong) as u32;
            raw.first_field = Some(if field as usize == true_length {
                field + 8
            } else {
                field
            });
        }
        1 => {
            // Under 12 bytes, with the right first field as far as it goes.
            raw.size = Some(random.below(12));
        }
        2 => {
            // A stub that still says how long it was.
            raw.size = Some(random.below(true_length));
            raw.first_field = Some(true_length as u32);
        }
        3 => {
            // Over the limit, with the right first field.
            raw.size = Some(65_537 + random.below(100));
        }
        _ => {
            raw.size = Some(true_length + 1 + random.below(20));
            raw.first_field = Some(true_length as u32);
        }
    }
}

fn plant_wrong_header(random: &mut Random, raw: &mut Raw) {
    match random.below(6) {
        0 => raw.header[0] = random.pick(&[0, 7, 9, 12]),
        1 => raw.header[random.pick(&[1, 3])] = 1,
        2 => raw.header[2] = random.pick(&[0, 2, 3, 9]),
        _ => {
            let limits = [(4, Store::MAX_KEYS), (5, Store::MAX_CLIENTS)];
            let (place, most) = random.pick(&limits);
            raw.header[place] = random.pick(&[0, most + 1, most + 1, 2 * most, 255]) as u8;
        }
    }
}

fn plant_wrong_record_length(
    random: &mut Random,
    raw: &mut Raw,
    near: Option<usize>,
) -> Option<Refusal> {
    let count = raw.count();
    if random.percent(20) {
        // More records than there are.
        raw.set_count(count + random.pick(&[1, 2, 1000]));
        return Some(Refusal::at(3, count + 1));
    }
    let last = raw.records.len();
    let all: Vec<usize> = (1..=last).collect();
    let number = choose(random, &all, near)?;
    match random.below(4) {
        0 => {
            // The tail is gone, and the first field fits.
            let record = raw.records.last_mut()?;
            let some = random.below(record.len());
            let left = random.pick(&[0, 1, 3, 4, 5, 6, some, some, some]);
            record.truncate(left);
            Some(Refusal::at(3, last))
        }
        1 if is_commit(&raw.records[number - 1]) => {
            // Another number of operations.
            let record = &mut raw.records[number - 1];
            record[5] = record[5].wrapping_add(random.between(1, 255) as u8);
            Some(Refusal::at(3, number))
        }
        2 if is_commit(&raw.records[last - 1]) => {
            // More operations, a length that fits them, past the end.
            let keys = raw.keys;
            let record = &mut raw.records[last - 1];
            let operations = random.between(record[5] as usize + 1, 255);
            record[5] = operations as u8;
            let length = commit_len(operations, keys) as u16;
            record[..2].copy_from_slice(&length.to_le_bytes());
            Some(Refusal::at(3, last))
        }
        _ => {
            let record = &mut raw.records[number - 1];
            let right = u16_at(record, 0);
            let wrong = [
                0,
                4,
                right - 1,
                right + 1,
                right + 8,
                right - 4,
                right + 256,
                u16::MAX,
            ];
            record[..2].copy_from_slice(&random.pick(&wrong).to_le_bytes());
            Some(Refusal::at(3, number))
        }
    }
}

/// A spare byte, a bit of a set, or the kind, key or order of an operation.
fn plant_in_body(random: &mut Random, record: &mut Vec<u8>, keys: usize) -> Option<()> {
    if record[2] == 6 && random.percent(50) {
        return with_bit_above(random, keys, record);
    }
    if !is_commit(record) {
        record[5] = random.between(1, 255) as u8;
        return Some(());
    }
    let operations = record[5] as usize;
    if operations == 0 {
        return None;
    }
    let at = 10 + 8 * random.below(operations);
    let some_key = random.between(keys, 255);
    match random.below(5) {
        0 => record[at] = random.between(2, 255) as u8,
        1 => record[at + 1] = random.pick(&[keys, some_key]) as u8,
        2 => record[at + 2] = random.between(1, 255) as u8,
        3 => record[at + 3] = random.between(1, 255) as u8,
        _ => {
            // Two operations change places, or one stands twice.
            if operations < 2 {
                return None;
            }
            let first = 10 + 8 * random.below(operations - 1);
            let (one, other) = (
                record[first..first + 8].to_vec(),
                record[first + 8..first + 16].to_vec(),
            );
            record[first..first + 8].copy_from_slice(&other);
            if random.percent(50) {
                record[first + 8..first + 16].copy_from_slice(&one);
            }
        }
    }
    with_due_masks(record);
    Some(())
}
