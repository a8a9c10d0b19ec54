//! The proved calls against the model on files that are spoiled in every way of
//! one sort: each truncation, each length field with each of many lies, each
//! bit flipped. The files are example traces and generated ones.

use model::beside::{compare, compare_visibility};
use model::buffer::LONG;
use model::editions::{masks_of_commit, short_commit_len, short_shift_len};
use model::files::files;
use model::generate::editions::kinds;
use model::generate::{exactly_full, record_places, taken_case, FORMER_KEYS};
use model::random::Random;
use model::store::Store;
use model::trace::{commit_len, encode, with_true_length};
use model::visibility::MOST_ROWS;
use model::{outcome, Call};
use std::collections::BTreeMap;

/// The example traces, and so many taken traces of at most so many bytes, some
/// of them with more keys than a trace could have before.
fn some_files(number: usize, bytes: usize) -> Vec<(String, Vec<u8>)> {
    let mut some: Vec<(String, Vec<u8>)> = files()
        .into_iter()
        .map(|(name, example)| (name.to_string(), example.bytes))
        .filter(|(_, file)| file.len() <= bytes)
        .collect();
    let generated = (0..)
        .map(|seed| {
            (
                format!("taken trace {seed}"),
                taken_case(&mut Random::seeded(seed)).bytes,
            )
        })
        .filter(|(_, file)| file.len() <= bytes);
    some.extend(generated.take(number));
    let wide = |file: &[u8]| usize::from(file[8]) > FORMER_KEYS;
    assert!(some.iter().any(|(_, file)| wide(file)), "few keys");
    let mut kinds: Vec<u8> = some.iter().flat_map(|(_, file)| kinds(file)).collect();
    kinds.sort();
    kinds.dedup();
    assert!([2, 3, 5, 6].iter().all(|kind| kinds.contains(kind)));
    some
}

/// Counts the answers of each call by their codes.
#[derive(Default)]
struct Codes(BTreeMap<Call, BTreeMap<u8, usize>>);

impl Codes {
    /// Compares the answers for one spoiled file.
    fn spoiled(&mut self, name: &str, file: &[u8]) {
        let outcome = outcome(file);
        compare_visibility(name, file, &outcome, LONG, MOST_ROWS);
        for call in Call::ALL {
            if call.long() > 0 {
                compare(call, name, file, &outcome, 0);
            }
            let code = compare(call, name, file, &outcome, call.long());
            *self.0.entry(call).or_default().entry(code).or_default() += 1;
        }
    }

    /// Prints the counts; fails unless just these codes were met. Where some
    /// files are taken, SER does not accept them all.
    fn met(&self, spoiled: &str, codes: &[u8]) {
        for (call, counts) in &self.0 {
            println!("{spoiled}, {} by code: {counts:?}", call.name());
            let mut due = codes.to_vec();
            if *call == Call::Replay && codes.contains(&0) {
                due.push(16);
            }
            let met: Vec<u8> = counts.keys().copied().collect();
            assert_eq!(met, due, "the codes met");
        }
    }
}

#[test]
fn every_truncation() {
    let mut codes = Codes::default();
    for (name, file) in some_files(100, 2_000) {
        for length in 0..file.len() {
            let name = format!("{name} cut to {length}");
            let cut = file[..length].to_vec();
            codes.spoiled(&name, &cut);
            if length >= 4 {
                codes.spoiled(&format!("{name}, its length true"), &with_true_length(cut));
            }
        }
    }
    codes.met("truncations", &[1, 3, 4]);
}

/// Cut between two records, with the count and the length of what is left.
#[test]
fn every_number_of_records() {
    let mut codes = Codes::default();
    for (name, file) in some_files(100, 2_000) {
        for (count, place) in record_places(&file).into_iter().enumerate() {
            let mut cut = file[..place].to_vec();
            cut[10..12].copy_from_slice(&(count as u16).to_le_bytes());
            codes.spoiled(&format!("{name}, {count} records"), &with_true_length(cut));
        }
    }
    codes.met("first records", &[0, 3, 4, 8, 9, 11, 13]);
}

/// A file of the greatest length, cut at every 101st byte.
#[test]
fn truncations_of_a_full_file() {
    let mut codes = Codes::default();
    let full = encode(&exactly_full(&mut Random::seeded(1)).trace);
    assert_eq!(full.len(), 65_536);
    for length in (12..full.len()).step_by(101) {
        let name = format!("full file cut to {length}");
        let cut = full[..length].to_vec();
        codes.spoiled(&name, &cut);
        codes.spoiled(&format!("{name}, its length true"), &with_true_length(cut));
    }
    codes.met("truncations of a full file", &[1, 3]);
}

/// The fields that say how long something is or how many there are, sets among
/// them: the place and the bytes of each.
fn length_fields(file: &[u8]) -> Vec<(usize, usize)> {
    let mut fields = vec![(0, 4), (4, 2), (10, 2)];
    for place in record_places(file) {
        if place + 6 <= file.len() {
            fields.push((place, 2));
            fields.push((place + 5, 1));
        }
        if kind_at(file, place) == Some(6) && place + 10 <= file.len() {
            fields.push((place + 6, 4));
        }
    }
    fields
}

#[test]
fn lying_lengths() {
    let mut codes = Codes::default();
    for (name, file) in some_files(75, 2_000) {
        for (at, bytes) in length_fields(&file) {
            let mut field = [0; 8];
            field[..bytes].copy_from_slice(&file[at..at + bytes]);
            let truth = u64::from_le_bytes(field);
            for lie in lies_about(truth) {
                let mut lying = file.clone();
                lying[at..at + bytes].copy_from_slice(&lie.to_le_bytes()[..bytes]);
                if lying != file {
                    codes.spoiled(&format!("{name}, {lie} at {at}"), &lying);
                }
            }
        }
    }
    // A set of as many keys, but of other ones, lies about what the record means.
    codes.met("lying lengths", &[0, 1, 2, 3, 4, 5, 7, 8, 10, 11, 12, 13]);
}

/// Numbers near to a number, and some far from it.
fn lies_about(truth: u64) -> Vec<u64> {
    let mut lies = vec![0, 1, 4, 6, 12, 2 * truth, u64::MAX, u64::MAX / 2];
    for change in (1..=9).chain([16, 32, 64, 128, 256, 65_536]) {
        lies.extend([truth.wrapping_add(change), truth.wrapping_sub(change)]);
    }
    lies
}

/// The kind of the record at a place.
fn kind_at(file: &[u8], place: usize) -> Option<u8> {
    file.get(place + 2).copied()
}

/// The number of operations and the length that goes with it lie together. That
/// of a kind 5 goes by the keys that are read then.
#[test]
fn lying_numbers_of_operations() {
    let mut codes = Codes::default();
    for (name, file) in some_files(60, 2_000) {
        let keys = usize::from(file[8]);
        for place in record_places(&file) {
            if place + 10 > file.len() || !matches!(kind_at(&file, place), Some(3 | 5)) {
                continue;
            }
            for operations in (0..=Store::MAX_OPERATIONS + 8).chain([254, 255]) {
                let length = match kind_at(&file, place) {
                    Some(3) => commit_len(operations, keys),
                    _ => {
                        let keys: Vec<u8> = file[place + 10..]
                            .chunks(8)
                            .take(operations)
                            .filter_map(|operation| operation.get(1).copied())
                            .collect();
                        short_commit_len(operations, masks_of_commit(&keys))
                    }
                };
                let mut lying = file.clone();
                lying[place..place + 2].copy_from_slice(&(length as u16).to_le_bytes());
                lying[place + 5] = operations as u8;
                if lying != file {
                    let name = format!("{name}, {operations} operations at {place}");
                    codes.spoiled(&name, &lying);
                }
            }
        }
    }
    codes.met("lying numbers of operations", &[1, 3, 4, 5, 7, 8]);
}

/// A bit of a set is another one, and the length goes with it.
#[test]
fn lying_sets() {
    let mut codes = Codes::default();
    for (name, file) in some_files(100, 2_000) {
        for place in record_places(&file) {
            if place + 10 > file.len() || kind_at(&file, place) != Some(6) {
                continue;
            }
            for bit in 0..32 {
                let mut lying = file.clone();
                lying[place + 6 + bit / 8] ^= 1 << (bit % 8);
                let set: u32 = lying[place + 6..place + 10]
                    .iter()
                    .map(|byte| byte.count_ones())
                    .sum();
                let length = short_shift_len(set as usize) as u16;
                lying[place..place + 2].copy_from_slice(&length.to_le_bytes());
                codes.spoiled(&format!("{name}, bit {bit} of the set at {place}"), &lying);
            }
        }
    }
    codes.met("lying sets", &[3, 4, 5, 7]);
}

#[test]
fn every_bit_flipped() {
    let mut codes = Codes::default();
    for (name, mut file) in some_files(12, 1_000) {
        for place in 0..file.len() {
            for bit in 0..8 {
                file[place] ^= 1 << bit;
                codes.spoiled(&format!("{name}, bit {bit} of byte {place}"), &file);
                file[place] ^= 1 << bit;
            }
        }
    }
    codes.met(
        "flipped bits",
        &[0, 1, 2, 3, 4, 5, 6, 7, 9, 10, 11, 12, 13, 14],
    );
}
