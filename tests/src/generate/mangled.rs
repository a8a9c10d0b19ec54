//! Spoiled bytes: cut files, fields that lie, random bytes, flipped bits,
//! records that are moved, and traces with random changes to what they say.

use super::editions::{mixed, Mixing};
use super::taken::{build, number_of_keys, Style};
use super::Expected;
use crate::form::u16_at;
use crate::random::Random;
use crate::store::{Key, Version, View};
use crate::trace::{file_of, with_true_length, Record, Trace};
use crate::Refusal;

/// One spoiled file: in which way, its bytes, and what is known of it.
pub fn mangled(random: &mut Random) -> (&'static str, Vec<u8>, Expected) {
    match random.below(9) {
        0 => {
            let file = small_file(random);
            let cut = file[..random.below(file.len())].to_vec();
            ("cut", cut, Expected::Refused(Refusal::at(1, 0)))
        }
        1 => {
            let file = small_file(random);
            let cut = file[..random.between(4, file.len())].to_vec();
            let cut = with_true_length(cut);
            ("cut, its length true", cut, Expected::Anything)
        }
        2 => ("a field that lies", lying(random), Expected::Anything),
        3 => ("random bytes", random_bytes(random), Expected::Anything),
        4 => ("flipped bits", flipped(random), Expected::Anything),
        5 => ("a record moved", moved(random), Expected::Anything),
        _ => ("scrambled", scrambled(random), Expected::Anything),
    }
}

pub fn small_trace(random: &mut Random) -> Trace {
    loop {
        let style = Style::random(random);
        if style.commits <= 16 {
            return build(random, &style).trace;
        }
    }
}

fn small_file(random: &mut Random) -> Vec<u8> {
    let trace = small_trace(random);
    mixed(random, &trace)
}

/// The places of the records after the header, and the end of the file.
pub fn record_places(file: &[u8]) -> Vec<usize> {
    let mut places = vec![12];
    let mut at = 12;
    while at + 2 <= file.len() {
        at += usize::from(u16_at(file, at)).max(1);
        places.push(at.min(file.len()));
    }
    places
}

/// A u16 somewhere is another one; more often a length, kind or count.
fn lying(random: &mut Random) -> Vec<u8> {
    let mut file = small_file(random);
    let mut fields = vec![0, 2, 4, 6, 8, 10];
    for at in record_places(&file) {
        if at < file.len() {
            fields.extend([at, at + 2, at + 4]);
        }
    }
    for _ in 0..random.between(1, 2) {
        let at = match random.below(3) {
            0 => random.below(file.len() / 2) * 2,
            _ => random.pick(&fields),
        };
        let old = u16_at(&file, at);
        let change: u16 = random.pick(&[1, 2, 4, 8, 16, 256, 1 << 15]);
        let new = if random.percent(50) {
            old.wrapping_add(change)
        } else {
            old.wrapping_sub(change)
        };
        file[at..at + 2].copy_from_slice(&new.to_le_bytes());
    }
    file
}

/// Random bytes, some with the right first field, some with a good header.
fn random_bytes(random: &mut Random) -> Vec<u8> {
    let some = random.between(12, 300);
    let size = random.pick(&[0, 3, 11, 12, 20, some, some, some]);
    let mut file: Vec<u8> = (0..size).map(|_| random.byte()).collect();
    if size < 12 || random.percent(20) {
        return file;
    }
    file = with_true_length(file);
    if random.percent(80) {
        let used = random.between(1, 3);
        let keys = number_of_keys(random, used) as u8;
        let count = random.below(3) as u8;
        file[4..12].copy_from_slice(&[8, 0, 1, 0, keys, 2, count, 0]);
        // The kind of the first record too, so that its length is looked at.
        if size >= 16 && random.percent(70) {
            file[14..16].copy_from_slice(&[random.between(1, 6) as u8, 0]);
        }
    }
    file
}

/// One to four bits of a good file, mostly after the header.
fn flipped(random: &mut Random) -> Vec<u8> {
    let mut file = small_file(random);
    for _ in 0..random.between(1, 4) {
        let low = if file.len() > 12 && random.percent(90) {
            12
        } else {
            0
        };
        let at = random.between(low, file.len() - 1);
        file[at] ^= 1 << random.below(8);
    }
    file
}

/// A record is left out, stands twice, or changes places with another.
fn moved(random: &mut Random) -> Vec<u8> {
    let mut trace = small_trace(random);
    let count = trace.records.len();
    if count > 0 {
        let (one, other) = (random.below(count), random.below(count));
        match random.below(3) {
            0 => {
                trace.records.remove(one);
            }
            1 => trace.records.insert(other, trace.records[one].clone()),
            _ => trace.records.swap(one, other),
        }
    }
    lossy(random, &trace)
}

/// Small random changes to masks, values, session numbers and clients, so
/// that several faults of meaning meet in one file, often in one record.
fn scrambled(random: &mut Random) -> Vec<u8> {
    let mut trace = small_trace(random);
    let (keys, clients) = (trace.keys, trace.clients);
    let percent = random.pick(&[5, 20, 60]);
    for record in &mut trace.records {
        if !random.percent(percent) {
            continue;
        }
        match record {
            Record::Shift { client, view } => {
                if random.percent(10) {
                    *client = random.below(clients);
                }
                scramble_view(random, keys, view);
            }
            Record::Commit {
                client,
                session,
                operations,
                after,
            } => {
                match random.below(6) {
                    0 => *client = random.below(clients),
                    1 => *session = random.below(4) as u32,
                    2 => {
                        for operation in operations {
                            if random.percent(30) {
                                operation.value = random.below(3) as u32;
                            }
                        }
                    }
                    _ => {}
                }
                if random.percent(70) {
                    scramble_view(random, keys, after);
                }
            }
        }
    }
    lossy(random, &trace)
}

/// The file of a trace that need not be taken, half of the time with commits in
/// kind 5 that do not say all that changes.
fn lossy(random: &mut Random, trace: &Trace) -> Vec<u8> {
    let mixing = Mixing {
        lossy: random.percent(50),
        ..Mixing::random(random)
    };
    let records = mixing.records(random, trace);
    file_of(trace, records)
}

fn scramble_view(random: &mut Random, keys: usize, view: &mut View) {
    for _ in 0..random.between(1, 3) {
        let bound = if random.percent(10) { 64 } else { 6 };
        let version = random.below(bound);
        let bit = (Key(random.below(keys)), Version(version));
        if !view.remove(&bit) {
            view.insert(bit);
        }
    }
}
