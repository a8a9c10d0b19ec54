//! Do the generated files tell a wrong reading of request E6 from the right one?
//! Each slip here reads the short edition wrongly, or writes an edition wrongly;
//! some file must be answered otherwise by it.

use model::buffer::{pattern, LONG_FILE};
use model::editions::{
    changed, converted, left_with, masks_of_commit, meaning, meaning_by, needed, over, short_bytes,
    views_before, Does, Entry,
};
use model::form::Form;
use model::generate::{case, edge_case, growing_case, record_places, taken_case};
use model::image::image;
use model::levels::verdicts;
use model::random::Random;
use model::run::run;
use model::store::{opening_view, Key, Store, View};
use model::trace::{file_of, masks, record_bytes, Record, Trace};
use model::{Edition, Refusal, Verdict};
use std::collections::BTreeSet;

/// A file as a trace, or a refusal of its form.
type Reading = fn(&[u8]) -> Result<Trace, Refusal>;

#[test]
fn slips_of_reading_are_noticed() {
    let slips: [(&str, Reading); 11] = [
        ("an unlisted key emptied", |file| {
            meant(file, |_, entry| over(&View::new(), &entry.listed))
        }),
        ("an unlisted key as at the start", |file| {
            meant(file, |views, entry| {
                let keys = views[0].iter().map(|held| held.0 .0).max().unwrap_or(0) + 1;
                over(&opening_view(keys), &entry.listed)
            })
        }),
        ("an unlisted key of a commit from another client", |file| {
            meant(file, |views, entry| {
                let other = match entry.does {
                    Does::Shift => entry.client,
                    Does::Commit { .. } => (entry.client + 1) % views.len(),
                };
                over(&views[other], &entry.listed)
            })
        }),
        ("an unlisted key of a shift from another client", |file| {
            meant(file, |views, entry| {
                let other = match entry.does {
                    Does::Shift => (entry.client + 1) % views.len(),
                    Does::Commit { .. } => entry.client,
                };
                over(&views[other], &entry.listed)
            })
        }),
        ("the masks of a set falling", |file| {
            let mut entries = Form::default().entries(file)?;
            for entry in &mut entries.entries {
                if entry.does == Does::Shift && entry.listed.len() < entries.keys {
                    let mut held: Vec<_> = entry.listed.values().cloned().collect();
                    for listed in entry.listed.values_mut() {
                        *listed = held.pop().expect("as many");
                    }
                }
            }
            Ok(meaning(&entries))
        }),
        ("bits above the keys taken", |file| {
            let form = Form {
                takes_set: |_, _| true,
                ..Form::default()
            };
            let mut entries = form.entries(file)?;
            for entry in &mut entries.entries {
                entry.listed.retain(|key, _| key.0 < entries.keys);
            }
            Ok(meaning(&entries))
        }),
        ("masks by the bits below the keys", |file| {
            by(file, |form| {
                form.masks_of_shift = |set, keys| {
                    let below = u32::MAX >> (32 - keys);
                    (set & below).count_ones() as usize
                };
            })
        }),
        ("a mask for every key of a set", |file| {
            by(file, |form| form.masks_of_shift = |_, keys| keys)
        }),
        ("masks of a commit by different keys", |file| {
            by(file, |form| {
                form.masks_of_commit = |keys| keys.iter().collect::<BTreeSet<_>>().len();
            })
        }),
        ("masks of a commit by operations", |file| {
            by(file, |form| form.masks_of_commit = <[u8]>::len)
        }),
        ("the first operation does not count", |file| {
            by(file, |form| {
                form.masks_of_commit = |keys| masks_of_commit(keys).saturating_sub(1);
            })
        }),
    ];
    let mut files: Vec<Vec<u8>> = (0..3_000).map(|seed| case(seed).bytes).collect();
    files.extend((0..200).map(|seed| edge_case(&mut Random::seeded(seed)).bytes));
    files.retain(|file| file.len() < 6_000);
    println!("{} files", files.len());
    let right: Vec<_> = files
        .iter()
        .map(|file| answered(by(file, |_| {})))
        .collect();
    all_noticed(slips.map(|(name, slip)| {
        let files = files.iter().zip(&right);
        let other = files.filter(|(file, right)| answered(slip(file)) != **right);
        (name, other.count())
    }));
}

/// The form read in another way.
fn by(file: &[u8], change: fn(&mut Form)) -> Result<Trace, Refusal> {
    let mut form = Form::default();
    change(&mut form);
    form.entries(file).map(|entries| meaning(&entries))
}

/// The records meant in another way.
fn meant(file: &[u8], left: fn(&[View], &Entry) -> View) -> Result<Trace, Refusal> {
    let entries = Form::default().entries(file)?;
    Ok(meaning_by(&entries, left))
}

/// Verdicts and image, or the refusal.
fn answered(read: Result<Trace, Refusal>) -> Result<([Verdict; 10], Vec<u8>), Refusal> {
    let run = run(&read?)?;
    Ok((verdicts(&run), image(&run.store)))
}

/// Prints in how many files each slip is noticed; fails if one is in none.
fn all_noticed<const N: usize>(slips: [(&str, usize); N]) {
    for (name, noticed) in slips {
        println!("{name}: noticed in {noticed}");
    }
    for (name, noticed) in slips {
        assert!(noticed > 0, "{name}");
    }
}

/// A taken file, its trace, and its image.
struct Given {
    file: Vec<u8>,
    trace: Trace,
    image: Vec<u8>,
}

/// The short and the long file of a trace, or a refusal; some of the slips look
/// at the length of the buffer.
type Writing = fn(&Given, usize) -> [Result<Vec<u8>, Refusal>; 2];

#[test]
fn slips_of_writing_are_noticed() {
    let slips: [(&str, Writing); 13] = [
        ("every key of a shift listed", |given, _| {
            let every: BTreeSet<Key> = (0..given.trace.keys).map(Key).collect();
            short(given, |record, before| match record {
                Record::Shift { .. } => short_bytes(record, &every),
                Record::Commit { .. } => short_bytes(record, &needed(record, before)),
            })
        }),
        ("a kind 6 listed as it was", |given, _| {
            let mut old = old_records(given);
            short(given, |record, before| match old.next().expect("as many") {
                old if old[2] == 6 => old,
                _ => short_bytes(record, &needed(record, before)),
            })
        }),
        ("the changed keys of a commit listed", |given, _| {
            short(given, |record, before| {
                short_bytes(record, &changed(before, left_with(record).1))
            })
        }),
        ("the shorter kind of each record", |given, _| {
            short(given, |record, before| {
                let short = short_bytes(record, &needed(record, before));
                let long = record_bytes(record, given.trace.keys);
                match short.len() < long.len() {
                    true => short,
                    false => long,
                }
            })
        }),
        ("a kind 6 left in the long file", |given, _| {
            let mut old = old_records(given);
            long(given, |record, _| match old.next().expect("as many") {
                old if old[2] == 6 => old,
                _ => record_bytes(record, given.trace.keys),
            })
        }),
        ("shifts that change nothing left out", |given, _| {
            let mut fewer = given.trace.clone();
            let mut before = views_before(&given.trace).into_iter();
            fewer.records.retain(|record| {
                let before = before.next().expect("as many");
                !matches!(record, Record::Shift { view, .. } if *view == before)
            });
            Edition::ALL.map(|edition| converted(&fewer, edition))
        }),
        ("listed masks first in the long file", |given, _| {
            long(given, |record, before| {
                let listed = needed(record, before);
                let masks = masks(left_with(record).1);
                let mut bytes = record_bytes(record, given.trace.keys);
                let at = bytes.len() - 8 * given.trace.keys;
                let (first, then): (Vec<usize>, Vec<usize>) =
                    (0..given.trace.keys).partition(|key| listed.contains(&Key(*key)));
                let order = first.into_iter().chain(then);
                bytes.truncate(at);
                bytes.extend(order.flat_map(|key| masks[key].to_le_bytes()));
                bytes
            })
        }),
        ("unlisted masks of the long file empty", |given, _| {
            long(given, |record, before| {
                let listed = needed(record, before);
                let mut bytes = record_bytes(record, given.trace.keys);
                let at = bytes.len() - 8 * given.trace.keys;
                for key in 0..given.trace.keys {
                    if !listed.contains(&Key(key)) {
                        bytes[at + 8 * key..at + 8 * key + 8].fill(0);
                    }
                }
                bytes
            })
        }),
        ("17 before 22", |given, room| {
            Edition::ALL.map(|edition| match edition.file(&given.trace).len() > room {
                true => Err(Refusal::at(17, 0)),
                false => converted(&given.trace, edition),
            })
        }),
        ("22 at the limit", |given, _| {
            Edition::ALL.map(|edition| match edition.file(&given.trace) {
                file if file.len() >= Store::MAX_BYTES => Err(Refusal::at(22, 0)),
                file => Ok(file),
            })
        }),
        ("no 22", |given, _| {
            Edition::ALL.map(|edition| Ok(edition.file(&given.trace)))
        }),
        ("22 where a file grows", |given, _| {
            Edition::ALL.map(|edition| match edition.file(&given.trace) {
                file if file.len() > given.file.len() => Err(Refusal::at(22, 0)),
                file => Ok(file),
            })
        }),
        (
            "15 where the image is longer than the buffer",
            |given, room| {
                Edition::ALL.map(|edition| match given.image.len() > room {
                    true => Err(Refusal::at(15, 0)),
                    false => converted(&given.trace, edition),
                })
            },
        ),
    ];
    let cases = (0..1_000).map(|seed| taken_case(&mut Random::seeded(seed)));
    let growing = (0..24).map(|seed| growing_case(&mut Random::seeded(seed)));
    let given: Vec<Given> = cases.chain(growing).map(|case| given(case.bytes)).collect();
    println!("{} files", given.len());
    all_noticed(slips.map(|(name, slip)| {
        let other = given.iter().filter(|given| {
            [0, LONG_FILE].into_iter().any(|room| {
                let answered = |writing: Writing| {
                    writing(given, room).map(|file| {
                        let mut buffer = pattern(room);
                        (model::replay::write(&file, &mut buffer), buffer)
                    })
                };
                answered(slip) != answered(right)
            })
        });
        (name, other.count())
    }));
}

fn given(file: Vec<u8>) -> Given {
    let entries = Form::default().entries(&file).expect("it is taken");
    let trace = meaning(&entries);
    let store = run(&trace).expect("it is taken").store;
    Given {
        file,
        image: image(&store),
        trace,
    }
}

/// The records of the file as they stand there.
fn old_records(given: &Given) -> impl Iterator<Item = Vec<u8>> + '_ {
    let places = record_places(&given.file);
    let ends: Vec<(usize, usize)> = places.windows(2).map(|pair| (pair[0], pair[1])).collect();
    ends.into_iter()
        .map(|(from, to)| given.file[from..to].to_vec())
}

fn right(given: &Given, _: usize) -> [Result<Vec<u8>, Refusal>; 2] {
    Edition::ALL.map(|edition| converted(&given.trace, edition))
}

/// Other records in the short file.
fn short(
    given: &Given,
    record: impl FnMut(&Record, &View) -> Vec<u8>,
) -> [Result<Vec<u8>, Refusal>; 2] {
    let [short, long] = right(given, 0);
    [short.and_then(|_| with_records(given, record)), long]
}

/// Other records in the long file.
fn long(
    given: &Given,
    record: impl FnMut(&Record, &View) -> Vec<u8>,
) -> [Result<Vec<u8>, Refusal>; 2] {
    let [short, long] = right(given, 0);
    [short, long.and_then(|_| with_records(given, record))]
}

fn with_records(
    given: &Given,
    mut record: impl FnMut(&Record, &View) -> Vec<u8>,
) -> Result<Vec<u8>, Refusal> {
    let records = given.trace.records.iter().zip(views_before(&given.trace));
    let records = records.map(|(one, before)| record(one, &before));
    Ok(file_of(&given.trace, records.collect()))
}
