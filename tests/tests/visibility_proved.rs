//! The proved call of request E14 against the model, with tables and image buffers
//! of many lengths, and the program `visibility`.

use consistency::{visibility_words, JUDGE_WORDS, MOST_COMMITS, NO_ROOM};
use model::beside::{compare_visibilities, compare_visibility};
use model::buffer::{pattern, untouched, LONG};
use model::files::{at, files};
use model::generate::{exactly_full, file, largest, largest_serial};
use model::outcome;
use model::programs::{printed, Program};
use model::random::Random;
use model::trace::encode;
use model::visibility::{self, MOST_ROWS};
use std::collections::BTreeSet;
use std::fs;
use std::process::Command;

/// Files of all sorts: the codes of all, 15 and 21 with them, are met.
#[test]
fn every_number_of_rows() {
    let mut met: BTreeSet<u8> = BTreeSet::new();
    for (name, example) in files() {
        let outcome = outcome(&example.bytes);
        met.extend(compare_visibilities(name, &example.bytes, &outcome));
        let image = outcome.as_ref().map_or(0, |taken| taken.image.len());
        for rows in 0..=MOST_ROWS + 2 {
            for room in [0, image, LONG] {
                met.insert(compare_visibility(
                    name,
                    &example.bytes,
                    &outcome,
                    room,
                    rows,
                ));
            }
        }
    }
    for seed in 0..3_000 {
        let file = file(seed);
        let codes = compare_visibilities(&format!("seed {seed}"), &file, &outcome(&file));
        met.extend(codes);
    }
    let due = (0..=15).chain([visibility::TOO_FEW_ROWS]).collect();
    assert_eq!(met, due);
}

/// Traces of 63 commits: every bit but 0 and 63 of the last row can be set.
#[test]
fn the_largest_traces() {
    assert_eq!(MOST_COMMITS, MOST_ROWS);
    for seed in 0..8 {
        let random = &mut Random::seeded(seed);
        for built in [largest, largest_serial, exactly_full] {
            let file = encode(&built(random).trace);
            compare_visibilities(&format!("large {seed}"), &file, &outcome(&file));
        }
    }
    let serial = encode(&largest_serial(&mut Random::seeded(1)).trace);
    let rows = visibility::rows(&outcome(&serial).expect("taken").store);
    assert_eq!(rows[62], u64::MAX >> 1 & !1);
}

#[test]
fn without_room_for_the_words_nothing_is_done() {
    for (name, example) in files() {
        for room in 0..JUDGE_WORDS {
            let (mut image, mut rows) = (pattern(LONG), visibility::pattern(MOST_ROWS));
            let mut words = vec![7; room];
            let code = visibility_words(&example.bytes, &mut image, &mut rows, &mut words);
            assert_eq!(code, NO_ROOM, "{name}");
            assert!(words.iter().all(|&word| word == 7), "{name}");
            assert!(untouched(&image, 0), "{name}");
            assert_eq!(rows, visibility::pattern(MOST_ROWS), "{name}");
        }
    }
}

/// The program on the file that the README shows.
#[test]
fn the_program_on_what_was_seen_and_not_read() {
    let file = fs::read(at("examples/M-seen-not-read")).expect("a trace file");
    let program = &mut Command::new(Program::Visibility.path());
    assert_eq!(printed(program, &file), "0\n2\n4\n");
}
