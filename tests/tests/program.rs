//! The programs, as `rt run` builds them: what each has to say of the bytes on
//! its standard input is the model's. `judge`, `port` and `plain` print the report;
//! `replay`, `short`, `long` and `image` write a file, or tell the refusal on
//! standard error and write nothing.

use model::example_traces::{trace_b, trace_e};
use model::files::files;
use model::generate::{case, exactly_full, growing_case, largest_serial, GROWING};
use model::met::{possible_combinations, refusing};
use model::programs::{run, said, Program, Said};
use model::random::Random;
use model::trace::{encode, with_true_length};
use model::{outcome, Call, Outcome, Refusal};
use std::collections::{BTreeMap, BTreeSet};
use std::process::Command;

const WHOLE: usize = usize::MAX;

const JUDGE: Program = Program::Of(Call::Judge);
const REPLAY: Program = Program::Of(Call::Replay);
const SHORT: Program = Program::Of(Call::Short);
const LONG: Program = Program::Of(Call::Long);

/// What a program says of an input that comes in pieces.
fn says(program: Program, input: &[u8], at_a_time: usize) -> Said {
    said(run(&mut Command::new(program.path()), input, at_a_time))
}

/// All programs on one file.
fn check(name: &str, file: &[u8], outcome: &Outcome) {
    for program in Program::ALL {
        let due = program.due(outcome);
        let says = says(program, file, WHOLE);
        assert!(says == due, "{}, {name}", program.name());
    }
}

/// Ten files of each code and of each combination of verdicts, or as many as
/// there are among the first seeds; at least one of each.
#[test]
fn generated_files() {
    let mut met: BTreeMap<String, usize> = BTreeMap::new();
    for code in 1..=14 {
        met.insert(format!("code {code}"), 0);
    }
    for combination in possible_combinations() {
        met.insert(combination, 0);
    }
    for seed in 0..8_000 {
        let file = case(seed).bytes;
        let outcome = outcome(&file);
        let sort = match &outcome {
            Err(refusal) => format!("code {}", refusal.code),
            Ok(taken) => refusing(&taken.report.verdicts),
        };
        let files = met.get_mut(&sort).expect("a code or a combination");
        if *files < 10 {
            *files += 1;
            check(&format!("seed {seed}"), &file, &outcome);
        }
    }
    println!("files compared: {met:#?}");
    println!("together: {}", met.values().sum::<usize>());
    for (sort, files) in met {
        assert!(files > 0, "{sort} was never met");
    }
}

#[test]
fn examples() {
    for (name, example) in files() {
        check(name, &example.bytes, &outcome(&example.bytes));
    }
}

#[test]
fn no_input() {
    check("nothing", &[], &Err(Refusal::at(1, 0)));
}

#[test]
fn every_truncation_of_the_lost_update() {
    let b = encode(&trace_b());
    for length in 0..b.len() {
        let cut = &b[..length];
        check("cut", cut, &Err(Refusal::at(1, 0)));
        if length >= 4 {
            let cut = with_true_length(cut.to_vec());
            check("cut, its length true", &cut, &outcome(&cut));
        }
    }
}

/// 65,536 bytes are judged, and one more is too many, whatever the first field
/// says and however many bytes follow.
#[test]
fn the_longest_input() {
    let full = encode(&exactly_full(&mut Random::seeded(1)).trace);
    assert_eq!(full.len(), 65_536);
    let full_outcome = outcome(&full);
    let (report, _) = JUDGE.due(&full_outcome);
    assert!(report.starts_with(b"records 128 commits 63\n"));
    check("full", &full, &full_outcome);
    for more in [1, 2, 100, 65_536, 300_000] {
        let mut long = full.clone();
        long.resize(full.len() + more, 0);
        for file in [long.clone(), with_true_length(long)] {
            check("too long", &file, &Err(Refusal::at(1, 0)));
        }
    }
}

/// It goes from one program to the other, all levels accept it, and it has the
/// image of the trace, which is the longest.
#[test]
fn the_longest_replay_and_the_longest_image() {
    let file = encode(&largest_serial(&mut Random::seeded(1)).trace);
    let taken = outcome(&file);
    check("largest", &file, &taken);
    let image = says(Program::Image, &file, WHOLE);
    assert_eq!(image.0.len(), Call::Judge.longest());
    let (replay, _) = says(REPLAY, &file, WHOLE);
    assert_eq!(replay.len(), Call::Replay.longest());
    let (report, _) = says(JUDGE, &replay, WHOLE);
    let report = String::from_utf8(report).expect("text");
    assert!(report.starts_with("records 126 commits 63\n"));
    assert_eq!(report.matches(" accepted\n").count(), 10);
    assert!(says(Program::Image, &replay, WHOLE) == image);
}

/// Files of which an edition is as long as a file may be, or longer. What is
/// written goes from one program to the other: short of short is short, long of
/// short is long, and the report and the image are the same.
#[test]
fn growing_files() {
    let mut met = BTreeSet::new();
    for seed in 0..60 {
        let case = growing_case(&mut Random::seeded(seed));
        let sort = case.grows.expect("it grows");
        if !met.insert(sort) {
            continue;
        }
        check(sort, &case.bytes, &outcome(&case.bytes));
        let report = says(JUDGE, &case.bytes, WHOLE);
        let image = says(Program::Image, &case.bytes, WHOLE);
        for program in [SHORT, LONG] {
            let said = says(program, &case.bytes, WHOLE);
            if said.0.is_empty() {
                assert_eq!(said.1, "refused 22 record 0 key 0 version 0\n", "{sort}");
                continue;
            }
            assert!(says(JUDGE, &said.0, WHOLE) == report, "{sort}");
            assert!(says(Program::Image, &said.0, WHOLE) == image, "{sort}");
            for other in [SHORT, LONG] {
                let again = says(other, &said.0, WHOLE);
                assert!(again == says(other, &case.bytes, WHOLE), "{sort}");
            }
        }
    }
    assert_eq!(met.len(), GROWING.len());
}

/// A file that comes in pieces is the file.
#[test]
fn input_in_pieces() {
    let full = encode(&exactly_full(&mut Random::seeded(2)).trace);
    for (file, at_a_time) in [(encode(&trace_e()), 1), (full, 1_000)] {
        let outcome = outcome(&file);
        for program in Program::ALL {
            assert!(says(program, &file, at_a_time) == program.due(&outcome));
        }
    }
}
