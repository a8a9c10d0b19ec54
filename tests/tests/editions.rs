//! Request E6: the short edition. Small files by hand, and the facts that hold of
//! a trace in both editions.

use model::buffer::{pattern, untouched, LONG_FILE};
use model::by_hand::{commit, read, shift, write};
use model::editions::meaning;
use model::example_traces::{all, trace_a, trace_b, trace_c, trace_e};
use model::facts::editions_hold;
use model::form::Form;
use model::generate::editions::{is_of, kinds};
use model::generate::{case, growing_case, mixed, taken_case, GROWING};
use model::random::Random;
use model::trace::{encode, record_bytes, with_true_length, Record, Trace};
use model::{
    convert, judge_with_room, outcome, Answer, Conversion, Edition, Refusal, Taken, Verdict,
};
use std::collections::BTreeSet;

fn trace(keys: usize, clients: usize, records: &[Record]) -> Trace {
    Trace {
        keys,
        clients,
        records: records.to_vec(),
    }
}

/// A file of so many keys and clients with these records.
fn file(keys: usize, clients: usize, records: &[&[u8]]) -> Vec<u8> {
    let mut file = vec![0; 4];
    file.extend([8, 0, 1, 0, keys as u8, clients as u8]);
    file.extend((records.len() as u16).to_le_bytes());
    file.extend(records.concat());
    with_true_length(file)
}

fn refused(file: &[u8]) -> (u8, usize, usize, usize) {
    match judge_with_room(file) {
        Answer::Refused(refusal) => (refusal.code, refusal.record, refusal.key, refusal.version),
        Answer::Judged(report) => panic!("{report:?}"),
    }
}

fn taken(file: &[u8]) -> Taken {
    outcome(file).unwrap_or_else(|refusal| panic!("{refusal:?}"))
}

fn short_of(file: &[u8]) -> Vec<u8> {
    taken(file).short.expect("it fits")
}

fn long_of(file: &[u8]) -> Vec<u8> {
    taken(file).long.expect("it fits")
}

// Files by hand.

/// A client writes, another sees it, reads it, and is left with what it had; by
/// every byte.
#[test]
fn the_lost_view_written_short() {
    let mut due = vec![82, 0, 0, 0];
    due.extend([8, 0, 1, 0, 1, 2, 3, 0]); // 1 key, 2 clients, 3 records
    due.extend([26, 0, 5, 0, 0, 1, 0, 0, 0, 0]); // client 0 commits, number 0,
    due.extend([1, 0, 0, 0, 1, 0, 0, 0]); // a write of 1,
    due.extend([3, 0, 0, 0, 0, 0, 0, 0]); // and sees version 1 too
    due.extend([18, 0, 6, 0, 1, 0, 1, 0, 0, 0]); // client 1 shifts at key 0
    due.extend([3, 0, 0, 0, 0, 0, 0, 0]); // to versions 0 and 1
    due.extend([26, 0, 5, 0, 1, 1, 0, 0, 0, 0]); // and commits, number 0,
    due.extend([0, 0, 0, 0, 1, 0, 0, 0]); // a read of 1,
    due.extend([1, 0, 0, 0, 0, 0, 0, 0]); // and sees version 0 alone
    let long = encode(&trace_e());
    assert_eq!(short_of(&long), due);
    assert_eq!(long_of(&due), long);
    // "a shift that changes every key grows by 4"
    assert_eq!(due.len(), long.len() + 4);
}

/// Two keys, and each record lists one of them.
#[test]
fn the_long_fork_written_short() {
    let mut due = vec![154, 0, 0, 0];
    due.extend([8, 0, 1, 0, 2, 4, 6, 0]); // 2 keys, 4 clients, 6 records
    due.extend([26, 0, 5, 0, 0, 1, 0, 0, 0, 0]);
    due.extend([1, 0, 0, 0, 1, 0, 0, 0]); // client 0 writes key 0
    due.extend([3, 0, 0, 0, 0, 0, 0, 0]);
    due.extend([26, 0, 5, 0, 1, 1, 0, 0, 0, 0]);
    due.extend([1, 1, 0, 0, 1, 0, 0, 0]); // client 1 writes key 1
    due.extend([3, 0, 0, 0, 0, 0, 0, 0]);
    for (client, values) in [(2, [1, 0]), (3, [0, 1])] {
        let key = client - 2;
        due.extend([18, 0, 6, 0, client, 0, 1 << key, 0, 0, 0]); // shifts at one key
        due.extend([3, 0, 0, 0, 0, 0, 0, 0]);
        due.extend([42, 0, 5, 0, client, 2, 0, 0, 0, 0]); // and reads both
        due.extend([0, 0, 0, 0, values[0], 0, 0, 0]);
        due.extend([0, 1, 0, 0, values[1], 0, 0, 0]);
        due.extend([1 | values[0] << 1, 0, 0, 0, 0, 0, 0, 0]);
        due.extend([1 | values[1] << 1, 0, 0, 0, 0, 0, 0, 0]);
    }
    due[0] = due.len() as u8;
    assert_eq!(short_of(&encode(&trace_c())), due);
    assert_eq!(long_of(&due), encode(&trace_c()));
}

/// A kind 6 with a set, masks as they come; a mask is eight bytes of which all
/// but the first are 0.
fn shift_at(client: u8, set: u32, held: &[u8]) -> Vec<u8> {
    let mut bytes = vec![10 + 8 * held.len() as u8, 0, 6, 0, client, 0];
    bytes.extend(set.to_le_bytes());
    for &mask in held {
        bytes.extend([mask, 0, 0, 0, 0, 0, 0, 0]);
    }
    bytes
}

/// A kind 5 with operations (kind, key, value) and masks.
fn commit_at(client: u8, session: u8, operations: &[(u8, u8, u8)], held: &[u8]) -> Vec<u8> {
    let length = 10 + 8 * (operations.len() + held.len()) as u16;
    let mut bytes = length.to_le_bytes().to_vec();
    bytes.extend([5, 0, client, operations.len() as u8, session, 0, 0, 0]);
    for &(kind, key, value) in operations {
        bytes.extend([kind, key, 0, 0, value, 0, 0, 0]);
    }
    for &mask in held {
        bytes.extend([mask, 0, 0, 0, 0, 0, 0, 0]);
    }
    bytes
}

/// A key that is not listed keeps what the client's own view had, also what a
/// commit before left there.
#[test]
fn a_key_that_is_not_listed_keeps_its_versions() {
    let short = file(
        3,
        2,
        &[
            &commit_at(0, 0, &[(1, 0, 7)], &[3]),
            &commit_at(0, 1, &[(1, 2, 8)], &[3]),
            &shift_at(1, 0b100, &[3]),
            &commit_at(0, 2, &[(0, 0, 7), (0, 2, 8)], &[3, 3]),
            &commit_at(1, 0, &[(0, 0, 0), (1, 1, 9), (0, 2, 8)], &[1, 3, 3]),
            &shift_at(0, 0, &[]),
        ],
    );
    let long = trace(
        3,
        2,
        &[
            commit(0, 0, &[write(0, 7)], &[&[0, 1], &[0], &[0]]),
            commit(0, 1, &[write(2, 8)], &[&[0, 1], &[0], &[0, 1]]),
            shift(1, &[&[0], &[0], &[0, 1]]),
            commit(0, 2, &[read(0, 7), read(2, 8)], &[&[0, 1], &[0], &[0, 1]]),
            commit(
                1,
                0,
                &[read(0, 0), write(1, 9), read(2, 8)],
                &[&[0], &[0, 1], &[0, 1]],
            ),
            shift(0, &[&[0, 1], &[0], &[0, 1]]),
        ],
    );
    assert_eq!(long_of(&short), encode(&long));
    assert_eq!(short_of(&encode(&long)), short);
    assert_eq!(short_of(&short), short);
}

/// An unchanged key may be listed, and is not listed again.
#[test]
fn an_unchanged_key_is_taken_and_not_written() {
    let written = commit_at(0, 0, &[(1, 0, 1)], &[3]);
    let needless = file(2, 2, &[&written, &shift_at(1, 0b11, &[3, 1])]);
    let due = file(2, 2, &[&written, &shift_at(1, 0b01, &[3])]);
    assert_eq!(short_of(&needless), due);
    let nothing = file(2, 2, &[&written, &shift_at(1, 0b11, &[1, 1])]);
    let due = file(2, 2, &[&written, &shift_at(1, 0, &[])]);
    assert_eq!(short_of(&nothing), due);
}

/// Both editions in one file.
#[test]
fn mixed_kinds() {
    let records = [
        record_bytes(&commit(0, 0, &[write(0, 1)], &[&[0, 1], &[0]]), 2),
        shift_at(1, 0b01, &[3]),
        record_bytes(&shift(1, &[&[0, 1], &[0]]), 2),
        commit_at(1, 0, &[(1, 1, 1)], &[3]),
    ];
    let parts: Vec<&[u8]> = records.iter().map(Vec::as_slice).collect();
    let mixed = file(2, 2, &parts);
    let taken = taken(&mixed);
    assert_eq!(kinds(&mixed), [3, 6, 2, 5]);
    assert_eq!(kinds(&long_of(&mixed)), [3, 2, 2, 3]);
    assert_eq!(kinds(&short_of(&mixed)), [5, 6, 6, 5]);
    assert_eq!(taken.report.verdicts, [Verdict::Accepted; 10]);
}

#[test]
fn four_kinds_and_no_other() {
    for kind in 0..=300u16 {
        let mut bytes = vec![4, 0];
        bytes.extend(kind.to_le_bytes());
        let code = if [2, 3, 5, 6].contains(&kind) { 3 } else { 4 };
        assert_eq!(refused(&file(1, 1, &[&bytes])), (code, 1, 0, 0));
    }
}

/// "A set, or an operation's key, beyond the file's end is code 3".
#[test]
fn beyond_the_end() {
    let shift = shift_at(0, 0b11, &[1, 1]);
    let commit = commit_at(0, 0, &[(0, 0, 0), (0, 1, 0)], &[1, 1]);
    for record in [shift, commit] {
        for left in 0..record.len() {
            let mut cut = record[..left].to_vec();
            assert_eq!(refused(&file(2, 1, &[&cut])), (3, 1, 0, 0));
            if left >= 2 {
                cut[0] = left as u8;
                assert_eq!(refused(&file(2, 1, &[&cut])), (3, 1, 0, 0));
            }
        }
        taken(&file(2, 1, &[&record]));
    }
}

/// "10 + 8 for each set bit", also where the bit is above the keys; that is 7
/// then.
#[test]
fn bits_above_the_keys() {
    for keys in [1, 2, 16, 31] {
        for bit in keys..32 {
            let set = 1 << bit | 1;
            let fits = file(keys, 1, &[&shift_at(0, set, &[1, 1])]);
            assert_eq!(refused(&fits), (7, 1, 0, 0), "bit {bit} of {keys} keys");
            let below = file(keys, 1, &[&shift_at(0, set, &[1])]);
            assert_eq!(refused(&below), (3, 1, 0, 0), "bit {bit} of {keys} keys");
        }
        taken(&file(keys, 1, &[&shift_at(0, 1 << (keys - 1), &[1])]));
    }
    taken(&file(32, 1, &[&shift_at(0, 1 << 31, &[1])]));
}

/// "8 for each operation whose key differs from the one before (the first always
/// counts)": keys 0, 1, 0 want three masks.
#[test]
fn masks_by_turns_of_keys() {
    let turned = [(0, 0, 0), (0, 1, 0), (0, 0, 0)];
    for (held, code) in [(&[1; 2][..], 3), (&[1; 3], 7), (&[1; 4], 3)] {
        let file = file(2, 1, &[&commit_at(0, 0, &turned, held)]);
        assert_eq!(refused(&file), (code, 1, 0, 0));
    }
    let both = [(0, 1, 0), (1, 1, 5)];
    for (held, code) in [(&[][..], 3), (&[3, 3], 3)] {
        let file = file(2, 1, &[&commit_at(0, 0, &both, held)]);
        assert_eq!(refused(&file), (code, 1, 0, 0));
    }
    taken(&file(2, 1, &[&commit_at(0, 0, &both, &[3])]));
    let turned = [(1, 1, 5), (0, 1, 0)];
    let file_1 = file(2, 1, &[&commit_at(0, 0, &turned, &[3])]);
    assert_eq!(refused(&file_1), (7, 1, 0, 0));
    let above = file(2, 1, &[&commit_at(0, 0, &[(0, 2, 0)], &[1])]);
    assert_eq!(refused(&above), (7, 1, 0, 0));
}

/// A commit without operations lists nothing: ten bytes.
#[test]
fn a_short_commit_without_operations() {
    let empty = commit_at(0, 9, &[], &[]);
    assert_eq!(empty.len(), 10);
    let file_1 = file(32, 1, &[&empty]);
    assert_eq!(taken(&file_1).report.commits, 1);
    assert_eq!(short_of(&file_1), file_1);
    assert_eq!(long_of(&file_1).len(), 12 + 10 + 8 * 32);
    let with_mask = file(32, 1, &[&commit_at(0, 9, &[], &[1])]);
    assert_eq!(refused(&with_mask), (3, 1, 0, 0));
}

/// 6, then 7, then 8, in a short record as in a long one.
#[test]
fn the_order_within_a_short_record() {
    let mut shift = shift_at(1, 0b10, &[1]);
    assert_eq!(refused(&file(1, 1, &[&shift])), (6, 1, 0, 0));
    shift[4] = 0;
    assert_eq!(refused(&file(1, 1, &[&shift])), (7, 1, 0, 0));
    let empty: Vec<Vec<u8>> = (0..64)
        .map(|number| commit_at(0, number, &[], &[]))
        .collect();
    let mut records: Vec<&[u8]> = empty[..63].iter().map(Vec::as_slice).collect();
    taken(&file(1, 1, &records));
    let wrong = commit_at(1, 0, &[(0, 1, 0)], &[1]);
    records.push(&wrong);
    assert_eq!(refused(&file(1, 1, &records)), (6, 64, 0, 0));
    let wrong = commit_at(0, 0, &[(0, 1, 0)], &[1]);
    records[63] = &wrong;
    assert_eq!(refused(&file(1, 1, &records)), (7, 64, 0, 0));
    records[63] = &empty[63];
    assert_eq!(refused(&file(1, 1, &records)), (8, 64, 0, 0));
}

/// What short records mean is looked at as in long ones; what they do not list
/// is as good as it was.
#[test]
fn the_meaning_of_short_records() {
    let both = commit_at(0, 0, &[(1, 0, 1), (1, 1, 1)], &[3, 3]);
    // Half of a writer: key 1 is not listed, and keeps version 0 alone.
    let half = shift_at(1, 0b01, &[3]);
    assert_eq!(refused(&file(2, 2, &[&both, &half])), (11, 2, 1, 1));
    let bad = shift_at(1, 0b10, &[4]);
    assert_eq!(refused(&file(2, 2, &[&both, &bad])), (10, 2, 1, 0));
    let lost = shift_at(0, 0b11, &[1, 1]);
    assert_eq!(refused(&file(2, 2, &[&both, &lost])), (12, 2, 0, 1));
    let wrong = commit_at(0, 1, &[(0, 1, 5)], &[3]);
    assert_eq!(refused(&file(2, 2, &[&both, &wrong])), (13, 2, 1, 1));
    let again = commit_at(0, 0, &[(0, 1, 1)], &[3]);
    assert_eq!(refused(&file(2, 2, &[&both, &again])), (9, 2, 0, 0));
    let empty = commit_at(1, 7, &[], &[]);
    assert_eq!(refused(&file(2, 2, &[&both, &empty, &empty])), (9, 3, 0, 0));
    let left = commit_at(0, 1, &[(0, 1, 1)], &[1]);
    assert_eq!(refused(&file(2, 2, &[&both, &left])), (11, 2, 1, 1));
}

/// The answers of both calls with buffers of all lengths.
#[test]
fn answers_of_the_conversions() {
    let b = encode(&trace_b());
    for edition in Edition::ALL {
        let needed = b.len(); // in either edition: each record has an operation on the only key
        for length in 0..=needed + 2 {
            let mut buffer = pattern(length);
            let answer = convert(edition, &b, &mut buffer);
            if length < needed {
                assert_eq!(answer, Conversion::Refused(Refusal::at(17, 0)));
                assert!(untouched(&buffer, 0));
            } else {
                assert_eq!(answer, Conversion::Written(needed));
                assert!(untouched(&buffer, needed));
            }
        }
    }
}

/// "15 is not used": the image of a header alone is longer than its file.
#[test]
fn no_image_is_asked_for() {
    let a = encode(&trace_a());
    assert!(taken(&a).image.len() > a.len());
    for edition in Edition::ALL {
        let mut buffer = pattern(a.len());
        let answer = convert(edition, &a, &mut buffer);
        assert_eq!(answer, Conversion::Written(a.len()));
        assert_eq!(buffer, a);
    }
}

/// "a refused file keeps its code", whatever the buffer is.
#[test]
fn a_refused_file_keeps_its_code() {
    let wrong = file(1, 1, &[&commit_at(0, 0, &[(0, 0, 5)], &[1])]);
    for edition in Edition::ALL {
        for length in [0, LONG_FILE] {
            let mut buffer = pattern(length);
            let answer = convert(edition, &wrong, &mut buffer);
            assert_eq!(answer, Conversion::Refused(Refusal::at(13, 1)));
            assert!(untouched(&buffer, 0));
        }
    }
}

/// 22 where the output is past the limit, and before 17.
#[test]
fn an_output_that_is_too_long() {
    let empty = shift_at(0, 0, &[]);
    for (shifts, fits) in [(250, true), (251, false), (6_552, false)] {
        let records: Vec<&[u8]> = vec![&empty; shifts];
        let file = file(32, 1, &records);
        let length = 12 + 262 * shifts;
        assert_eq!(length <= 65_536, fits);
        assert_eq!(
            convert(Edition::Short, &file, &mut pattern(LONG_FILE)),
            Conversion::Written(file.len())
        );
        for room in [0, LONG_FILE] {
            let due = match (fits, room) {
                (false, _) => Conversion::Refused(Refusal::at(22, 0)),
                (_, 0) => Conversion::Refused(Refusal::at(17, 0)),
                _ => Conversion::Written(length),
            };
            assert_eq!(convert(Edition::Long, &file, &mut pattern(room)), due);
        }
    }
}

// What holds of every taken file.

/// The example traces in both editions: the answer of the paper.
#[test]
fn example_traces_in_both_editions() {
    for example in all() {
        match outcome(&example.bytes) {
            Err(refusal) => {
                for edition in Edition::ALL {
                    let answer = convert(edition, &example.bytes, &mut pattern(LONG_FILE));
                    assert_eq!(answer, Conversion::Refused(refusal), "{}", example.name);
                }
            }
            Ok(taken) => {
                editions_hold(&example.bytes, &taken).expect(example.name);
                assert_eq!(taken.long.as_ref(), Ok(&example.bytes), "{}", example.name);
            }
        }
    }
}

#[test]
fn facts_of_both_editions() {
    let (mut checked, mut of_long) = (0, 0);
    let generated = (0..3_000).map(case);
    let growing = (0..24).map(|seed| growing_case(&mut Random::seeded(seed)));
    for case in generated.chain(growing) {
        if let Ok(taken) = outcome(&case.bytes) {
            if let Err(fact) = editions_hold(&case.bytes, &taken) {
                panic!("{} {:?}: {fact}", case.kind, case.grows);
            }
            checked += 1;
            of_long += is_of(&case.bytes, Edition::Long) as usize;
        }
    }
    println!("{checked} taken files, {of_long} of them long");
    assert!(checked > 1_000 && of_long > 300);
}

/// However its records are written, a file means its trace.
#[test]
fn every_mixture_means_the_trace() {
    for seed in 0..1_000 {
        let mut random = Random::seeded(seed);
        let due = Form::default().entries(&taken_case(&mut random).bytes);
        let due = meaning(&due.expect("it is taken"));
        let again = mixed(&mut random, &due);
        let again = Form::default().entries(&again).expect("it is taken");
        assert_eq!(meaning(&again), due, "seed {seed}");
    }
}

/// Each sort of growing file has the lengths that it is made for.
#[test]
fn growing_files() {
    let mut met = BTreeSet::new();
    for seed in 0..60 {
        let case = growing_case(&mut Random::seeded(seed));
        let sort = case.grows.expect("it grows");
        if !met.insert(sort) {
            continue;
        }
        let entries = Form::default().entries(&case.bytes).expect("it is taken");
        let trace = meaning(&entries);
        let [short, long] = Edition::ALL.map(|edition| edition.file(&trace).len());
        match sort {
            "long, at the limit" => assert_eq!(long, 65_536),
            "long, one shift past the limit" => assert_eq!(long, 65_536 + 262),
            "long, far past the limit" => assert!(long > 65_536 && short < 50_000),
            "short, at the limit" => assert_eq!(short, 65_536),
            "short, two bytes past the limit" => assert_eq!(short, 65_538),
            _ => assert!(short > 65_538 && long <= 65_536),
        }
    }
    assert_eq!(met.len(), GROWING.len());
}
