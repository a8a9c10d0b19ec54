//! Sentences of the paper that could be read in two ways, each pinned by a
//! small file.

use model::buffer::LONG;
use model::by_hand::{commit, read, shift, write};
use model::levels::missing;
use model::relations::so;
use model::store::{CommitNumber, Store};
use model::trace::{encode, with_true_length, Operation, Record, Trace};
use model::{judge, judge_with_room, replay, report, Answer, Refusal, Replay, Report};

fn file(keys: usize, clients: usize, records: &[Record]) -> Vec<u8> {
    encode(&Trace {
        keys,
        clients,
        records: records.to_vec(),
    })
}

fn refused(file: &[u8]) -> (u8, usize, usize, usize) {
    match judge_with_room(file) {
        Answer::Refused(refusal) => (refusal.code, refusal.record, refusal.key, refusal.version),
        Answer::Judged(report) => panic!("{report:?}"),
    }
}

fn taken(file: &[u8]) -> (Report, Vec<u8>) {
    let mut image = vec![0; LONG];
    match judge(file, &mut image) {
        Answer::Judged(report) => (report, image[..report.image_len].to_vec()),
        Answer::Refused(refusal) => panic!("{refusal:?}"),
    }
}

/// Request E2: "Keys go from 16 to 32 in code 2; other limits stay."
#[test]
fn thirty_two_keys_and_sixteen_clients() {
    for (keys, clients) in [(1, 1), (16, 16), (17, 16), (32, 16)] {
        let (report, image) = taken(&file(keys, clients, &[]));
        assert_eq!(report.image_len, 8 + keys * (4 + 16), "{keys} keys");
        assert_eq!(usize::from(image[4]), keys);
    }
    for (keys, clients) in [
        (0, 1),
        (33, 1),
        (255, 1),
        (1, 0),
        (1, 17),
        (1, 32),
        (32, 33),
    ] {
        let refusal = refused(&file(keys, clients, &[]));
        assert_eq!(refusal, (2, 0, 0, 0), "{keys} keys, {clients} clients");
    }
}

/// Request E2: "A commit may have 64 operations", a read and a write of each
/// key. One more is out of order, and key 32 is none.
#[test]
fn sixty_four_operations() {
    let mut operations: Vec<Operation> = (0..Store::MAX_KEYS)
        .flat_map(|key| [read(key, 0), write(key, 1)])
        .collect();
    assert_eq!(operations.len(), 64);
    let both: &[usize] = &[0, 1];
    let held = [both; Store::MAX_KEYS];
    let wide = |operations: &[Operation]| file(32, 1, &[commit(0, 0, operations, &held)]);
    let (report, image) = taken(&wide(&operations));
    assert_eq!(report.image_len, 8 + 8 + 8 * 32 + 32 * (4 + 2 * 16));
    // Of the last key, version 0 is read by commit 1 and version 1 by none.
    let last = &image[image.len() - 32..];
    assert_eq!(last[8..16], [2, 0, 0, 0, 0, 0, 0, 0]);
    assert_eq!(last[16..24], [1, 0, 0, 0, 1, 0, 0, 0]);
    for more in [write(31, 1), read(32, 0)] {
        operations.push(more);
        assert_eq!(refused(&wide(&operations)), (7, 1, 0, 0));
        operations.pop();
    }
}

/// Codes and verdicts name the last key as any other.
#[test]
fn the_last_of_thirty_two_keys_is_named() {
    let opening: &[usize] = &[0];
    let mut held = [opening; Store::MAX_KEYS];
    let wrong = commit(0, 0, &[read(31, 5)], &held);
    assert_eq!(refused(&file(32, 2, &[wrong])), (13, 1, 31, 0));
    let unseen = commit(1, 0, &[write(31, 2)], &held);
    held[31] = &[0, 1];
    let first = commit(0, 0, &[write(31, 1)], &held);
    let (report, _) = taken(&file(32, 2, &[first.clone(), unseen]));
    let text = model::report(&Answer::Judged(report));
    assert!(text.ends_with("SER refused record 2 clause 8 key 31 version 1\n"));
    held[31] = &[0, 2];
    let unborn = shift(1, &held);
    assert_eq!(refused(&file(32, 2, &[first, unborn])), (10, 2, 31, 0));
}

#[test]
fn the_kind_is_looked_at_before_the_length() {
    let good = file(1, 1, &[shift(0, &[&[0]])]);
    for (length, kind, code) in [(0, 9, 4), (0, 2, 3), (0, 3, 3), (14, 1, 4), (13, 2, 3)] {
        let mut bytes = good.clone();
        bytes[12] = length;
        bytes[14] = kind;
        assert_eq!(refused(&bytes), (code, 1, 0, 0));
    }
}

#[test]
fn the_byte_m_beyond_the_end() {
    for left in 0..6 {
        let bytes = file(1, 1, &[commit(0, 0, &[], &[&[0]])]);
        assert_eq!(
            refused(&with_true_length(bytes[..12 + left].to_vec())),
            (3, 1, 0, 0)
        );
    }
}

#[test]
fn a_count_that_is_too_large_or_too_small() {
    let good = file(1, 1, &[shift(0, &[&[0]]), shift(0, &[&[0]])]);
    for (count, expected) in [(3, (3, 3, 0, 0)), (1, (5, 1, 0, 0)), (0, (5, 0, 0, 0))] {
        let mut bytes = good.clone();
        bytes[10] = count;
        assert_eq!(refused(&bytes), expected);
    }
}

#[test]
fn every_byte_called_zero_is_looked_at() {
    let shifted = file(1, 1, &[shift(0, &[&[0]])]);
    let mut bytes = shifted.clone();
    bytes[17] = 1;
    assert_eq!(refused(&bytes), (7, 1, 0, 0));
    let written = file(1, 1, &[commit(0, 0, &[write(0, 1)], &[&[0, 1]])]);
    for place in [24, 25] {
        let mut bytes = written.clone();
        bytes[place] = 1;
        assert_eq!(refused(&bytes), (7, 1, 0, 0));
    }
}

#[test]
fn more_operations_than_fit_are_out_of_order() {
    let bytes = file(
        1,
        1,
        &[commit(
            0,
            0,
            &[read(0, 0), write(0, 1), write(0, 2)],
            &[&[0]],
        )],
    );
    assert_eq!(refused(&bytes), (7, 1, 0, 0));
}

#[test]
fn six_before_seven_before_eight_before_meaning() {
    let mut records = vec![commit(0, 0, &[read(0, 5)], &[&[0]])];
    records.extend((1..64).map(|number| commit(0, number, &[], &[&[0]])));
    assert_eq!(refused(&file(1, 1, &records)), (8, 64, 0, 0));
    records[63] = commit(0, 0, &[write(0, 0), read(0, 0)], &[&[0]]);
    assert_eq!(refused(&file(1, 1, &records)), (7, 64, 0, 0));
    records[63] = commit(1, 0, &[write(0, 0), read(0, 0)], &[&[0]]);
    assert_eq!(refused(&file(1, 1, &records)), (6, 64, 0, 0));
    records.truncate(63);
    assert_eq!(refused(&file(1, 1, &records)), (13, 1, 0, 0));
}

/// Request E13: "code 13 gains the writer's commit number (0 for the opening
/// one)", of the version that is read: not the reader's, and not that of a newer
/// version that the view does not hold. An empty commit has a number too.
#[test]
fn the_writer_of_what_was_read() {
    let mut records = vec![
        commit(0, 0, &[], &[&[0]]),
        commit(0, 1, &[write(0, 5)], &[&[0, 1]]),
        commit(1, 0, &[write(0, 6)], &[&[0, 2]]),
        shift(2, &[&[0]]),
        commit(2, 0, &[read(0, 9)], &[&[0]]),
    ];
    for (held, version, writer) in [
        (&[0][..], 0, 0),
        (&[0, 1], 1, 2),
        (&[0, 2], 2, 3),
        (&[0, 1, 2], 2, 3),
    ] {
        records[3] = shift(2, &[held]);
        let answer = judge_with_room(&file(1, 3, &records));
        let refusal = Refusal {
            version,
            writer,
            ..Refusal::at(13, 5)
        };
        assert_eq!(answer, Answer::Refused(refusal));
        let line = format!("refused 13 record 5 key 0 version {version} writer {writer}\n");
        assert_eq!(report(&answer), line);
    }
}

/// "Other refusals print as before", those that name a version too.
#[test]
fn no_writer_on_another_line() {
    let records = [
        commit(0, 0, &[write(0, 5)], &[&[0, 1]]),
        shift(1, &[&[0, 1]]),
        shift(1, &[&[0]]),
    ];
    let answer = judge_with_room(&file(1, 2, &records));
    assert_eq!(report(&answer), "refused 12 record 3 key 0 version 1\n");
}

/// Request E7: "not above every earlier number of that client in the trace,
/// operations or none". So a commit without operations is bound, and binds.
#[test]
fn a_commit_without_operations_has_a_number_too() {
    let operating = |session| commit(0, session, &[read(0, 0)], &[&[0]]);
    let empty = |session| commit(0, session, &[], &[&[0]]);
    for (first, second) in [(0, 0), (7, 7), (7, 6), (u32::MAX, u32::MAX), (u32::MAX, 0)] {
        for records in [
            [operating(first), operating(second)],
            [operating(first), empty(second)],
            [empty(first), operating(second)],
            [empty(first), empty(second)],
        ] {
            assert_eq!(refused(&file(1, 1, &records)), (9, 2, 0, 0));
        }
    }
    let rising = [
        empty(3),
        operating(5),
        empty(6),
        empty(9),
        operating(u32::MAX),
    ];
    taken(&file(1, 1, &rising));
}

/// Every earlier number, not the last one of each sort: here the commit with
/// operations behind the one without has the greater number, and here before.
#[test]
fn a_number_is_above_those_of_both_sorts() {
    let operating = |session| commit(0, session, &[read(0, 0)], &[&[0]]);
    let empty = |session| commit(0, session, &[], &[&[0]]);
    for records in [[empty(3), operating(7)], [operating(3), empty(7)]] {
        for (session, is_taken) in [(2, false), (3, false), (5, false), (7, false), (8, true)] {
            for last in [operating(session), empty(session)] {
                let records = [records[0].clone(), records[1].clone(), last];
                match is_taken {
                    true => drop(taken(&file(1, 1, &records))),
                    false => assert_eq!(refused(&file(1, 1, &records)), (9, 3, 0, 0)),
                }
            }
        }
    }
}

/// "of that client": the numbers of another bind nobody else.
#[test]
fn each_client_has_numbers_of_its_own() {
    let empty = |client, session| commit(client, session, &[], &[&[0]]);
    let records = [empty(0, 7), empty(1, 7), empty(1, 8), empty(0, 8)];
    taken(&file(1, 2, &records));
    let records = [empty(0, 7), empty(1, 3), empty(0, 3)];
    assert_eq!(refused(&file(1, 2, &records)), (9, 3, 0, 0));
}

/// SO is as it was: a commit without operations is in no pair of it.
#[test]
fn a_commit_without_operations_is_in_no_session_order() {
    let records = [
        commit(0, 0, &[write(0, 1)], &[&[0, 1]]),
        commit(0, 1, &[], &[&[0, 1]]),
        commit(0, 2, &[read(0, 1)], &[&[0, 1]]),
    ];
    let (_, run) = model::facts::taken(&file(1, 1, &records)).expect("it is taken");
    let (first, last) = (CommitNumber(1), CommitNumber(3));
    assert_eq!(so(&run.store), [(first, last)].into_iter().collect());
}

#[test]
fn ten_over_all_keys_before_eleven() {
    let both = commit(0, 0, &[write(0, 1), write(1, 1)], &[&[0, 1], &[0, 1]]);
    let half_and_bad = shift(1, &[&[0], &[0, 1, 2]]);
    assert_eq!(
        refused(&file(2, 2, &[both.clone(), half_and_bad])),
        (10, 2, 1, 0)
    );
    let half = shift(1, &[&[0], &[0, 1]]);
    assert_eq!(refused(&file(2, 2, &[both, half])), (11, 2, 0, 1));
}

#[test]
fn eleven_names_the_least_over_all_writers() {
    let records = [
        commit(0, 0, &[write(1, 1), write(2, 1)], &[&[0], &[0, 1], &[0, 1]]),
        commit(
            0,
            1,
            &[write(0, 1), write(2, 1)],
            &[&[0, 1], &[0, 1], &[0, 1, 2]],
        ),
        shift(1, &[&[0], &[0], &[0, 1, 2]]),
    ];
    assert_eq!(refused(&file(3, 2, &records)), (11, 3, 0, 1));
}

#[test]
fn eleven_before_twelve_and_fourteen() {
    let both = commit(0, 0, &[write(0, 1), write(1, 1)], &[&[0, 1], &[0, 1]]);
    let lost = shift(0, &[&[0], &[0, 1]]);
    assert_eq!(refused(&file(2, 1, &[both.clone(), lost])), (11, 2, 0, 1));
    let lost = shift(0, &[&[0], &[0]]);
    assert_eq!(refused(&file(2, 1, &[both.clone(), lost])), (12, 2, 0, 1));
    let left = commit(0, 1, &[read(0, 1)], &[&[0], &[0, 1]]);
    assert_eq!(refused(&file(2, 1, &[both.clone(), left])), (11, 2, 0, 1));
    let left = commit(0, 1, &[read(0, 1)], &[&[0], &[0]]);
    assert_eq!(refused(&file(2, 1, &[both, left])), (14, 2, 1, 0));
}

#[test]
fn the_view_after_is_of_the_new_store() {
    // Half of the commit's own versions.
    let half = commit(0, 0, &[write(0, 1), write(1, 1)], &[&[0, 1], &[0]]);
    assert_eq!(refused(&file(2, 1, &[half])), (11, 1, 1, 1));
    let too_new = commit(0, 0, &[write(0, 1)], &[&[0, 1, 2]]);
    assert_eq!(refused(&file(1, 1, &[too_new])), (10, 1, 0, 0));
}

#[test]
fn at_a_key_that_is_read_the_view_after_may_gain() {
    let records = [
        commit(0, 0, &[write(0, 1)], &[&[0, 1]]),
        commit(1, 0, &[read(0, 0)], &[&[0, 1]]),
    ];
    taken(&file(1, 2, &records));
}

#[test]
fn a_read_of_a_key_also_written_sees_the_version_before() {
    let records = [commit(0, 0, &[read(0, 0), write(0, 7)], &[&[0, 1]])];
    let (_, image) = taken(&file(1, 1, &records));
    // Version 0 is read by commit 1, version 1 by none.
    assert_eq!(
        image[28..44],
        [0, 0, 0, 0, 0, 0, 0, 0, 2, 0, 0, 0, 0, 0, 0, 0]
    );
    assert_eq!(
        image[44..60],
        [7, 0, 0, 0, 1, 0, 0, 0, 0, 0, 0, 0, 0, 0, 0, 0]
    );
}

/// Request E8: "the view u that it was judged from". Commits without operations
/// have one too; shifts and views after change no view that is kept.
#[test]
fn each_commit_keeps_the_view_before_it() {
    let records = [
        commit(0, 0, &[write(0, 1)], &[&[0, 1], &[0]]),
        shift(1, &[&[0, 1], &[0]]),
        commit(1, 0, &[], &[&[0, 1], &[0]]),
        commit(1, 1, &[write(0, 2), read(1, 0)], &[&[0], &[0]]),
        commit(1, 2, &[write(1, 3)], &[&[0], &[0, 1]]),
        shift(1, &[&[0, 1, 2], &[0, 1]]),
    ];
    let (report, image) = taken(&file(2, 2, &records));
    let masks = |commit: usize| [8, 16].map(|place| image[8 + 24 * commit + place]);
    assert_eq!(report.commits, 4);
    assert_eq!(masks(0), [0b001, 0b1]);
    assert_eq!(masks(1), [0b011, 0b1]);
    assert_eq!(masks(2), [0b011, 0b1]);
    assert_eq!(masks(3), [0b001, 0b1]);
}

#[test]
fn a_commit_without_operations_is_judged_from_its_view() {
    let records = [
        commit(0, 0, &[write(0, 1)], &[&[0, 1]]),
        commit(1, 0, &[], &[&[0]]),
    ];
    let (report, _) = taken(&file(1, 2, &records));
    let text = model::report(&Answer::Judged(report));
    assert!(text.ends_with("SER refused record 2 clause 8 key 0 version 1\n"));
    assert_eq!(text.matches(" accepted").count(), 9);
}

/// What RYW says of a trace.
fn ryw(keys: usize, clients: usize, records: &[Record]) -> String {
    let (report, _) = taken(&file(keys, clients, records));
    let text = model::report(&Answer::Judged(report));
    let line = text.lines().find_map(|line| line.strip_prefix("RYW "));
    line.expect("a verdict").to_string()
}

/// Request E4: "u' holds every version written by this commit or by any commit
/// before it in SO", also where the commit writes nothing itself, and after
/// commits that wrote nothing. A version that another client wrote is not asked.
#[test]
fn read_your_writes_covers_the_whole_session() {
    let wrote = commit(0, 0, &[write(0, 1)], &[&[0, 1], &[0]]);
    let saw = commit(0, 1, &[read(0, 1)], &[&[0, 1], &[0]]);
    let other = commit(1, 0, &[write(0, 2)], &[&[0, 2], &[0]]);
    let refused = "refused record 4 clause 2 key 0 version 1";
    for last in [
        commit(0, 2, &[read(0, 1)], &[&[0], &[0]]),
        commit(0, 2, &[write(0, 3)], &[&[0, 3], &[0]]),
        commit(0, 2, &[read(0, 1), write(1, 3)], &[&[0, 2], &[0, 1]]),
    ] {
        let records = [wrote.clone(), saw.clone(), other.clone(), last];
        assert_eq!(ryw(2, 2, &records), refused);
    }
    let all = commit(0, 2, &[write(0, 3)], &[&[0, 1, 3], &[0]]);
    assert_eq!(ryw(2, 2, &[wrote, saw, other, all]), "accepted");
}

/// The least version of all that are missing, be it the commit's own or not.
#[test]
fn read_your_writes_names_the_least_of_the_session() {
    let lower = commit(0, 0, &[write(0, 1)], &[&[0, 1], &[0]]);
    let upper = commit(0, 0, &[write(1, 1)], &[&[0], &[0, 1]]);
    let lost_lower = commit(0, 1, &[read(0, 1), write(1, 2)], &[&[0], &[0]]);
    let lost_upper = commit(0, 1, &[write(0, 2), read(1, 1)], &[&[0], &[0]]);
    let refused = "refused record 2 clause 2 key 0 version 1";
    for records in [[lower, lost_lower], [upper, lost_upper]] {
        assert_eq!(ryw(2, 1, &records), refused);
    }
}

/// "A commit without operations asks nothing": the commit before it, which left
/// the client without its version, is the one that fails, and the one behind it
/// is asked again.
#[test]
fn read_your_writes_asks_nothing_of_a_commit_without_operations() {
    let hidden = commit(0, 0, &[write(0, 1)], &[&[0]]);
    let empty = commit(0, 1, &[], &[&[0]]);
    let later = commit(0, 2, &[read(0, 0)], &[&[0]]);
    let records = [hidden, empty, later];
    let (_, run) = model::facts::taken(&file(1, 1, &records)).expect("it is taken");
    let missed: Vec<bool> = run
        .steps
        .iter()
        .map(|step| missing(2, step).is_some())
        .collect();
    assert_eq!(missed, [true, false, true]);
    let refused = "refused record 1 clause 2 key 0 version 1";
    assert_eq!(ryw(1, 1, &records), refused);
}

/// Every commit has a shift before it, one without operations and one of a
/// client that sees everything already too; no other shift is left.
#[test]
fn a_replay_has_one_shift_for_each_commit() {
    let one = commit(0, 0, &[write(0, 1)], &[&[0, 1]]);
    let empty = commit(0, 1, &[], &[&[0, 1]]);
    let trace = [
        shift(1, &[&[0]]),
        one.clone(),
        empty.clone(),
        shift(1, &[&[0, 1]]),
    ];
    let replayed = [shift(0, &[&[0]]), one, shift(0, &[&[0, 1]]), empty];
    let due = file(1, 2, &replayed);
    let mut buffer = vec![0; due.len()];
    let answer = replay(&file(1, 2, &trace), &mut buffer);
    assert_eq!(answer, Replay::Written(due.len()));
    assert_eq!(buffer, due);
}

/// A trace's own code comes before 16, also where SER fails at an earlier
/// record; 16 comes before 17.
#[test]
fn sixteen_after_the_trace_and_before_the_buffer() {
    let mut records = vec![
        commit(0, 0, &[write(0, 1)], &[&[0, 1]]),
        commit(1, 0, &[], &[&[0]]),
    ];
    let no_replay = |records: &[Record]| match replay(&file(1, 2, records), &mut []) {
        Replay::Refused(refusal) => refusal,
        Replay::Written(length) => panic!("{length} bytes"),
    };
    let ser = Refusal {
        version: 1,
        ..Refusal::at(16, 2)
    };
    assert_eq!(no_replay(&records[..1]), Refusal::at(17, 0));
    assert_eq!(no_replay(&records), ser);
    records.push(commit(1, 1, &[write(0, 1)], &[&[0]]));
    assert_eq!(no_replay(&records), ser);
    records.push(commit(1, 1, &[read(0, 0)], &[&[0]]));
    assert_eq!(no_replay(&records), Refusal::at(9, 4));
}
