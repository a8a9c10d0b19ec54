//! Generated files through the model: what is known of each answer, demand 3
//! on the taken ones, and a count of everything that was met.

use model::buffer::{pattern, untouched};
use model::facts::{
    accepts, demand_3_holds, entries_differ, has_ring_without_adjacent_rw,
    has_ring_without_adjacent_rw_by_closure, numbers_rise, stored_views_hold, taken,
    visibility_holds,
};
use model::generate::{file, taken_case, Case, Expected};
use model::levels::missing;
use model::met::{possible_combinations, Met};
use model::own_writes::{changed_verdicts, lacked};
use model::random::Random;
use model::run::Run;
use model::serial::holds_by_hand;
use model::visibility::rows;
use model::{answer, report, Answer, Call, Outcome, Taken, Verdict};
use std::collections::BTreeSet;

const FILES: u64 = 20_000;

#[test]
fn generated_files() {
    let (mut rings, mut accepted, mut refused, mut not_by_hand) = (0, 0, 0, 0);
    let met = Met::of(0..FILES, |seed, case, outcome| {
        check_expected(seed, case, outcome);
        if let Ok(taken) = outcome {
            let told = check_facts(seed, &case.bytes, taken);
            rings += usize::from(told.ring);
            accepted += usize::from(told.serial);
            refused += usize::from(!told.serial);
            not_by_hand += usize::from(!told.serial && !told.by_hand);
        }
        check_lines(seed, outcome);
        let calls = Call::ALL.into_iter();
        calls
            .flat_map(|call| check_buffers(seed, call, outcome))
            .collect()
    });
    met.print();
    println!("rings without two RW links side by side: {rings}");
    println!("replays and serial runs checked: {accepted}");
    println!("no serial run by hand: {not_by_hand} of {refused} that SER refuses");
    met.lacks_nothing();
    assert!(rings > 0 && accepted > 0);
    assert!(not_by_hand * 3 > refused && not_by_hand < refused);
}

#[test]
fn thirty_nine_combinations_are_possible() {
    assert_eq!(possible_combinations().len(), 39);
}

/// The first taken traces that are not long.
fn runs() -> impl Iterator<Item = (u64, Run)> {
    let run = |seed| {
        let (_, run) = taken(&taken_case(&mut Random::seeded(seed)).bytes).expect("taken");
        (seed, run)
    };
    (0..6_000).map(run).filter(|(_, run)| run.steps.len() <= 16)
}

/// Request E4 amends a clause of five levels, and changes what RYW says alone:
/// it fails now where it did not before, or earlier, or by a lesser version.
#[test]
fn the_wider_clause_2_changes_ryw_alone() {
    let (mut traces, mut accepted, mut earlier, mut lesser) = (0, 0, 0, 0);
    for (seed, run) in runs() {
        traces += 1;
        for (level, before, now) in changed_verdicts(&run) {
            assert_eq!(level, "RYW", "seed {seed}");
            match (place(&before), place(&now)) {
                (None, Some(_)) => accepted += 1,
                (Some(before), Some(now)) if now.0 < before.0 => earlier += 1,
                (Some(before), Some(now)) if now < before => lesser += 1,
                _ => panic!("seed {seed}: {before:?} before, {now:?} now"),
            }
        }
    }
    println!("{traces} traces");
    println!("RYW accepted before: {accepted}, failed later: {earlier}, named another: {lesser}");
    assert!(accepted > 0 && earlier > 0 && lesser > 0);
}

/// Commit, key and version of a failure.
fn place(verdict: &Verdict) -> Option<(usize, usize, usize)> {
    match *verdict {
        Verdict::Accepted => None,
        Verdict::Refused {
            commit,
            key,
            version,
            ..
        } => Some((commit, key, version)),
    }
}

/// Of a commit with operations clause 2 wants all versions of its client, and
/// of another none.
#[test]
fn clause_2_wants_the_versions_of_the_client() {
    let (mut missed, mut unasked) = (0, 0);
    for (seed, run) in runs() {
        for step in &run.steps {
            let lacked = lacked(step).first().copied();
            let (due, count) = match step.operations[..] {
                [] => (None, &mut unasked),
                _ => (lacked, &mut missed),
            };
            assert_eq!(missing(2, step), due, "seed {seed}, {:?}", step.commit);
            *count += usize::from(lacked.is_some());
        }
    }
    println!("commits that miss something {missed}, that are not asked {unasked}");
    assert!(missed > 0 && unasked > 0);
}

/// The files of the first seeds are the ones that were counted when the figures
/// in the README were taken, and hardly two of them are the same.
#[test]
fn a_seed_gives_one_file() {
    let files: Vec<Vec<u8>> = (0..2_000).map(file).collect();
    assert_eq!(fingerprint(&files.concat()), 0x8E2E_2270_057D_FD6F);
    let different: BTreeSet<&Vec<u8>> = files.iter().collect();
    assert_eq!(different.len(), 1_994);
}

/// FNV-1a, which is the same on every machine.
fn fingerprint(bytes: &[u8]) -> u64 {
    let mix = |hash: u64, byte: &u8| (hash ^ u64::from(*byte)).wrapping_mul(0x0100_0000_01B3);
    bytes.iter().fold(0xCBF2_9CE4_8422_2325, mix)
}

/// The answer is the one that the file was made for.
fn check_expected(seed: u64, case: &Case, outcome: &Outcome) {
    match (outcome, &case.expected) {
        (Ok(_), Expected::Taken) | (_, Expected::Anything) => {}
        (Err(refusal), Expected::Refused(expected)) => {
            assert_eq!(refusal, expected, "seed {seed}, {}", case.kind)
        }
        (_, expected) => panic!("seed {seed}, {}: {outcome:?}, not {expected:?}", case.kind),
    }
}

/// What is counted of a taken trace: a ring without two RW links side by side;
/// whether SER accepts, so that it has a replay; whether a serial run by hand finds
/// what was read and comes to the final store.
struct Told {
    ring: bool,
    serial: bool,
    by_hand: bool,
}

/// Demand 3 on a file that is taken, what rule 1 comes to, what holds of the views
/// in its image, and of which commit is visible to which.
fn check_facts(seed: u64, file: &[u8], taken: &Taken) -> Told {
    let (trace, run) = model::facts::taken(file).expect("it is taken");
    for fact in [
        demand_3_holds(&trace, taken),
        numbers_rise(&taken.store),
        entries_differ(&taken.image),
        stored_views_hold(&taken.image, &taken.report),
        visibility_holds(&rows(&taken.store), &run, &taken.report),
    ] {
        if let Err(fact) = fact {
            panic!("seed {seed}: {fact}");
        }
    }
    let ring = has_ring_without_adjacent_rw(&taken.store);
    assert_eq!(ring, has_ring_without_adjacent_rw_by_closure(&taken.store));
    Told {
        ring,
        serial: taken.replay.is_ok(),
        by_hand: holds_by_hand(&trace, &taken.store).is_ok(),
    }
}

/// The report has eleven lines or one.
fn check_lines(seed: u64, outcome: &Outcome) {
    let long = answer(outcome, &mut pattern(Call::Judge.long()));
    let lines = match long {
        Answer::Refused(_) => 1,
        Answer::Judged(_) => 11,
    };
    let text = report(&long);
    assert!(text.ends_with('\n'), "seed {seed}");
    assert_eq!(text.matches('\n').count(), lines, "seed {seed}");
}

/// A call on a file, with buffers of some lengths: the codes that it answers.
fn check_buffers(seed: u64, call: Call, outcome: &Outcome) -> Vec<(Call, u8)> {
    let buffers = buffers(seed, call, outcome);
    for &(length, code) in &buffers {
        check_buffer(seed, call, outcome, length, code);
    }
    buffers.into_iter().map(|(_, code)| (call, code)).collect()
}

/// The lengths of buffers to try, and the code that is due with each: a file
/// that is refused gets its code whatever the buffer is; for another a buffer
/// as long as what is written is enough, and a shorter one gets the last code.
fn buffers(seed: u64, call: Call, outcome: &Outcome) -> Vec<(usize, u8)> {
    if let Some(code) = refused(call, outcome) {
        return vec![(0, code), (call.long(), code)];
    }
    let short = match call {
        Call::Judge | Call::Port => 15,
        Call::Replay | Call::Short | Call::Long => 17,
        Call::Plain => return vec![(0, 0)],
    };
    let needed = call.written(outcome).expect("it is written").len();
    let mut buffers = vec![
        (Random::seeded(seed).below(needed), short),
        (needed - 1, short),
        (needed, 0),
        (call.long(), 0),
    ];
    buffers.extend(call.former_len(outcome).map(|former| (former, short)));
    buffers
}

/// The code that a call has for a file before it looks at the buffer.
fn refused(call: Call, outcome: &Outcome) -> Option<u8> {
    match (call, outcome) {
        (_, Err(refusal)) => Some(refusal.code),
        (Call::Replay, Ok(taken)) if !accepts(&taken.report, "SER") => Some(16),
        (Call::Short, Ok(taken)) if taken.short.is_err() => Some(22),
        (Call::Long, Ok(taken)) if taken.long.is_err() => Some(22),
        _ => None,
    }
}

/// Nothing but what is written changes, and a refusal writes nothing.
fn check_buffer(seed: u64, call: Call, outcome: &Outcome, length: usize, code: u8) {
    let name = format!("seed {seed}, {}, buffer of {length}", call.name());
    let mut buffer = pattern(length);
    let words = call.words(outcome, &mut buffer);
    assert_eq!(words[0], u64::from(code), "{name}");
    let written = match code {
        0 => call.written(outcome).expect("it is written"),
        _ => &[],
    };
    assert!(buffer.starts_with(written), "{name}");
    assert!(untouched(&buffer, written.len()), "{name}");
}
