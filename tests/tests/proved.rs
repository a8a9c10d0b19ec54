//! The proved calls against the model on generated files, each with buffers of
//! many lengths.

use consistency::{
    judge_words, replay, Answer, Conversion, Replay, Verdict, JUDGE_WORDS, LONGEST_FILE,
    LONGEST_IMAGE, LONGEST_REPLAY, LONGEST_REPORT, NO_ROOM,
};
use model::beside::{compare, compare_visibilities, in_words};
use model::buffer::{pattern, untouched, LONG};
use model::files::files;
use model::generate::{file, growing_case, largest_serial};
use model::met::Met;
use model::random::Random;
use model::serial::holds_by_hand;
use model::trace::encode;
use model::{form, image, judge, outcome, report, Call, Outcome};
use std::thread;

const FILES: u64 = 100_000;
const THREADS: u64 = 2;

/// One thread's share: the files of this seed and of each `THREADS`th after it.
fn compare_from(first: u64) -> Met {
    let seeds = (first..FILES).step_by(THREADS as usize);
    Met::of(seeds, |seed, case, outcome| {
        let name = format!("seed {seed}");
        read_back(&name, &case.bytes, outcome);
        convert_back(&name, &case.bytes, outcome);
        compare_visibilities(&name, &case.bytes, outcome);
        let calls = Call::ALL.into_iter();
        calls
            .flat_map(|call| compare_all(call, &name, &case.bytes, outcome))
            .collect()
    })
}

/// A call on one file, with buffers of all lengths that are tried.
fn compare_all(call: Call, name: &str, file: &[u8], outcome: &Outcome) -> Vec<(Call, u8)> {
    let lengths = call.lengths(outcome).into_iter();
    lengths
        .map(|length| (call, compare(call, name, file, outcome, length)))
        .collect()
}

/// A replay that was written is judged: ten levels accept it, and it has the
/// image of the trace. Its own replay is the same file.
fn read_back(name: &str, file: &[u8], outcome: &Outcome) {
    let Some(due) = Call::Replay.written(outcome) else {
        return;
    };
    let mut buffer = vec![0; LONGEST_REPLAY];
    assert_eq!(replay(file, &mut buffer), Replay::Written(due.len()));
    let written = &buffer[..due.len()];

    let image = Call::Judge.written(outcome).expect("it is taken");
    let mut again = vec![0; image.len()];
    let mut words = [7; JUDGE_WORDS];
    assert_eq!(judge_words(written, &mut again, &mut words), 0, "{name}");
    assert_eq!(words[4..], [0; JUDGE_WORDS - 4], "{name}: a level refuses");
    assert!(again == image, "{name}: another image");

    let mut again = vec![0; due.len()];
    assert_eq!(replay(written, &mut again), Replay::Written(due.len()));
    assert!(again == written, "{name}: another replay");
}

/// A trace that was written in an edition is judged: it has the answer and the
/// image of the file that was read. It is written again: each edition is what it
/// was.
fn convert_back(name: &str, file: &[u8], outcome: &Outcome) {
    let Ok(taken) = outcome else {
        return;
    };
    let mut image = vec![0; taken.image.len()];
    let mut words = [7; JUDGE_WORDS];
    assert_eq!(judge_words(file, &mut image, &mut words), 0, "{name}");
    let editions = EDITIONS.map(|call| {
        let mut buffer = vec![0; LONGEST_FILE];
        let written = match call(file, &mut buffer) {
            Conversion::Refused(_) => None,
            Conversion::Written(length) => Some(length),
        };
        written.map(|length| buffer[..length].to_vec())
    });
    for written in editions.iter().flatten() {
        let mut again = vec![0; image.len()];
        let mut other_words = [7; JUDGE_WORDS];
        let code = judge_words(written, &mut again, &mut other_words);
        assert_eq!(code, 0, "{name}: an edition is refused");
        assert_eq!(other_words, words, "{name}: other verdicts");
        assert!(again == image, "{name}: another image");
        for (call, due) in EDITIONS.iter().zip(&editions) {
            let Some(due) = due else {
                continue;
            };
            let mut again = vec![0; due.len()];
            let answer = call(written, &mut again);
            assert_eq!(answer, Conversion::Written(due.len()), "{name}");
            assert!(again == *due, "{name}: another edition");
        }
    }
}

/// A call that writes a trace in an edition: short, and long.
type Converting = fn(&[u8], &mut [u8]) -> Conversion;
const EDITIONS: [Converting; 2] = [consistency::short, consistency::long];

#[test]
fn the_proved_calls_answer_as_the_model() {
    let threads: Vec<_> = (0..THREADS)
        .map(|first| thread::spawn(move || compare_from(first)))
        .collect();
    let mut met = Met::default();
    for thread in threads {
        met.add(thread.join().expect("a file is answered otherwise"));
    }
    met.print();
    met.lacks_nothing();
}

/// The example traces and the files of the first seeds.
fn first_files(seeds: u64) -> impl Iterator<Item = Vec<u8>> {
    let examples = files().into_iter().map(|(_, example)| example.bytes);
    examples.chain((0..seeds).map(file))
}

/// From none to 8 bytes more than enough.
#[test]
fn every_length_of_the_buffer() {
    for (place, file) in first_files(60).enumerate() {
        let outcome = outcome(&file);
        for call in Call::ALL {
            let needed = call.written(&outcome).map_or(0, <[u8]>::len);
            for length in 0..=needed + 8 {
                compare(call, &format!("file {place}"), &file, &outcome, length);
            }
        }
    }
}

#[test]
fn the_longest_replays() {
    for seed in 0..20 {
        let file = encode(&largest_serial(&mut Random::seeded(seed)).trace);
        let (name, outcome) = (format!("largest {seed}"), outcome(&file));
        read_back(&name, &file, &outcome);
        compare_all(Call::Replay, &name, &file, &outcome);
        let written = Call::Replay.written(&outcome).expect("SER accepts");
        assert_eq!(written.len(), LONGEST_REPLAY, "{name}");
    }
}

/// Files of which an edition is as long as a file may be, or longer.
#[test]
fn growing_files() {
    for seed in 0..60 {
        let file = growing_case(&mut Random::seeded(seed)).bytes;
        let (name, outcome) = (format!("growing {seed}"), outcome(&file));
        convert_back(&name, &file, &outcome);
        for call in Call::ALL {
            compare_all(call, &name, &file, &outcome);
        }
    }
}

/// Request E11 of what was built: where its SER accepts, the commits of the file run
/// by hand on a table of values come to the newest versions in the image that it
/// wrote.
#[test]
fn serial_runs_by_hand() {
    let (mut held, mut failed) = (0, 0);
    for (place, file) in first_files(20_000).enumerate() {
        let mut written = vec![0; LONGEST_IMAGE];
        let Answer::Judged {
            verdicts,
            image_length,
            ..
        } = consistency::judge(&file, &mut written)
        else {
            continue;
        };
        let trace = form::read(&file).expect("it is taken");
        let store = image::read_back(&written[..image_length]).expect("an image");
        let by_hand = holds_by_hand(&trace, &store);
        if verdicts.ser == Verdict::Accepted {
            assert_eq!(by_hand, Ok(()), "file {place}");
            held += 1;
        } else {
            failed += usize::from(by_hand.is_err());
        }
    }
    println!("serial runs by hand: {held}; where SER refuses, {failed} fail");
    assert!(held > 0 && failed > 0);
}

#[test]
fn without_room_for_the_words_nothing_is_done() {
    for (name, example) in files() {
        for call in Call::ALL {
            let (in_words, needed) = in_words(call);
            for room in 0..needed {
                let mut buffer = pattern(call.long());
                let mut words = vec![7; room];
                let code = in_words(&example.bytes, &mut buffer, &mut words);
                assert_eq!(code, NO_ROOM, "{name}");
                assert!(words.iter().all(|&word| word == 7), "{name}");
                assert!(untouched(&buffer, 0), "{name}");
            }
        }
    }
}

/// The report of the first files, and no byte behind it.
#[test]
fn the_report_is_the_models() {
    for (place, file) in first_files(20_000).enumerate() {
        for room in [0, LONG] {
            let mut due_image = pattern(room);
            let due = report(&judge(&file, &mut due_image));
            let mut image = pattern(room);
            let mut text = pattern(LONGEST_REPORT + 9);
            let length = consistency::report(&file, &mut image, &mut text);
            assert_eq!(text[..length], *due.as_bytes(), "file {place}");
            assert!(untouched(&text, length), "file {place}");
            assert!(image == due_image, "file {place}");
        }
    }
}

#[test]
fn without_room_for_the_report_nothing_is_judged() {
    for (name, example) in files() {
        for room in [0, 1, 100, LONGEST_REPORT - 1] {
            let mut image = pattern(LONG);
            let mut text = vec![7; room];
            assert_eq!(
                consistency::report(&example.bytes, &mut image, &mut text),
                0
            );
            assert!(text.iter().all(|&byte| byte == 7), "{name}");
            assert!(untouched(&image, 0), "{name}");
        }
    }
}
