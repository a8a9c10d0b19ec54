//! A trace file that comes in pieces: the model's session by itself, and the
//! proved calls beside it if they are linked in.

use model::buffer::{pattern, untouched, LONG, UNTOUCHED};
use model::example_traces::{all, trace_b, trace_c};
use model::generate::editions::kinds;
use model::generate::{exactly_full, file, mixed, pieces};
#[cfg(feature = "proved")]
use model::generate::{script, Script};
use model::port::{Caller, Joined, Left, Move, Port, Record, CLOSED, MODEL};
use model::random::Random;
use model::store::Store;
use model::trace::encode;
use model::words::{judge_words, JUDGE, NO_ROOM};
use model::{answer, outcome, report, text, Answer, Outcome, Refusal};
use std::collections::{BTreeMap, BTreeSet};

/// Whose calls are tested.
fn ports() -> Vec<&'static dyn Port> {
    vec![
        &MODEL,
        #[cfg(feature = "proved")]
        &model::beside::Proved,
    ]
}

const MOST: usize = Store::MAX_BYTES;

fn push(piece: &[u8], kept: usize) -> Move {
    let piece = piece.to_vec();
    Move::Push { piece, kept }
}

fn close(kept: usize, image: usize) -> Move {
    Move::Close {
        kept,
        image,
        words: JUDGE + 4,
    }
}

fn report_with(kept: usize, image: usize) -> Move {
    Move::Report {
        kept,
        image,
        text: text::LONGEST + 4,
    }
}

/// What an end leaves whose answer, with the image, is this.
fn ended(end: &Move, answer: impl FnOnce(&mut [u8]) -> Answer) -> Left {
    match *end {
        Move::Close { image, words, .. } => {
            let (mut image, mut words) = (pattern(image), vec![UNTOUCHED; words]);
            let due = judge_words(&answer(&mut image));
            words[..due.len()].copy_from_slice(&due);
            let answer = due[0];
            Left {
                answer,
                image,
                words,
                text: vec![],
            }
        }
        Move::Report { image, text, .. } => {
            let (mut image, mut text) = (pattern(image), pattern(text));
            let due = report(&answer(&mut image));
            text[..due.len()].copy_from_slice(due.as_bytes());
            let answer = due.len() as u64;
            Left {
                answer,
                image,
                words: vec![],
                text,
            }
        }
        _ => panic!("{end:?} is no end"),
    }
}

/// What an end leaves whose answer is a refusal that names nothing.
fn refused(end: &Move, code: u8) -> Left {
    ended(end, |_| Answer::Refused(Refusal::at(code, 0)))
}

/// What an end leaves for a file that comes to this.
fn judged(end: &Move, outcome: &Outcome) -> Left {
    ended(end, |image| answer(outcome, image))
}

/// What an end leaves that has no room for its answer.
fn no_room(end: &Move) -> Left {
    match *end {
        Move::Close { image, words, .. } => Left {
            answer: NO_ROOM,
            image: pattern(image),
            words: vec![UNTOUCHED; words],
            text: vec![],
        },
        Move::Report { image, text, .. } => Left {
            answer: 0,
            image: pattern(image),
            words: vec![],
            text: pattern(text),
        },
        _ => panic!("{end:?} is no end"),
    }
}

/// Pushes the pieces to a new session of each port, and ends it once with words
/// and once with a text: the answer is that for the joined bytes, which come to
/// this, and all that came after is refused and changes nothing.
fn check(name: &str, pieces: &[&[u8]], outcome: &Outcome) {
    for port in ports() {
        for end in [close(MOST, LONG), report_with(MOST, LONG)] {
            let mut caller = Caller::new(MOST);
            for piece in pieces {
                let left = caller.does(port, &push(piece, MOST));
                assert_eq!(left, Left::default(), "{name}: a piece");
            }
            let open = caller.clone();
            assert_eq!(caller.does(port, &end), judged(&end, outcome), "{name}");
            check_closed(name, port, &open, &mut caller);
        }
    }
}

/// The record is that of before, closed; what is kept has not changed; and from
/// now on everything is refused and changes nothing.
fn check_closed(name: &str, port: &dyn Port, open: &Caller, caller: &mut Caller) {
    let total = open.record.total;
    assert_eq!(caller.record, Record { total, closed: 1 }, "{name}");
    assert!(caller.kept == open.kept, "{name}: something is kept");
    let closed = caller.clone();
    let kept = caller.kept.len();
    for end in [close(kept, LONG), report_with(kept, 0), close(0, 0)] {
        let piece = caller.does(port, &push(&[1, 2, 3], kept));
        assert_eq!(piece.answer, CLOSED.into(), "{name}");
        assert_eq!(caller.does(port, &end), refused(&end, CLOSED), "{name}");
        assert!(*caller == closed, "{name}: changed after the close");
    }
}

#[test]
fn every_cut_of_the_lost_update_in_two_and_in_three() {
    let b = encode(&trace_b());
    let due = outcome(&b);
    assert!(due.is_ok());
    check("whole", &[&b], &due);
    for first in 0..=b.len() {
        let (one, rest) = b.split_at(first);
        check(&format!("cut at {first}"), &[one, rest], &due);
        for second in 0..=rest.len() {
            let (two, three) = rest.split_at(second);
            let name = format!("cut at {first} and {}", first + second);
            check(&name, &[one, two, three], &due);
        }
    }
}

#[test]
fn pieces_of_one_byte() {
    for example in all() {
        let pieces: Vec<&[u8]> = example.bytes.chunks(1).collect();
        check(example.name, &pieces, &outcome(&example.bytes));
    }
}

/// A session knows no kinds of records: a file that has all four, cut everywhere,
/// and the short editions byte by byte, which are judged as the long files.
#[test]
fn files_of_both_editions() {
    let mut mixtures = (0..).map(|seed| mixed(&mut Random::seeded(seed), &trace_c()));
    let all_four = |file: &Vec<u8>| BTreeSet::from_iter(kinds(file)).len() == 4;
    let file = mixtures.find(all_four).expect("some mixture has them");
    let due = outcome(&encode(&trace_c()));
    assert!(due.is_ok());
    for first in 0..=file.len() {
        let (one, rest) = file.split_at(first);
        check(&format!("all kinds, cut at {first}"), &[one, rest], &due);
    }
    for example in all() {
        let due = outcome(&example.bytes);
        if let Ok(taken) = &due {
            let short = taken.short.as_ref().expect("it fits");
            let pieces: Vec<&[u8]> = short.chunks(1).collect();
            check(example.name, &pieces, &due);
        }
    }
}

/// Before, behind and between, one or more.
#[test]
fn empty_pieces() {
    check("no piece", &[], &outcome(&[]));
    check("nothing but empty ones", &[&[], &[], &[]], &outcome(&[]));
    for example in all() {
        let due = outcome(&example.bytes);
        for at_a_time in [1, 7, 79, example.bytes.len().max(1)] {
            let mut pieces: Vec<&[u8]> = vec![&[]];
            for (place, piece) in example.bytes.chunks(at_a_time).enumerate() {
                pieces.push(piece);
                pieces.extend(vec![&[] as &[u8]; place % 3]);
            }
            check(example.name, &pieces, &due);
        }
    }
}

/// 65,536 bytes are judged. One more is too many, in a piece of its own or with
/// others, and so is any number more; nothing of it is kept.
#[test]
fn the_longest_file_and_one_byte_more() {
    let full = encode(&exactly_full(&mut Random::seeded(1)).trace);
    assert_eq!(full.len(), MOST);
    let due = outcome(&full);
    assert!(due.is_ok());
    for at_a_time in [1, 64, 1_000, 4_096, MOST - 1, MOST] {
        let whole: Vec<&[u8]> = full.chunks(at_a_time).collect();
        check(&format!("full, {at_a_time} at a time"), &whole, &due);
    }
    let mut long = full.clone();
    long.resize(5 * MOST, 0xEE);
    for more in [1, 2, 64, MOST, 4 * MOST] {
        let long = &long[..MOST + more];
        let due = outcome(long);
        assert_eq!(due.as_ref().err(), Some(&Refusal::at(1, 0)));
        check(
            &format!("{more} more"),
            &[&long[..MOST], &long[MOST..]],
            &due,
        );
        for at_a_time in [64, 999, MOST - 1, MOST, MOST + 1, 5 * MOST] {
            let name = format!("{more} more, {at_a_time} at a time");
            let parts: Vec<&[u8]> = long.chunks(at_a_time).collect();
            check(&name, &parts, &due);
            for port in ports() {
                let mut caller = Caller::new(MOST + 9);
                for part in &parts {
                    caller.does(port, &push(part, MOST + 9));
                }
                assert_eq!(caller.record.total, MOST as u64 + 1, "{name}");
                assert!(caller.kept.starts_with(&full), "{name}");
                assert!(untouched(&caller.kept, MOST), "{name}");
            }
        }
    }
}

/// The buffer holds the file or code 17 is due, and no byte behind the longest
/// file is written. Too many bytes are code 1 whatever the buffer is.
#[test]
fn buffers_of_other_lengths() {
    let b = encode(&trace_b());
    let due = outcome(&b);
    let too_many = vec![0; MOST + 1];
    for length in (0..b.len() + 9).chain(MOST - 3..MOST + 9) {
        for port in ports() {
            for end in [close(length, LONG), report_with(length, LONG)] {
                let mut caller = Caller::new(length);
                for piece in b.chunks(33) {
                    assert_eq!(caller.does(port, &push(piece, length)), Left::default());
                }
                assert_eq!(caller.record.total, b.len() as u64);
                let kept = length.min(b.len());
                assert!(caller.kept.starts_with(&b[..kept]));
                assert!(untouched(&caller.kept, kept));
                let open = caller.clone();
                let left = caller.does(port, &end);
                if length < b.len() {
                    assert_eq!(left, refused(&end, 17), "{length}");
                } else {
                    assert_eq!(left, judged(&end, &due), "{length}");
                }
                check_closed("another length", port, &open, &mut caller);

                let mut caller = Caller::new(length);
                caller.does(port, &push(&too_many, length));
                assert!(untouched(&caller.kept, length.min(MOST)));
                assert_eq!(caller.does(port, &end), refused(&end, 1), "{length}");
            }
        }
    }
}

/// Without room for its answer a close is none: an open session stays open, and
/// of a closed one nothing else is said.
#[test]
fn a_close_without_room() {
    let (kept, image) = (MOST, LONG);
    let words = (0..JUDGE).map(|words| Move::Close { kept, image, words });
    let texts = [0, 1, 100, text::LONGEST - 1];
    let texts = texts.map(|text| Move::Report { kept, image, text });
    let ends: Vec<Move> = words.chain(texts).collect();
    let b = encode(&trace_b());
    let (first, second) = b.split_at(50);
    for port in ports() {
        let mut caller = Caller::new(MOST);
        let does_nothing = |caller: &mut Caller| {
            let before = caller.clone();
            for end in &ends {
                assert_eq!(caller.does(port, end), no_room(end));
                assert!(*caller == before, "{end:?} does something");
            }
        };
        caller.does(port, &push(first, MOST));
        does_nothing(&mut caller);
        caller.does(port, &push(second, MOST));
        does_nothing(&mut caller);
        let end = report_with(MOST, LONG);
        assert_eq!(caller.does(port, &end), judged(&end, &outcome(&b)));
        does_nothing(&mut caller);
    }
}

/// A close closes, whatever it answers: each code that it has.
#[test]
fn every_refusal_has_closed() {
    let mut met = BTreeMap::new();
    for seed in 0..2_000 {
        let file = file(seed);
        let kept = if seed % 7 == 0 { 60 } else { MOST };
        let end = close(kept, if seed % 5 == 0 { 9 } else { LONG });
        let caller = Caller::new(kept);
        for port in ports() {
            let mut caller = caller.clone();
            caller.does(port, &push(&file, kept));
            let open = caller.clone();
            let left = caller.does(port, &end);
            check_closed(&format!("seed {seed}"), port, &open, &mut caller);
            *met.entry(left.answer).or_insert(0) += 1;
        }
    }
    println!("codes of the first close: {met:?}");
    let codes: Vec<u64> = met.into_keys().collect();
    let due: Vec<u64> = (0..=15).chain([17]).collect();
    assert_eq!(codes, due);
}

/// The count stops at one more than a file may have, whatever it was before.
#[test]
fn the_count_does_not_wrap() {
    for port in ports() {
        for before in [
            MOST as u64,
            MOST as u64 + 1,
            1 << 32,
            u64::MAX - 1,
            u64::MAX,
        ] {
            for piece in [&[] as &[u8], &[7], &[7; 100]] {
                let mut caller = Caller::new(MOST + 200);
                caller.record.total = before;
                assert_eq!(caller.does(port, &push(piece, MOST + 200)).answer, 0);
                let count = (u128::from(before) + piece.len() as u128).min(MOST as u128 + 1);
                assert_eq!(caller.record.total, count as u64);
                assert!(untouched(&caller.kept, 0));
            }
        }
    }
}

/// The model's two sessions are one where the paper speaks of both: a record
/// newly opened, pieces alone, a buffer that has room for them.
#[test]
fn the_record_is_as_the_joined_bytes() {
    for seed in 0..3_000 {
        let random = &mut Random::seeded(seed);
        let file = file(seed);
        let most = random.pick(&[1, 10, 100, 1_000, 100_000]);
        let mut joined = Joined::default();
        let mut caller = Caller::new(random.between(file.len().min(MOST), MOST + 9));
        let kept = caller.kept.len();
        for piece in pieces(random, &file, most.max(file.len() / 100)) {
            let code = caller.does(&MODEL, &push(piece, kept)).answer;
            assert_eq!(code, joined.push(piece).into(), "seed {seed}");
        }
        for image in [random.pick(&[0, LONG]), LONG] {
            let end = close(kept, image);
            let due = ended(&end, |image| joined.close(image));
            assert_eq!(caller.does(&MODEL, &end), due, "seed {seed}");
        }
        assert_eq!(caller.does(&MODEL, &push(&file, kept)).answer, 18);
        assert_eq!(joined.push(&file), 18);
    }
}

/// What a caller might do, with any record and any buffers: after each call
/// everything that it has and was lent is as the model says.
#[cfg(feature = "proved")]
#[test]
fn scripts() {
    let mut met: BTreeMap<(&str, u64), usize> = BTreeMap::new();
    for seed in 0..30_000 {
        let Script { mut caller, moves } = script(seed);
        let mut due = caller.clone();
        for (place, next) in moves.iter().enumerate() {
            let name = format!("seed {seed}, move {place}");
            let left = caller.does(&model::beside::Proved, next);
            let left_due = due.does(&MODEL, next);
            assert_eq!(left, left_due, "{name}");
            assert_eq!(caller.record, due.record, "{name}");
            assert!(caller.kept == due.kept, "{name}: other bytes are kept");
            let (call, answer) = match next {
                Move::Open => ("open", 0),
                Move::Push { .. } => ("push", left.answer),
                Move::Close { .. } => ("close", left.answer),
                Move::Report { .. } => ("report of some length", left.answer.min(1)),
            };
            *met.entry((call, answer)).or_default() += 1;
        }
    }
    println!("answers of each call: {met:?}");
    for code in (0..=15).chain([17, CLOSED.into(), NO_ROOM]) {
        assert!(met.contains_key(&("close", code)), "no close with {code}");
    }
    for code in [0, CLOSED.into()] {
        assert!(met.contains_key(&("push", code)), "no piece with {code}");
    }
}
