//! The ordinary judge against a plain model: the same answer to every file, the
//! same bytes in the lent buffer, of each call.

use bench::form::COMMITS;
use bench::odd::{self, KINDS};
use bench::traces::{asking, describe, in_edition, timed, traces, Trace};
use bench::{judge_image, Judge, Session};
use model::bare::{is_ring, links, shaped, show, Bare, Shown, ROOM};
use model::buffer::{pattern, untouched, LONG};
use model::facts::accepts;
use model::generate::growing_case;
use model::met::images::Images;
use model::met::Met;
use model::random::Random;
use model::store::CommitNumber;
use model::{outcome, Answer, Call, Conversion, Edition, Outcome, Replay, Verdict};
use std::collections::BTreeMap;

/// A call on one file, of which the model says this, with a buffer of this
/// length: answers and all bytes of the buffers are the same, and what must be
/// untouched is untouched. Answers the code.
fn compare(
    judge: &mut Judge,
    call: Call,
    bytes: &[u8],
    outcome: &Outcome,
    room: usize,
    name: &str,
) -> u8 {
    let name = format!("{}, {name}, buffer of {room}", call.name());
    let (mut buffer, mut due) = (pattern(room), pattern(room));
    let code = match call {
        Call::Judge => {
            let answer = Answer::from(judge.judge(bytes, &mut buffer));
            assert_eq!(answer, model::answer(outcome, &mut due), "{name}");
            answer.code()
        }
        // It has one engine.
        Call::Plain => {
            let mut image = vec![0; Call::Judge.longest()];
            let answer = Answer::from(judge.judge(bytes, &mut image));
            assert_eq!(answer, model::answer(outcome, &mut image), "{name}");
            answer.code()
        }
        Call::Port => {
            let mut session = Session::open();
            for piece in bytes.chunks(1 + room % 99) {
                session.push(piece).expect("it is open");
            }
            let answer = Answer::from(session.close(judge, &mut buffer));
            assert_eq!(answer, model::answer(outcome, &mut due), "{name}");
            answer.code()
        }
        Call::Replay => {
            let answer = Replay::from(judge.replay(bytes, &mut buffer));
            assert_eq!(answer, model::replayed(outcome, &mut due), "{name}");
            answer.code()
        }
        Call::Short | Call::Long => {
            let edition = match call {
                Call::Short => Edition::Short,
                _ => Edition::Long,
            };
            let answer = Conversion::from(judge.convert(edition, bytes, &mut buffer));
            let due = model::written_in(edition, outcome, &mut due);
            assert_eq!(answer, due, "{name}");
            answer.code()
        }
    };
    assert!(buffer == due, "{name}: other bytes");
    let written = match code {
        0 => call.written(outcome).map_or(0, <[u8]>::len),
        _ => 0,
    };
    assert!(untouched(&buffer, written), "{name}: bytes behind");
    code
}

/// One file with a long buffer, and with one that is just long enough and one
/// that is a byte too short if something is written. Answers the judge's code.
fn compare_all(judge: &mut Judge, bytes: &[u8], name: &str) -> u8 {
    let outcome = outcome(bytes);
    let codes = Call::ALL.map(|call| {
        let code = compare(judge, call, bytes, &outcome, call.long(), name);
        if let Some(written) = call.written(&outcome) {
            let needed = written.len();
            let exact = compare(judge, call, bytes, &outcome, needed, name);
            assert_eq!([code, exact], [0; 2], "{name}: exact buffer");
            if let Some(due) = call.own_codes().last() {
                let short = compare(judge, call, bytes, &outcome, needed - 1, name);
                assert_eq!(short, *due, "{name}: short buffer");
            }
        }
        code
    });
    codes[0]
}

#[test]
fn generated_files() {
    let mut judge = Judge::new();
    let met = Met::of(0..20_000, |seed, case, outcome| {
        let name = format!("seed {seed} ({})", case.kind);
        // A short buffer now and then, so that its codes are met as well.
        let shorter = if seed % 7 == 0 {
            1 + seed as usize % 200
        } else {
            1
        };
        let compared = |call: Call| {
            let room = call.long() / shorter;
            let code = compare(&mut judge, call, &case.bytes, outcome, room, &name);
            (call, code)
        };
        Call::ALL.map(compared).to_vec()
    });
    met.print();
    met.lacks_nothing();
}

#[test]
fn example_traces() {
    let mut judge = Judge::new();
    for trace in model::example_traces::all() {
        compare_all(&mut judge, &trace.bytes, trace.name);
    }
}

#[test]
fn timed_traces() {
    let mut judge = Judge::new();
    let sizes = [
        (0, 1),
        (1, 1),
        (2, 2),
        (5, 1),
        (8, 3),
        (8, 17),
        (16, 16),
        (16, 32),
        (30, 5),
        (32, 1),
        (63, 1),
        (63, 2),
        (63, 4),
        (63, 8),
        (63, 16),
        (63, 20),
        (63, 32),
    ];
    for (commits, keys) in sizes {
        for (number, trace) in traces(7, 20, commits, keys).iter().enumerate() {
            let name = format!("{commits} commits, {keys} keys, trace {number}");
            let code = compare_all(&mut judge, &trace.bytes, &name);
            assert_eq!(code, 0, "{name}: not taken");
        }
    }
}

/// The same in the short edition: taken, with the same verdicts and image, and
/// written long again they are what they were. Files that grow past the limit.
#[test]
fn both_editions() {
    let mut judge = Judge::new();
    for (commits, keys) in [
        (0, 1),
        (5, 1),
        (8, 17),
        (16, 32),
        (63, 2),
        (63, 16),
        (63, 32),
    ] {
        let long = traces(7, 10, commits, keys);
        let short = in_edition(&long, Edition::Short);
        for (number, (long, short)) in long.iter().zip(&short).enumerate() {
            let name = format!("{commits} commits, {keys} keys, short trace {number}");
            compare_all(&mut judge, &short.bytes, &name);
            let (mut image, mut again) = (pattern(LONG), pattern(LONG));
            let answer = judge.judge(&long.bytes, &mut image);
            assert_eq!(judge.judge(&short.bytes, &mut again), answer, "{name}");
            assert!(again == image, "{name}: another image");
            let mut back = vec![0; long.bytes.len()];
            judge.convert(Edition::Long, &short.bytes, &mut back);
            assert!(back == long.bytes, "{name}: another long file");
        }
    }
    for seed in 0..24 {
        let case = growing_case(&mut Random::seeded(seed));
        compare_all(&mut judge, &case.bytes, &format!("growing {seed}"));
    }
}

/// The traces that are timed are the ones that the figures are of, and there is
/// something to tell of each level.
#[test]
fn what_is_timed() {
    let sorts = "1000 traces (400 serial, 400 snapshot, 200 wild)";
    for (keys, mean, due) in [
        (
            16,
            "mean: 23365 bytes, 118 records, 906 operations",
            [190, 200, 200, 200, 200, 600, 600, 595, 600, 600],
        ),
        (
            32,
            "mean: 45727 bytes, 118 records, 1813 operations",
            [95, 200, 200, 200, 200, 600, 600, 597, 600, 600],
        ),
    ] {
        let timed = timed(COMMITS, keys);
        assert_eq!(describe(&timed), format!("{sorts}; {mean}"));
        let refusing = refusing(&timed);
        assert_eq!(refusing, due, "{keys} keys: traces that each level refuses");
    }
}

/// A few traces of each kind that no judge was tuned for.
#[test]
fn odd_traces() {
    let mut judge = Judge::new();
    for kind in &KINDS {
        for (number, trace) in kind.traces(3).iter().enumerate() {
            let name = format!("{}, trace {number}", kind.name);
            let code = compare_all(&mut judge, &trace.bytes, &name);
            assert_eq!(u64::from(code), kind.code(), "{name}: another code");
        }
    }
}

/// The kinds that are named after the levels are what their names say.
#[test]
fn what_odd_views_refuse() {
    let refusing_of = |name: &str| {
        let kind = KINDS.iter().find(|kind| kind.name == name);
        refusing(&kind.expect("a kind").traces(odd::NUMBER))
    };
    assert_eq!(refusing_of("odd views, none refuses"), [0; 10]);
    let all = odd::NUMBER;
    assert_eq!(
        refusing_of("odd views, SER alone refuses"),
        [0, 0, 0, 0, 0, 0, 0, 0, 0, all]
    );
    assert_eq!(
        refusing_of("odd views, CC accepts"),
        [0, 0, 0, 0, 0, all, all, all, all, all]
    );
}

/// How many of the traces each level refuses; all of them are taken.
fn refusing(traces: &[Trace]) -> [usize; 10] {
    let mut judge = Judge::new();
    let mut refusing = [0; 10];
    for (number, trace) in traces.iter().enumerate() {
        let answer = judge.judge(&trace.bytes, &mut pattern(LONG));
        let Answer::Judged(report) = Answer::from(answer) else {
            panic!("trace {number}: not taken");
        };
        for (count, verdict) in refusing.iter_mut().zip(report.verdicts) {
            *count += usize::from(verdict != Verdict::Accepted);
        }
    }
    refusing
}

/// The proved calls, as they are timed, on the traces that they are timed with:
/// the words and the bytes written are those of the ordinary judge.
#[cfg(feature = "proved")]
#[test]
fn proved_calls_on_timed_traces() {
    use bench::contender::{
        check, contenders, Timed, JUDGE, LARGE_PIECES, LONG, REPLAY, SHORT, SMALL_PIECES, TAKING,
    };
    use bench::traces::Style;
    let mut contenders = contenders();
    assert_eq!(contenders.len(), 2, "they are linked in");
    check(&mut contenders, &JUDGE, &timed(0, 1));
    for keys in [16, 32] {
        let mut traces = timed(COMMITS, keys);
        check(&mut contenders, &JUDGE, &traces);
        check(&mut contenders, &SHORT, &traces);
        let short = in_edition(&traces, Edition::Short);
        check(&mut contenders, &JUDGE, &short);
        check(&mut contenders, &LONG, &short);
        check(&mut contenders, &LARGE_PIECES, &traces);
        check(&mut contenders, &SMALL_PIECES, &traces);
        traces.retain(|trace| trace.style == Style::Serial);
        check(&mut contenders, &TAKING, &traces);
        check(&mut contenders, &REPLAY, &traces);
    }
    for kind in &KINDS {
        let code = kind.code();
        check(
            &mut contenders,
            &Timed { code, ..JUDGE },
            &kind.traces(odd::NUMBER),
        );
    }
}

/// The timed traces with one bit changed, short and long ones: refusals deep
/// inside a file, and other verdicts.
#[test]
fn spoiled_traces() {
    let mut judge = Judge::new();
    let mut codes: BTreeMap<u8, usize> = BTreeMap::new();
    let sizes = [(60, 12, 5), (40, 12, 20), (40, 63, 2), (10, 63, 4)];
    for (number, commits, keys) in sizes {
        let long = traces(11, number, commits, keys);
        let short = in_edition(&long, Edition::Short);
        for (number, trace) in long.iter().chain(&short).enumerate() {
            let mut bytes = trace.bytes.clone();
            for change in 0..40 {
                let place = (number * 7919 + change * 104_729) % bytes.len();
                let kept = bytes[place];
                bytes[place] ^= 1 << (change % 8);
                let name = format!("{commits} commits, {keys} keys, trace {number}, byte {place}");
                let outcome = outcome(&bytes);
                let [code, ..] = Call::ALL
                    .map(|call| compare(&mut judge, call, &bytes, &outcome, call.long(), &name));
                *codes.entry(code).or_default() += 1;
                bytes[place] = kept;
            }
        }
    }
    println!("spoiled files by code: {codes:?}");
    let met: Vec<u8> = codes.into_keys().collect();
    let due = [0, 1, 2, 3, 4, 5, 6, 7, 9, 10, 11, 12, 13, 14];
    assert_eq!(met, due, "the codes met");
}

/// The judge of images on generated ones: the order is the model's, a ring is one,
/// and what must be untouched is untouched.
#[test]
fn generated_images() {
    let met = Images::of(0..10_000, |seed, case, bare| {
        let check = |room: usize| {
            let (mut shown, mut due) = (pattern(room), pattern(room));
            let answer = Shown::from(judge_image(&case.bytes, &mut shown));
            let mut due_answer = show(bare, &mut due);
            if let (Shown::Ring(_), Shown::Ring(commits)) = (due_answer, answer) {
                let ring = shown[..commits].iter();
                let ring: Vec<CommitNumber> = ring.map(|&byte| CommitNumber(byte.into())).collect();
                let store = shaped(&case.bytes).expect("it is an image");
                assert!(is_ring(&links(&store), &ring), "seed {seed}");
                due = pattern(room);
                due_answer = show(&Bare::Ring(ring), &mut due);
            }
            assert_eq!(answer, due_answer, "seed {seed}");
            assert!(shown == due, "seed {seed}: other bytes");
            answer.code()
        };
        [0, ROOM - 1, ROOM, ROOM + 9].map(check).to_vec()
    });
    met.lacks_nothing();
}

/// The traces that ask much of the paths of links do so to their end: CP and SI
/// accept them, and SER, which wants a whole view, does not.
#[test]
fn asking_traces() {
    let mut judge = Judge::new();
    for keys in [4, 16, 32] {
        for (number, trace) in asking(3, COMMITS, keys).iter().enumerate() {
            compare_all(&mut judge, &trace.bytes, &format!("trace {number}"));
            let taken = outcome(&trace.bytes).expect("a trace that is taken");
            let accepts = |level| accepts(&taken.report, level);
            assert!(
                accepts("CP") && accepts("SI") && !accepts("SER"),
                "{number}"
            );
        }
    }
}
