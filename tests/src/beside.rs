//! The proved calls beside the model: the same answer to a file, or to an image,
//! the same words, and the same bytes in the lent buffer, whatever its length.

use crate::bare::{is_ring, links, shaped, show, Bare, Shown};
use crate::buffer::{pattern, LONG, UNTOUCHED};
use crate::generate::pieces;
use crate::port::{Port, Record, CLOSED};
use crate::random::Random;
use crate::store::CommitNumber;
use crate::visibility;
use crate::words::shown_words;
use crate::{
    answer, replayed, written_in, Answer, Call, Conversion, Edition, Outcome, Replay, Verdict,
};
use consistency::{
    close_session, judge, judge_image, judge_image_words, judge_words, long_words, open_session,
    plain_words, push_piece, replay, replay_words, report_session, short_words, visibility_words,
    Key, Refusal, Session, SessionRecord, Verdicts, VersionNumber, CONVERSION_WORDS, IMAGE_WORDS,
    JUDGE_WORDS, LONGEST_FILE, REPLAY_WORDS,
};

/// Words behind those of an answer, which must not be touched.
const BEHIND: usize = 4;

/// Files of up to so many bytes go through the plain engine once more, as a caller
/// in Rust has it.
const SHORT: usize = 1_000;

/// A call with its answer as words: lent a file, a buffer and the words.
pub type InWords = fn(&[u8], &mut [u8], &mut [u64]) -> u64;

/// A call as it was built, and how many words it asks for.
pub fn in_words(call: Call) -> (InWords, usize) {
    match call {
        Call::Judge => (judge_words, JUDGE_WORDS),
        Call::Replay => (replay_words, REPLAY_WORDS),
        Call::Short => (short_words, CONVERSION_WORDS),
        Call::Long => (long_words, CONVERSION_WORDS),
        Call::Port => (port_words, JUDGE_WORDS),
        Call::Plain => (plain_in_words, JUDGE_WORDS),
    }
}

/// The plain engine, which is lent no buffer.
fn plain_in_words(file: &[u8], _: &mut [u8], words: &mut [u64]) -> u64 {
    plain_words(file, words)
}

/// A file in pieces to a session, cut otherwise for each length of the buffer.
fn port_words(file: &[u8], image: &mut [u8], words: &mut [u64]) -> u64 {
    let mut record = SessionRecord {
        total: UNTOUCHED,
        closed: UNTOUCHED,
    };
    let mut kept = pattern(LONGEST_FILE);
    open_session(&mut record);
    for piece in cut(file, image.len()) {
        assert_eq!(push_piece(&mut record, &mut kept, piece), 0);
    }
    close_session(&mut record, &kept, image, words)
}

/// The same by the type that keeps the bytes itself; a second close is refused,
/// and changes nothing.
fn port(file: &[u8], image: &mut [u8]) -> consistency::Answer {
    let mut session = Session::open();
    for piece in cut(file, image.len() + 1) {
        session.push(piece).expect("it is open");
    }
    let answer = session.close(image);
    let closed = told_refusal(&crate::Refusal::at(CLOSED, 0));
    assert_eq!(session.push(file), Err(closed));
    assert_eq!(session.close(image), consistency::Answer::Refused(closed));
    answer
}

/// The pieces of a file, which vary with a number.
fn cut(file: &[u8], number: usize) -> Vec<&[u8]> {
    let random = &mut Random::seeded((file.len() << 20 | number) as u64);
    let most = random.pick(&[1, 7, 64, 4096, 2 * LONGEST_FILE]);
    pieces(random, file, most)
}

/// The calls of a session as they were built.
pub struct Proved;

impl Port for Proved {
    fn open(&self, record: &mut Record) {
        by_session(record, open_session)
    }

    fn push(&self, record: &mut Record, kept: &mut [u8], piece: &[u8]) -> u64 {
        by_session(record, |session| push_piece(session, kept, piece))
    }

    fn close(&self, record: &mut Record, kept: &[u8], image: &mut [u8], words: &mut [u64]) -> u64 {
        by_session(record, |session| close_session(session, kept, image, words))
    }

    fn report(&self, record: &mut Record, kept: &[u8], image: &mut [u8], text: &mut [u8]) -> usize {
        by_session(record, |session| report_session(session, kept, image, text))
    }
}

/// A call on a record of the model.
fn by_session<A>(record: &mut Record, call: impl FnOnce(&mut SessionRecord) -> A) -> A {
    let mut session = SessionRecord {
        total: record.total,
        closed: record.closed,
    };
    let answer = call(&mut session);
    *record = Record {
        total: session.total,
        closed: session.closed,
    };
    answer
}

/// Holds a call's answer for a file and a buffer of this length to what the
/// model says of the file: the code, the words of the answer and those behind,
/// and every byte of the buffer. Answers the code.
pub fn compare(call: Call, name: &str, file: &[u8], outcome: &Outcome, length: usize) -> u8 {
    let name = format!("{}, {name}, buffer of {length}", call.name());
    let mut due_bytes = pattern(length);
    let mut due_words = call.words(outcome, &mut due_bytes);
    let due_code = due_words[0];

    let (call_in_words, room) = in_words(call);
    due_words.resize(room + BEHIND, UNTOUCHED);
    let mut bytes = pattern(length);
    let mut words = vec![UNTOUCHED; room + BEHIND];
    let code = call_in_words(file, &mut bytes, &mut words);
    assert_eq!(code, due_code, "{name}");
    assert_eq!(words, due_words, "{name}");
    assert!(bytes == due_bytes, "{name}: other bytes");

    let mut bytes = pattern(length);
    match call {
        Call::Judge => {
            let due = answer(outcome, &mut pattern(length));
            assert_eq!(judge(file, &mut bytes), told_answer(&due), "{name}");
        }
        Call::Replay => {
            let due = replayed(outcome, &mut pattern(length));
            assert_eq!(replay(file, &mut bytes), told_replay(&due), "{name}");
        }
        Call::Short => {
            let due = written_in(Edition::Short, outcome, &mut pattern(length));
            let told = consistency::short(file, &mut bytes);
            assert_eq!(told, told_conversion(&due), "{name}");
        }
        Call::Long => {
            let due = written_in(Edition::Long, outcome, &mut pattern(length));
            let told = consistency::long(file, &mut bytes);
            assert_eq!(told, told_conversion(&due), "{name}");
        }
        Call::Port => {
            let due = answer(outcome, &mut pattern(length));
            assert_eq!(port(file, &mut bytes), told_answer(&due), "{name}");
        }
        // The words of every file are compared above, and long ones take it long.
        Call::Plain if file.len() > SHORT => {}
        Call::Plain => {
            let mut image = vec![0; Call::Judge.longest()];
            let due = judge(file, &mut image);
            assert_eq!(due, told_answer(&answer(outcome, &mut image)), "{name}");
            assert_eq!(consistency::plain(file), due, "{name}: the engines differ");
        }
    }
    assert!(bytes == due_bytes, "{name}: other bytes");
    due_code as u8
}

/// Holds the answer for an image and a buffer of this length to what the model
/// says of the image. Which ring is shown is free: it must be one. Answers the
/// code.
pub fn compare_image(name: &str, image: &[u8], bare: &Bare, length: usize) -> u8 {
    let name = format!("{name}, buffer of {length}");
    let mut bytes = pattern(length);
    let mut words = vec![UNTOUCHED; IMAGE_WORDS + BEHIND];
    let code = judge_image_words(image, &mut bytes, &mut words);

    let mut due_bytes = pattern(length);
    let mut shown = show(bare, &mut due_bytes);
    if let Shown::Ring(_) = shown {
        let commits = words[1] as usize;
        let ring = bytes[..commits].iter();
        let ring: Vec<CommitNumber> = ring.map(|&byte| CommitNumber(byte.into())).collect();
        let store = shaped(image).expect("it is no image else");
        assert!(is_ring(&links(&store), &ring), "{name}: {ring:?}");
        due_bytes = pattern(length);
        shown = show(&Bare::Ring(ring), &mut due_bytes);
    }
    let mut due_words = shown_words(&shown);
    due_words.resize(IMAGE_WORDS + BEHIND, UNTOUCHED);
    assert_eq!(code, u64::from(shown.code()), "{name}");
    assert_eq!(words, due_words, "{name}");
    assert!(bytes == due_bytes, "{name}: other bytes");

    let mut bytes = pattern(length);
    let told = match shown {
        Shown::Refused(refusal) => consistency::Bare::Refused(told_refusal(&refusal)),
        Shown::Order(commits) => consistency::Bare::Order(commits),
        Shown::Ring(commits) => consistency::Bare::Ring(commits),
    };
    assert_eq!(judge_image(image, &mut bytes), told, "{name}");
    assert!(bytes == due_bytes, "{name}: other bytes");
    shown.code()
}

/// Holds the answer of the call that says which commit is visible to which, for a
/// file, an image buffer of this length and a table of so many rows, to what the
/// model says of the file: code, words, every byte and every row. Answers the code.
pub fn compare_visibility(
    name: &str,
    file: &[u8],
    outcome: &Outcome,
    room: usize,
    rows: usize,
) -> u8 {
    let name = format!("visibility, {name}, buffer of {room}, {rows} rows");
    let (mut due_bytes, mut due_rows) = (pattern(room), visibility::pattern(rows));
    let due = visibility::reported(outcome, &mut due_bytes, &mut due_rows);
    let mut due_words = crate::words::judge_words(&due);
    due_words.resize(JUDGE_WORDS + BEHIND, UNTOUCHED);

    let (mut bytes, mut table) = (pattern(room), visibility::pattern(rows));
    let mut words = vec![UNTOUCHED; JUDGE_WORDS + BEHIND];
    let code = visibility_words(file, &mut bytes, &mut table, &mut words);
    assert_eq!(code, u64::from(due.code()), "{name}");
    assert_eq!(words, due_words, "{name}");
    assert!(bytes == due_bytes, "{name}: other bytes");
    assert_eq!(table, due_rows, "{name}");

    let (mut bytes, mut table) = (pattern(room), visibility::pattern(rows));
    let told = consistency::visibility(file, &mut bytes, &mut table);
    assert_eq!(told, told_answer(&due), "{name}");
    assert!(bytes == due_bytes, "{name}: other bytes");
    assert_eq!(table, due_rows, "{name}");
    due.code()
}

/// The same with every number of rows that is tried and an image buffer that is
/// just long enough; and, with just enough rows and one less, one that is a byte too
/// short and a long one.
pub fn compare_visibilities(name: &str, file: &[u8], outcome: &Outcome) -> Vec<u8> {
    let taken = outcome.as_ref().ok();
    let commits = taken.map_or(0, |taken| taken.store.authors.len());
    let needed = taken.map_or(1, |taken| taken.image.len());
    let tables = visibility::tables(commits).into_iter();
    let mut pairs: Vec<(usize, usize)> = tables.map(|rows| (needed, rows)).collect();
    for rows in [commits.saturating_sub(1), commits] {
        pairs.extend([(needed - 1, rows), (LONG, rows)]);
    }
    pairs
        .into_iter()
        .map(|(room, rows)| compare_visibility(name, file, outcome, room, rows))
        .collect()
}

/// Answers of the model in the types for callers in Rust.
fn told_answer(answer: &Answer) -> consistency::Answer {
    match *answer {
        Answer::Refused(refusal) => consistency::Answer::Refused(told_refusal(&refusal)),
        Answer::Judged(report) => {
            let [mr, mw, ryw, wfr, cc, ua, psi, cp, si, ser] = report.verdicts.map(told_verdict);
            consistency::Answer::Judged {
                verdicts: Verdicts {
                    mr,
                    mw,
                    ryw,
                    wfr,
                    cc,
                    ua,
                    psi,
                    cp,
                    si,
                    ser,
                },
                records: report.records,
                commits: report.commits,
                image_length: report.image_len,
            }
        }
    }
}

fn told_replay(answer: &Replay) -> consistency::Replay {
    match *answer {
        Replay::Refused(refusal) => consistency::Replay::Refused(told_refusal(&refusal)),
        Replay::Written(length) => consistency::Replay::Written(length),
    }
}

fn told_conversion(answer: &Conversion) -> consistency::Conversion {
    match *answer {
        Conversion::Refused(refusal) => consistency::Conversion::Refused(told_refusal(&refusal)),
        Conversion::Written(length) => consistency::Conversion::Written(length),
    }
}

fn told_refusal(refusal: &crate::Refusal) -> Refusal {
    Refusal {
        code: refusal.code,
        record: refusal.record,
        key: Key(refusal.key),
        version: VersionNumber(refusal.version),
        writer: consistency::CommitNumber(refusal.writer),
    }
}

fn told_verdict(verdict: Verdict) -> consistency::Verdict {
    match verdict {
        Verdict::Accepted => consistency::Verdict::Accepted,
        Verdict::Refused {
            record,
            clause,
            key,
            version,
            ..
        } => consistency::Verdict::Refused {
            record,
            clause,
            key: Key(key),
            version: VersionNumber(version),
        },
    }
}
