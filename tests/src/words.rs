//! Answers as words: `crates/words/specs/Layout.antt`.

use crate::bare::Shown;
use crate::levels::LEVELS;
use crate::{Answer, Refusal, Replay, Verdict};

/// The words of a judged trace, and the room that a call wants for its answer.
pub const JUDGE: usize = 4 + 4 * LEVELS.len();

/// The code of a call that has less room, and does nothing.
pub const NO_ROOM: u64 = 255;

pub fn judge_words(answer: &Answer) -> Vec<u64> {
    match *answer {
        Answer::Refused(refusal) => refusal_words(&refusal),
        Answer::Judged(report) => {
            let numbers = [0, report.records, report.commits, report.image_len];
            let mut words = numbers.map(|number| number as u64).to_vec();
            for verdict in report.verdicts {
                words.extend(match verdict {
                    Verdict::Accepted => [0; 4],
                    Verdict::Refused {
                        record,
                        clause,
                        key,
                        version,
                        ..
                    } => [clause.into(), record as u64, key as u64, version as u64],
                });
            }
            words
        }
    }
}

pub fn replay_words(answer: &Replay) -> Vec<u64> {
    match *answer {
        Replay::Refused(refusal) => refusal_words(&refusal),
        Replay::Written(length) => vec![0, length as u64],
    }
}

pub fn shown_words(shown: &Shown) -> Vec<u64> {
    match *shown {
        Shown::Refused(refusal) => refusal_words(&refusal),
        Shown::Order(commits) | Shown::Ring(commits) => {
            vec![shown.code().into(), commits as u64]
        }
    }
}

/// The same for all calls.
fn refusal_words(refusal: &Refusal) -> Vec<u64> {
    let named = [refusal.record, refusal.key, refusal.version, refusal.writer];
    let mut words = vec![refusal.code.into()];
    words.extend(named.map(|number| number as u64));
    words
}
