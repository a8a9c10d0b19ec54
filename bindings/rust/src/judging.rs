//! The call that judges a trace file.

use crate::archive::judge_file;
use crate::refusal::{Key, Refusal, VersionNumber};

/// What a trace file is answered with: a refusal; or ten verdicts, with the
/// image in the lent buffer.
#[allow(clippy::large_enum_variant)] // plain data, copied freely
#[derive(Clone, Copy, PartialEq, Eq, Debug)]
pub enum Answer {
    Refused(Refusal),
    Judged {
        verdicts: Verdicts,
        records: usize,
        commits: usize,
        image_length: usize,
    },
}

/// The verdicts of the ten levels, in report order.
///
/// | level | name | clauses |
/// |---|---|---|
/// | MR | monotonic reads | 1 |
/// | MW | monotonic writes | 3 |
/// | RYW | read your writes | 2 |
/// | WFR | write follows reads | 4 |
/// | CC | causal consistency | 1 2 3 4 |
/// | UA | update atomic | 5 |
/// | PSI | parallel snapshot isolation | 1 2 3 4 5 |
/// | CP | consistent prefix | 1 2 6 |
/// | SI | snapshot isolation | 1 2 5 7 |
/// | SER | serialisability | 8 |
///
/// [`Verdict`] says what the clauses want.
#[derive(Clone, Copy, PartialEq, Eq, Debug)]
pub struct Verdicts {
    pub mr: Verdict,
    pub mw: Verdict,
    pub ryw: Verdict,
    pub wfr: Verdict,
    pub cc: Verdict,
    pub ua: Verdict,
    pub psi: Verdict,
    pub cp: Verdict,
    pub si: Verdict,
    pub ser: Verdict,
}

/// What a level says of a trace: it accepts; or it is refused at the record of
/// the first commit that fails one of its clauses, by the lowest of these, with
/// the least version, by key and then by number, that the clause misses.
///
/// A clause wants versions in a view of the commit's client, 1 and 2 in the view
/// after the commit and the others in the view before it. t is any commit of
/// which the view before holds a version. SO, WR, WW and RW are the links
/// between commits that `docs/FORMAT.md` describes, with an example for each
/// clause; SO;RW? is SO, or SO and then RW.
///
/// | clause | wants |
/// |---|---|
/// | 1 | all that the view before holds |
/// | 2 | all versions by the commit and by those before it in its session, if the commit has operations |
/// | 3 | all versions by the commits before t in its session |
/// | 4 | each version that t, or a commit before t in its session, read |
/// | 5 | every version of each key that the commit writes |
/// | 6 | all versions by the commits that lead to t by one or more of SO;RW?, WR;RW? and WW |
/// | 7 | all versions by the commits that lead to t by one or more of SO;RW?, WR;RW? and WW;RW? |
/// | 8 | every version of every key |
#[derive(Clone, Copy, PartialEq, Eq, Debug)]
pub enum Verdict {
    Accepted,
    Refused {
        record: usize,
        clause: u8,
        key: Key,
        version: VersionNumber,
    },
}

/// The words of an answer of [`judge_words`].
pub const JUDGE_WORDS: usize = 44;

/// [`judge`] and [`judge_words`] take no more stack, in bytes.
pub const JUDGE_STACK: usize = 98_304;

/// Judges one trace file. Where it is judged, the image of its store stands at
/// the start of `image`; no other byte of `image` changes, and none at all
/// where the file is refused.
pub fn judge(file: &[u8], image: &mut [u8]) -> Answer {
    let mut words = [0; JUDGE_WORDS];
    judge_words(file, image, &mut words);
    Answer::of(&words)
}

impl Answer {
    /// The answer whose words a call has left.
    pub(crate) fn of(words: &[u64; JUDGE_WORDS]) -> Answer {
        if words[0] != 0 {
            return Answer::Refused(Refusal::of(words));
        }
        let verdict = |level: usize| verdict_of(&words[4 + 4 * level..8 + 4 * level]);
        Answer::Judged {
            verdicts: Verdicts {
                mr: verdict(0),
                mw: verdict(1),
                ryw: verdict(2),
                wfr: verdict(3),
                cc: verdict(4),
                ua: verdict(5),
                psi: verdict(6),
                cp: verdict(7),
                si: verdict(8),
                ser: verdict(9),
            },
            records: words[1] as usize,
            commits: words[2] as usize,
            image_length: words[3] as usize,
        }
    }
}

/// Clause, record, key and version; clause 0 where the level accepts.
fn verdict_of(words: &[u64]) -> Verdict {
    if words[0] == 0 {
        return Verdict::Accepted;
    }
    Verdict::Refused {
        clause: words[0] as u8,
        record: words[1] as usize,
        key: Key(words[2] as usize),
        version: VersionNumber(words[3] as usize),
    }
}

/// The same with the answer as words at the start of `words`, which
/// `bindings/c/consistency.h` lays out, and its code, which is 0 where the file
/// was judged. Where `words` has less than [`JUDGE_WORDS`] nothing is judged or
/// written, and the code is [`NO_ROOM`](crate::NO_ROOM).
pub fn judge_words(file: &[u8], image: &mut [u8], words: &mut [u64]) -> u64 {
    // It reads the file and writes the other two, all within their lengths.
    unsafe {
        judge_file(
            file.as_ptr(),
            file.len(),
            image.as_mut_ptr(),
            image.len(),
            words.as_mut_ptr(),
            words.len(),
        )
    }
}
