//! Request E14: which commit is visible to which, as a table of rows.

use crate::store::{writers_in, CommitNumber, Store, OPENING};
use crate::{answer, Answer, Outcome, Refusal};
use std::collections::BTreeSet;

/// The code of a table with fewer rows than there are commits.
pub const TOO_FEW_ROWS: u8 = 21;

/// No trace has more rows.
pub const MOST_ROWS: usize = Store::MAX_COMMITS;

/// The commits that are visible to one: its view "held a version that the earlier
/// wrote". The opening transaction is no commit.
pub fn visible_to(store: &Store, commit: CommitNumber) -> BTreeSet<CommitNumber> {
    let mut visible = writers_in(store, store.view(commit));
    visible.remove(&OPENING);
    visible
}

/// "one u64 row per commit in order, bit c set exactly if commit c is visible to
/// it"
pub fn rows(store: &Store) -> Vec<u64> {
    let commits = store.commits().into_iter();
    commits
        .map(|commit| row(&visible_to(store, commit)))
        .collect()
}

/// A row with the bits of these.
pub fn row(visible: &BTreeSet<CommitNumber>) -> u64 {
    visible.iter().map(|commit| 1u64 << commit.0).sum()
}

/// What a lent image buffer and a lent table get: the judge's answer and image; 21
/// "after every refusal of the judge", and with it "the image stands as judged";
/// "further rows keep what they had".
pub fn reported(outcome: &Outcome, image: &mut [u8], table: &mut [u64]) -> Answer {
    let answer = answer(outcome, image);
    let (Answer::Judged(_), Ok(taken)) = (&answer, outcome) else {
        return answer;
    };
    let rows = rows(&taken.store);
    let Some(start) = table.get_mut(..rows.len()) else {
        return Answer::Refused(Refusal::at(TOO_FEW_ROWS, 0));
    };
    start.copy_from_slice(&rows);
    answer
}

/// "each row in decimal on its own line"
pub fn text(rows: &[u64]) -> String {
    rows.iter().map(|row| format!("{row}\n")).collect()
}

/// What a table has in it beforehand: at places side by side, other rows.
pub fn pattern(rows: usize) -> Vec<u64> {
    (0..rows as u64)
        .map(|row| row.wrapping_mul(0x9E37_79B9_7F4A_7C15) | 1)
        .collect()
}

/// Every number of rows that is tried where there are so many commits: none, some,
/// each around what is needed, as many as any trace needs, and more.
pub fn tables(commits: usize) -> Vec<usize> {
    let around = commits.saturating_sub(1)..=commits + 1;
    let mut tables: Vec<usize> = around.chain([0, commits / 2, MOST_ROWS, 64, 70]).collect();
    tables.sort();
    tables.dedup();
    tables
}
