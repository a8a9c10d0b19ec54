//! The call that says which commit is visible to which.

use crate::archive::visibility_file;
use crate::judging::{Answer, JUDGE_WORDS};

/// [`visibility`] and [`visibility_words`] take no more stack, in bytes.
pub const VISIBILITY_STACK: usize = 98_304;

/// Judges one trace file as [`judge`](crate::judge) does, with the same answer
/// and the same image, and says which commit is visible to which: the later one's
/// view held a version that the earlier wrote. Row 0 of `rows` is that of commit 1,
/// and bit c of a row is set exactly if commit c is visible to it; bit 0 never is.
/// No other row changes.
///
/// Code 21, after every refusal of `judge`, is that of fewer rows than there are
/// commits: [`MOST_COMMITS`](crate::MOST_COMMITS) are never too few. The image is
/// then left as it is where the file is judged. Any refusal writes no row.
pub fn visibility(file: &[u8], image: &mut [u8], rows: &mut [u64]) -> Answer {
    let mut words = [0; JUDGE_WORDS];
    visibility_words(file, image, rows, &mut words);
    Answer::of(&words)
}

/// The same with the answer as words at the start of `words`, which are those of
/// [`judge_words`](crate::judge_words), and its code. Where `words` has less than
/// [`JUDGE_WORDS`] nothing is judged or written, and the code is
/// [`NO_ROOM`](crate::NO_ROOM).
pub fn visibility_words(file: &[u8], image: &mut [u8], rows: &mut [u64], words: &mut [u64]) -> u64 {
    // It reads the file and writes the other three, all within their lengths.
    unsafe {
        visibility_file(
            file.as_ptr(),
            file.len(),
            image.as_mut_ptr(),
            image.len(),
            rows.as_mut_ptr(),
            rows.len(),
            words.as_mut_ptr(),
            words.len(),
        )
    }
}
