//! The plain second engine, for the acceptance trial.

use crate::archive::plain_file;
use crate::judging::{Answer, JUDGE_WORDS};

/// [`plain`] and [`plain_words`] take no more stack, in bytes.
pub const PLAIN_STACK: usize = 114_688;

/// Judges one trace file as [`judge`](crate::judge) does, with the verdicts found by
/// trying every commit as the next link. No image is written, and no file gets code
/// 15: with a buffer that has room for the image, the two calls answer the same for
/// every file.
///
/// It is slow: see `docs/PERFORMANCE.md`.
pub fn plain(file: &[u8]) -> Answer {
    let mut words = [0; JUDGE_WORDS];
    plain_words(file, &mut words);
    Answer::of(&words)
}

/// The same with the answer as words at the start of `words`, those of
/// [`judge_words`](crate::judge_words), and its code. Where `words` has less than
/// [`JUDGE_WORDS`] nothing is judged or written, and the code is
/// [`NO_ROOM`](crate::NO_ROOM).
pub fn plain_words(file: &[u8], words: &mut [u64]) -> u64 {
    // It reads the file and writes the words, both within their lengths.
    unsafe { plain_file(file.as_ptr(), file.len(), words.as_mut_ptr(), words.len()) }
}
