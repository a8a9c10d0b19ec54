//! The calls that write a trace file in its short or its long edition.

use crate::archive::{long_file, short_file};
use crate::refusal::Refusal;

/// What a trace file is answered with where it is asked for in an edition: a
/// refusal, code 22 where the file would be too long; or the length of the file,
/// which stands in the lent buffer.
#[derive(Clone, Copy, PartialEq, Eq, Debug)]
pub enum Conversion {
    Refused(Refusal),
    Written(usize),
}

/// The words of an answer of [`short_words`] and of [`long_words`].
pub const CONVERSION_WORDS: usize = 5;

/// [`short`], [`long`], [`short_words`] and [`long_words`] take no more stack,
/// in bytes.
pub const CONVERSION_STACK: usize = 98_304;

/// Writes a trace in its short edition: the same records, each shift with masks
/// for the keys that change alone, each commit with masks for the keys that have
/// an operation. Where it is written, it stands at the start of `buffer`; no
/// other byte of `buffer` changes, and none at all where the file is refused. No
/// buffer need be longer than [`LONGEST_FILE`](crate::LONGEST_FILE).
///
/// [`judge`](crate::judge) gives the file the answer and the image that it gives
/// the one that was read.
pub fn short(file: &[u8], buffer: &mut [u8]) -> Conversion {
    told(short_words, file, buffer)
}

/// Writes a trace in its long edition: the same records, each with masks for all
/// keys. The rest is as for [`short`]. Of a file that is long already it is
/// a copy.
pub fn long(file: &[u8], buffer: &mut [u8]) -> Conversion {
    told(long_words, file, buffer)
}

/// A call in words, its answer told.
fn told(
    words_of: fn(&[u8], &mut [u8], &mut [u64]) -> u64,
    file: &[u8],
    buffer: &mut [u8],
) -> Conversion {
    let mut words = [0; CONVERSION_WORDS];
    match words_of(file, buffer, &mut words) {
        0 => Conversion::Written(words[1] as usize),
        _ => Conversion::Refused(Refusal::of(&words)),
    }
}

/// [`short`] with the answer as words at the start of `words`, which
/// `bindings/c/consistency.h` lays out, and its code, which is 0 where the file
/// was written. Where `words` has less than [`CONVERSION_WORDS`] nothing is
/// written, and the code is [`NO_ROOM`](crate::NO_ROOM).
pub fn short_words(file: &[u8], buffer: &mut [u8], words: &mut [u64]) -> u64 {
    // It reads the file and writes the other two, all within their lengths.
    unsafe {
        short_file(
            file.as_ptr(),
            file.len(),
            buffer.as_mut_ptr(),
            buffer.len(),
            words.as_mut_ptr(),
            words.len(),
        )
    }
}

/// [`long`] with the answer as words, as [`short_words`] has it.
pub fn long_words(file: &[u8], buffer: &mut [u8], words: &mut [u64]) -> u64 {
    // It reads the file and writes the other two, all within their lengths.
    unsafe {
        long_file(
            file.as_ptr(),
            file.len(),
            buffer.as_mut_ptr(),
            buffer.len(),
            words.as_mut_ptr(),
            words.len(),
        )
    }
}
