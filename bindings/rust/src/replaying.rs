//! The call that writes the replay of a trace file.

use crate::archive::replay_file;
use crate::refusal::Refusal;

/// What a trace file is answered with where its replay is asked for: a refusal,
/// code 16 where SER does not accept the trace; or the length of the replay,
/// which stands in the lent buffer.
#[derive(Clone, Copy, PartialEq, Eq, Debug)]
pub enum Replay {
    Refused(Refusal),
    Written(usize),
}

/// No replay is longer; a buffer of this length is never too short.
pub const LONGEST_REPLAY: usize = 65_532;

/// The words of an answer of [`replay_words`].
pub const REPLAY_WORDS: usize = 5;

/// [`replay`] and [`replay_words`] take no more stack, in bytes.
pub const REPLAY_STACK: usize = 98_304;

/// Writes the replay of a trace that SER accepts: a trace file with the same
/// commits, each after a shift of its client to all that there is, and left
/// with a view of all that there is then. Where it is written, it stands at the
/// start of `buffer`; no other byte of `buffer` changes, and none at all where
/// the file is refused.
///
/// [`judge`](crate::judge) gives the replay the image of the trace and ten
/// accepted verdicts.
pub fn replay(file: &[u8], buffer: &mut [u8]) -> Replay {
    let mut words = [0; REPLAY_WORDS];
    match replay_words(file, buffer, &mut words) {
        0 => Replay::Written(words[1] as usize),
        _ => Replay::Refused(Refusal::of(&words)),
    }
}

/// The same with the answer as words at the start of `words`, which
/// `bindings/c/consistency.h` lays out, and its code, which is 0 where the
/// replay was written. Where `words` has less than [`REPLAY_WORDS`] nothing is
/// written, and the code is [`NO_ROOM`](crate::NO_ROOM).
pub fn replay_words(file: &[u8], buffer: &mut [u8], words: &mut [u64]) -> u64 {
    // It reads the file and writes the other two, all within their lengths.
    unsafe {
        replay_file(
            file.as_ptr(),
            file.len(),
            buffer.as_mut_ptr(),
            buffer.len(),
            words.as_mut_ptr(),
            words.len(),
        )
    }
}
