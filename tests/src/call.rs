//! The calls side by side. Each is lent a trace file and one buffer, and either
//! refuses or writes something to the start of the buffer. The plain engine is
//! lent no buffer: it writes nothing. The calls of a session
//! are one here: it is opened, all pieces are pushed, it is closed.

use crate::buffer::{LONG, LONG_FILE};
use crate::store::Store;
use crate::words::{judge_words, replay_words};
use crate::{answer, image, replay, replayed, written_in, Edition, Outcome};

#[derive(Clone, Copy, PartialEq, Eq, PartialOrd, Ord, Debug)]
pub enum Call {
    /// Ten verdicts, and the image.
    Judge,
    /// The replay.
    Replay,
    /// The trace in its short edition.
    Short,
    /// The trace in its long edition.
    Long,
    /// Ten verdicts, and the image, of a file that comes in pieces.
    Port,
    /// Ten verdicts, by the plain second engine.
    Plain,
}

impl Call {
    pub const ALL: [Call; 6] = [
        Call::Judge,
        Call::Replay,
        Call::Short,
        Call::Long,
        Call::Port,
        Call::Plain,
    ];

    pub fn name(self) -> &'static str {
        match self {
            Call::Judge => "judge",
            Call::Replay => "replay",
            Call::Short => "short",
            Call::Long => "long",
            Call::Port => "port",
            Call::Plain => "plain",
        }
    }

    /// The codes that it has for taken traces, in the order of its tests; those
    /// before them, 1 to 14, it has in common with the others. The last is the
    /// one of a buffer that is too short.
    pub fn own_codes(self) -> &'static [u8] {
        match self {
            Call::Judge | Call::Port => &[15],
            Call::Replay => &[16, 17],
            Call::Short | Call::Long => &[22, 17],
            Call::Plain => &[],
        }
    }

    /// No buffer need be longer.
    pub fn longest(self) -> usize {
        match self {
            Call::Judge | Call::Port => image::LONGEST,
            Call::Replay => replay::LONGEST,
            Call::Short | Call::Long => Store::MAX_BYTES,
            Call::Plain => 0,
        }
    }

    /// More than any file needs.
    pub fn long(self) -> usize {
        match self {
            Call::Judge | Call::Port => LONG,
            Call::Replay | Call::Short | Call::Long => LONG_FILE,
            Call::Plain => 0,
        }
    }

    /// What it writes of a file; nothing if it refuses the file whatever the
    /// buffer is.
    pub fn written(self, outcome: &Outcome) -> Option<&[u8]> {
        let taken = outcome.as_ref().ok()?;
        match self {
            Call::Judge | Call::Port => Some(&taken.image),
            Call::Replay => taken.replay.as_deref().ok(),
            Call::Short => taken.short.as_deref().ok(),
            Call::Long => taken.long.as_deref().ok(),
            Call::Plain => Some(&[]),
        }
    }

    /// The length of a buffer that was just long enough before request E8, and is
    /// no longer: that of an image without views.
    pub fn former_len(self, outcome: &Outcome) -> Option<usize> {
        match self {
            Call::Judge | Call::Port => {
                let image = self.written(outcome)?;
                let former = image::former_len(image);
                (former < image.len()).then_some(former)
            }
            Call::Replay | Call::Short | Call::Long | Call::Plain => None,
        }
    }

    /// Every length of the buffer that is tried with a file: none, half of what
    /// is needed, each from 8 bytes too few to 8 more than enough, those around
    /// what was enough before, and a long one.
    pub fn lengths(self, outcome: &Outcome) -> Vec<usize> {
        if self == Call::Plain {
            return vec![0];
        }
        let mut lengths = vec![self.long(), 0];
        if let Some(written) = self.written(outcome) {
            let needed = written.len();
            lengths.push(needed / 2);
            lengths.extend(needed - 8..=needed + 8);
        }
        if let Some(former) = self.former_len(outcome) {
            lengths.extend(former - 1..=former + 1);
        }
        lengths
    }

    /// The words of its answer for a file that comes to this, the buffer left
    /// as the call leaves it.
    pub fn words(self, outcome: &Outcome, buffer: &mut [u8]) -> Vec<u64> {
        match self {
            Call::Judge | Call::Port => judge_words(&answer(outcome, buffer)),
            Call::Replay => replay_words(&replayed(outcome, buffer)),
            Call::Short => replay_words(&written_in(Edition::Short, outcome, buffer)),
            Call::Long => replay_words(&written_in(Edition::Long, outcome, buffer)),
            Call::Plain => judge_words(&answer(outcome, &mut vec![0; image::LONGEST])),
        }
    }
}
