//! The proved calls, to be timed beside the ordinary judge.

use crate::contender::Contender;
#[cfg(feature = "proved")]
use crate::contender::{Asked, Timed};

/// The proved calls, if they are linked in.
#[cfg(not(feature = "proved"))]
pub fn proved() -> Option<Box<dyn Contender>> {
    None
}

/// The proved calls, if they are linked in.
#[cfg(feature = "proved")]
pub fn proved() -> Option<Box<dyn Contender>> {
    Some(Box::new(Proved {
        words: [0; consistency::JUDGE_WORDS],
        kept: vec![0; consistency::LONGEST_FILE],
    }))
}

/// The words of the last answer, and room for the pieces of a file.
#[cfg(feature = "proved")]
struct Proved {
    words: [u64; consistency::JUDGE_WORDS],
    kept: Vec<u8>,
}

#[cfg(feature = "proved")]
impl Contender for Proved {
    fn name(&self) -> &'static str {
        "proved"
    }

    fn call(&mut self, timed: &Timed, file: &[u8], buffer: &mut [u8]) {
        let Proved { words, kept } = self;
        words.fill(0);
        let call = match timed.call {
            Asked::Of(call) => call,
            Asked::Image => {
                consistency::judge_image_words(file, buffer, words);
                return;
            }
        };
        match call {
            model::Call::Judge => consistency::judge_words(file, buffer, words),
            model::Call::Plain => consistency::plain_words(file, words),
            model::Call::Replay => consistency::replay_words(file, buffer, words),
            model::Call::Short => consistency::short_words(file, buffer, words),
            model::Call::Long => consistency::long_words(file, buffer, words),
            model::Call::Port => {
                let mut record = consistency::SessionRecord::default();
                for piece in file.chunks(timed.at_a_time) {
                    consistency::push_piece(&mut record, kept, piece);
                }
                consistency::close_session(&mut record, kept, buffer, words)
            }
        };
    }

    fn words(&self, _: Asked) -> Vec<u64> {
        self.words.to_vec()
    }
}
