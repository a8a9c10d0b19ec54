//! A trace file that comes in pieces: the bytes are kept, and judged at the
//! close.

use super::Judge;
use crate::answer::{Answer, Refusal};
use crate::form::MAX_BYTES;

/// What came, as far as a file may have it and one byte more, which shows that
/// it is too long.
pub struct Session {
    kept: Vec<u8>,
    closed: bool,
}

impl Default for Session {
    fn default() -> Session {
        Session::open()
    }
}

impl Session {
    pub fn open() -> Session {
        Session {
            kept: Vec::with_capacity(MAX_BYTES + 1),
            closed: false,
        }
    }

    /// Makes it a new one, with the same room.
    pub fn reopen(&mut self) {
        self.kept.clear();
        self.closed = false;
    }

    /// Takes the next bytes; code 18 if it is closed.
    pub fn push(&mut self, piece: &[u8]) -> Result<(), Refusal> {
        if self.closed {
            return Err(Refusal::at(18, 0));
        }
        let room = MAX_BYTES + 1 - self.kept.len();
        self.kept.extend_from_slice(&piece[..room.min(piece.len())]);
        Ok(())
    }

    /// Closes it and judges what came; code 18 if it is closed already.
    pub fn close(&mut self, judge: &mut Judge, image: &mut [u8]) -> Answer {
        if self.closed {
            return Answer::Refused(Refusal::at(18, 0));
        }
        self.closed = true;
        judge.judge(&self.kept, image)
    }
}
