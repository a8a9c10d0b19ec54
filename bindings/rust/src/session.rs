//! The calls that take a trace file in pieces and judge it at the end: the type
//! that keeps the bytes itself, and the calls on a buffer that is lent.

use crate::archive;
use crate::judging::{Answer, JUDGE_WORDS};
use crate::refusal::Refusal;
use crate::LONGEST_FILE;
use std::fmt;

/// A trace file that comes in pieces, of any size and cut anywhere, empty ones
/// too. The close judges: its answer and the image are those of
/// [`judge`](crate::judge) for the joined bytes. After it, whatever it answered,
/// every piece and every close is refused with code 18 and changes nothing.
///
/// It has a buffer of [`LONGEST_FILE`] bytes; of more bytes than that it only
/// knows that they are too many. A push takes as long as a copy of the piece,
/// however much is kept.
#[derive(Clone)]
pub struct Session {
    record: SessionRecord,
    kept: Box<[u8]>,
}

impl fmt::Debug for Session {
    /// The record alone.
    fn fmt(&self, formatter: &mut fmt::Formatter) -> fmt::Result {
        let mut written = formatter.debug_struct("Session");
        written.field("record", &self.record);
        written.finish_non_exhaustive()
    }
}

impl Session {
    /// A new session, to which nothing has come.
    pub fn open() -> Session {
        Session {
            record: SessionRecord::default(),
            kept: vec![0; LONGEST_FILE].into_boxed_slice(),
        }
    }

    /// Makes it a new one, with the same buffer.
    pub fn reopen(&mut self) {
        open_session(&mut self.record);
    }

    /// Takes the next bytes, whatever they are; code 18 where it is closed.
    pub fn push(&mut self, piece: &[u8]) -> Result<(), Refusal> {
        match push_piece(&mut self.record, &mut self.kept, piece) {
            0 => Ok(()),
            code => Err(Refusal::of(&[code, 0, 0, 0, 0])),
        }
    }

    /// Judges what has come, and closes. Where it is judged, the image of its
    /// store stands at the start of `image`; no other byte of `image` changes,
    /// and none at all where the answer is a refusal.
    pub fn close(&mut self, image: &mut [u8]) -> Answer {
        let mut words = [0; JUDGE_WORDS];
        close_session(&mut self.record, &self.kept, image, &mut words);
        Answer::of(&words)
    }

    /// The same with the report as text, as [`report`](crate::report) has it:
    /// answers its length. Where `text` has less than
    /// [`LONGEST_REPORT`](crate::LONGEST_REPORT) bytes nothing is done, the
    /// session is as it was, and the answer is 0.
    pub fn report(&mut self, image: &mut [u8], text: &mut [u8]) -> usize {
        report_session(&mut self.record, &self.kept, image, text)
    }
}

/// The record of a session whose bytes are kept in a buffer that is lent with
/// each call, the same one each time. Any two words are a record, and get an
/// answer; what the calls promise of joined bytes they promise of one that was
/// opened and then changed by pieces alone.
#[repr(C)]
#[derive(Clone, Copy, PartialEq, Eq, Debug, Default)]
pub struct SessionRecord {
    /// How many bytes have come; one more than [`LONGEST_FILE`] for all numbers
    /// above that.
    pub total: u64,
    /// 0 where the session is open, and any other number where it is closed.
    pub closed: u64,
}

/// [`open_session`], [`push_piece`] and [`Session::push`] take no more stack, in
/// bytes.
pub const PUSH_STACK: usize = 4_096;

/// The calls that close take no more stack, in bytes.
pub const CLOSE_STACK: usize = 98_304;

/// Makes the record a new one, whatever it was: open, and nothing has come.
pub fn open_session(record: &mut SessionRecord) {
    // It writes the record.
    unsafe { archive::open_session(record) }
}

/// Takes the next bytes, and answers 0; or 18 where the session is closed, and
/// nothing is changed then. `kept` is to have [`LONGEST_FILE`] bytes; what does
/// not fit into a shorter one is lost, and the close says so with code 17. No
/// byte behind the first [`LONGEST_FILE`] is ever written.
pub fn push_piece(record: &mut SessionRecord, kept: &mut [u8], piece: &[u8]) -> u64 {
    // It reads the piece and writes the other two, all within their lengths.
    unsafe {
        archive::push_piece(
            record,
            kept.as_mut_ptr(),
            kept.len(),
            piece.as_ptr(),
            piece.len(),
        )
    }
}

/// Judges what has come and closes, with the answer as words and its code as
/// [`judge_words`](crate::judge_words) has them; 18 where the session is closed
/// already, and 17 where `kept` has fewer bytes than have come. Where `words`
/// has less than [`JUDGE_WORDS`] nothing is done, the session is as it was, and
/// the code is [`NO_ROOM`](crate::NO_ROOM).
pub fn close_session(
    record: &mut SessionRecord,
    kept: &[u8],
    image: &mut [u8],
    words: &mut [u64],
) -> u64 {
    // It reads what is kept and writes the others, all within their lengths.
    unsafe {
        archive::close_session(
            record,
            kept.as_ptr(),
            kept.len(),
            image.as_mut_ptr(),
            image.len(),
            words.as_mut_ptr(),
            words.len(),
        )
    }
}

/// The same with the report as text, as [`report`](crate::report) has it:
/// answers its length. Where `text` has less than
/// [`LONGEST_REPORT`](crate::LONGEST_REPORT) bytes nothing is done, the session
/// is as it was, and the answer is 0.
pub fn report_session(
    record: &mut SessionRecord,
    kept: &[u8],
    image: &mut [u8],
    text: &mut [u8],
) -> usize {
    // It reads what is kept and writes the others, all within their lengths.
    unsafe {
        archive::report_session(
            record,
            kept.as_ptr(),
            kept.len(),
            image.as_mut_ptr(),
            image.len(),
            text.as_mut_ptr(),
            text.len(),
        )
    }
}
