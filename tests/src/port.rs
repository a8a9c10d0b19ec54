//! Request E5, "Take the trace from the service port": a session whose bytes
//! come in pieces, and are judged at its close.
//!
//! Of "a record newly opened and changed by nothing but pieces" the paper says
//! all: `Joined`. "Any other record still gets an answer", and so does one that
//! was lent a buffer of another length than the longest file: which answer,
//! `MODEL` says.

use crate::buffer::{pattern, UNTOUCHED};
use crate::store::Store;
use crate::words::{self, judge_words, NO_ROOM};
use crate::{judge, report, text, Answer, Refusal};

/// "A piece or a close after the close gets code 18".
pub const CLOSED: u8 = 18;

/// A session as the paper has it: the pieces so far, joined.
#[derive(Clone, Default, Debug)]
pub struct Joined {
    pub bytes: Vec<u8>,
    pub closed: bool,
}

impl Joined {
    /// "A piece answers only that it was taken", which is code 0.
    pub fn push(&mut self, piece: &[u8]) -> u8 {
        if self.closed {
            return CLOSED;
        }
        self.bytes.extend(piece);
        0
    }

    /// "The close judges"; "a close that was refused has closed too".
    pub fn close(&mut self, image: &mut [u8]) -> Answer {
        if self.closed {
            return Answer::Refused(Refusal::at(CLOSED, 0));
        }
        self.closed = true;
        judge(&self.bytes, image)
    }
}

/// A session record, of any two words: how many bytes came, where one more than
/// the longest file has stands for all that is more; and 0 if it is open.
#[derive(Clone, Copy, PartialEq, Eq, Default, Debug)]
pub struct Record {
    pub total: u64,
    pub closed: u64,
}

/// Bytes that no file has.
const TOO_MANY: u64 = Store::MAX_BYTES as u64 + 1;

/// The calls on a record and the buffer with what is kept, each with its code.
/// The close has words for its answer, the report a text, and either does
/// nothing where it has no room for them.
pub trait Port {
    fn open(&self, record: &mut Record);

    fn push(&self, record: &mut Record, kept: &mut [u8], piece: &[u8]) -> u64;

    fn close(&self, record: &mut Record, kept: &[u8], image: &mut [u8], words: &mut [u64]) -> u64;

    /// Answers the length of the text.
    fn report(&self, record: &mut Record, kept: &[u8], image: &mut [u8], text: &mut [u8]) -> usize;
}

/// The calls by two functions.
#[derive(Clone, Copy)]
pub struct Plain {
    pub push: fn(&mut Record, &mut [u8], &[u8]) -> u8,
    pub close: fn(&mut Record, &[u8], &mut [u8]) -> Answer,
}

pub const MODEL: Plain = Plain { push, close };

/// The byte at place n of all that came stands at place n of the buffer, if a
/// file may have so many bytes and the buffer has them.
pub fn push(record: &mut Record, kept: &mut [u8], piece: &[u8]) -> u8 {
    if record.closed != 0 {
        return CLOSED;
    }
    for byte in piece {
        if record.total < TOO_MANY - 1 {
            if let Some(place) = kept.get_mut(record.total as usize) {
                *place = *byte;
            }
        }
        record.total = record.total.saturating_add(1);
    }
    record.total = record.total.min(TOO_MANY);
    0
}

/// Too many bytes, then more than the buffer has, then as for a whole file.
pub fn close(record: &mut Record, kept: &[u8], image: &mut [u8]) -> Answer {
    if record.closed != 0 {
        return Answer::Refused(Refusal::at(CLOSED, 0));
    }
    record.closed = 1;
    if record.total >= TOO_MANY {
        return Answer::Refused(Refusal::at(1, 0));
    }
    match kept.get(..record.total as usize) {
        Some(file) => judge(file, image),
        None => Answer::Refused(Refusal::at(17, 0)),
    }
}

impl Port for Plain {
    fn open(&self, record: &mut Record) {
        *record = Record::default();
    }

    fn push(&self, record: &mut Record, kept: &mut [u8], piece: &[u8]) -> u64 {
        (self.push)(record, kept, piece).into()
    }

    fn close(&self, record: &mut Record, kept: &[u8], image: &mut [u8], words: &mut [u64]) -> u64 {
        if words.len() < words::JUDGE {
            return NO_ROOM;
        }
        let answer = (self.close)(record, kept, image);
        let due = judge_words(&answer);
        words[..due.len()].copy_from_slice(&due);
        due[0]
    }

    fn report(&self, record: &mut Record, kept: &[u8], image: &mut [u8], text: &mut [u8]) -> usize {
        if text.len() < text::LONGEST {
            return 0;
        }
        let due = report(&(self.close)(record, kept, image));
        text[..due.len()].copy_from_slice(due.as_bytes());
        due.len()
    }
}

/// What a caller does next, and how many bytes it lends of what is kept, of an
/// image, and of words or of a text.
#[derive(Clone, Debug)]
pub enum Move {
    Open,
    Push {
        piece: Vec<u8>,
        kept: usize,
    },
    Close {
        kept: usize,
        image: usize,
        words: usize,
    },
    Report {
        kept: usize,
        image: usize,
        text: usize,
    },
}

/// What a caller has.
#[derive(Clone, PartialEq, Eq, Debug)]
pub struct Caller {
    pub record: Record,
    pub kept: Vec<u8>,
}

/// What a call answers, and leaves in what it was lent beside.
#[derive(Clone, PartialEq, Eq, Debug, Default)]
pub struct Left {
    pub answer: u64,
    pub image: Vec<u8>,
    pub words: Vec<u64>,
    pub text: Vec<u8>,
}

impl Caller {
    /// A record that is newly opened, and a buffer of so many bytes.
    pub fn new(kept: usize) -> Caller {
        Caller {
            record: Record::default(),
            kept: pattern(kept),
        }
    }

    pub fn does(&mut self, port: &dyn Port, next: &Move) -> Left {
        let Caller { record, kept } = self;
        let mut left = Left::default();
        match *next {
            Move::Open => port.open(record),
            Move::Push {
                ref piece,
                kept: lent,
            } => left.answer = port.push(record, &mut kept[..lent], piece),
            Move::Close {
                kept: lent,
                image,
                words,
            } => {
                left.image = pattern(image);
                left.words = vec![UNTOUCHED; words];
                let (image, words) = (&mut left.image, &mut left.words);
                left.answer = port.close(record, &kept[..lent], image, words);
            }
            Move::Report {
                kept: lent,
                image,
                text,
            } => {
                left.image = pattern(image);
                left.text = pattern(text);
                let (image, text) = (&mut left.image, &mut left.text);
                left.answer = port.report(record, &kept[..lent], image, text) as u64;
            }
        }
        left
    }
}
