//! Files cut into pieces, and what a caller might do with a session besides
//! pushing them and closing it.

use super::file;
use crate::buffer::LONG;
use crate::port::{Caller, Move, Record};
use crate::random::Random;
use crate::store::Store;
use crate::{text, words};

/// Bytes cut anywhere, into pieces of so many at most, empty ones among them.
pub fn pieces<'a>(random: &mut Random, bytes: &'a [u8], most: usize) -> Vec<&'a [u8]> {
    let mut pieces = Vec::new();
    let mut left = bytes;
    while !left.is_empty() || random.percent(20) {
        let length = random.below(most + 1).min(left.len());
        let (piece, rest) = left.split_at(length);
        pieces.push(piece);
        left = rest;
    }
    pieces
}

/// A caller with some record and some buffer, and what it does, one thing after
/// the other.
#[derive(Clone, Debug)]
pub struct Script {
    pub caller: Caller,
    pub moves: Vec<Move>,
}

/// The script of a seed: pieces of a file and a close, mostly; and now and then
/// a record of any words, with the file in its buffer, a buffer of another
/// length, a close too early, twice or without room, a piece after it.
pub fn script(seed: u64) -> Script {
    let random = &mut Random::seeded(seed);
    let file = file(random.word());
    let mut caller = Caller::new(length_kept(random, &file));
    let any = random.percent(40);
    if any {
        caller.record = any_record(random, &file);
        if let Some(start) = caller.kept.get_mut(..file.len()) {
            start.copy_from_slice(&file);
        }
    }
    let mut writer = Writer {
        random,
        kept: caller.kept.len(),
        moves: Vec::new(),
    };
    if any && writer.random.percent(50) {
        writer.end();
    } else {
        writer.session(&file);
    }
    while writer.random.percent(60) {
        writer.anything(&file);
    }
    Script {
        moves: writer.moves,
        caller,
    }
}

/// The length of the buffer: that of the longest file; nearly that, or more;
/// what the file needs, or nearly that.
fn length_kept(random: &mut Random, file: &[u8]) -> usize {
    match random.below(10) {
        0..=4 => Store::MAX_BYTES,
        5 => Store::MAX_BYTES + random.between(1, 100),
        6 => Store::MAX_BYTES - random.between(1, 100),
        7 => file.len(),
        8 => file.len().saturating_sub(random.between(1, 9)),
        _ => random.below(file.len() + 1),
    }
}

/// Any words, most of them near to where something changes.
fn any_record(random: &mut Random, file: &[u8]) -> Record {
    let most = Store::MAX_BYTES as u64;
    let total = match random.below(6) {
        0 => random.word(),
        1 => u64::MAX - random.below(20) as u64,
        2 => most - 2 + random.below(5) as u64,
        3 => random.below(Store::MAX_BYTES) as u64,
        _ => file.len() as u64,
    };
    let closed = match random.below(10) {
        0 => random.word(),
        1 => random.pick(&[1, 2, 1 << 32, 1 << 63]),
        _ => 0,
    };
    Record { total, closed }
}

struct Writer<'a> {
    random: &'a mut Random,
    /// The length of the buffer.
    kept: usize,
    moves: Vec<Move>,
}

impl Writer<'_> {
    /// The pieces of a file and a close.
    fn session(&mut self, file: &[u8]) {
        // Not too many pieces, as all that is kept is looked at after each.
        let most = self.random.pick(&[1, 2, 7, 64, 1_000, 70_000]);
        for piece in pieces(self.random, file, most.max(file.len() / 50)) {
            self.push(piece);
            if self.random.below(500) == 0 {
                self.end();
            }
        }
        self.end();
    }

    fn anything(&mut self, file: &[u8]) {
        match self.random.below(6) {
            0 => self.moves.push(Move::Open),
            1 => {
                self.moves.push(Move::Open);
                self.session(file);
            }
            2 => self.push(file),
            3 => {
                let from = self.random.below(file.len() + 1);
                self.push(&file[from..]);
            }
            _ => self.end(),
        }
    }

    fn push(&mut self, piece: &[u8]) {
        let (piece, kept) = (piece.to_vec(), self.lent());
        self.moves.push(Move::Push { piece, kept });
    }

    /// A close, with words or a text.
    fn end(&mut self) {
        let (kept, image) = (self.lent(), self.random.pick(&[LONG, LONG, 0, 100]));
        let with_words = self.random.percent(60);
        let room = match with_words {
            true => words::JUDGE,
            false => text::LONGEST,
        };
        let room = match self.random.below(10) {
            0 => self.random.below(room),
            1 => room - 1,
            2 => room,
            _ => room + 5,
        };
        self.moves.push(match with_words {
            true => Move::Close {
                kept,
                image,
                words: room,
            },
            false => Move::Report {
                kept,
                image,
                text: room,
            },
        });
    }

    /// All of the buffer, or seldom a part of it.
    fn lent(&mut self) -> usize {
        match self.random.below(100) {
            0 => self.random.below(self.kept + 1),
            _ => self.kept,
        }
    }
}
