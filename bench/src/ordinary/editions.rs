//! A trace in its short or its long edition: it is taken as it is for the judge,
//! and then written record for record with the views that the records leave.

use super::{Judge, Workspace, CLIENTS, NARROW};
use crate::answer::{Refusal, Replay};
use crate::form::{self, Header, Reader, Record, Row, MAX_BYTES, MIN_BYTES};
use model::Edition;

impl Judge {
    /// Writes one trace file in an edition. With a refusal no byte of `buffer`
    /// changes; otherwise the file stands at its start, and the bytes after it
    /// are as they were.
    pub fn convert(&mut self, edition: Edition, trace: &[u8], buffer: &mut [u8]) -> Replay {
        let written = form::header(trace).and_then(|header| {
            if header.keys <= NARROW {
                self.narrow.convert(edition, trace, &header, buffer)
            } else {
                self.wide.convert(edition, trace, &header, buffer)
            }
        });
        match written {
            Ok(length) => Replay::Written(length),
            Err(refusal) => Replay::Refused(refusal),
        }
    }
}

/// A record in an edition: its bytes before the masks, the keys that have one,
/// and the view that they are taken from.
struct Written<'a, const WIDTH: usize> {
    head: [u8; 6],
    /// The set of a kind 6, or the session number of a commit.
    word: Option<[u8; 4]>,
    operations: &'a [u8],
    keys: u32,
    view: &'a Row<WIDTH>,
}

impl<const WIDTH: usize> Written<'_, WIDTH> {
    fn len(&self) -> usize {
        let word = self.word.map_or(0, |word| word.len());
        self.head.len() + word + self.operations.len() + 8 * self.keys.count_ones() as usize
    }

    /// Puts the record at the start of a buffer; answers its length.
    fn put(&self, buffer: &mut [u8]) -> usize {
        let length = self.len();
        let (mut place, mut keys) = (0, self.keys);
        let mut put = |bytes: &[u8]| {
            buffer[place..place + bytes.len()].copy_from_slice(bytes);
            place += bytes.len();
        };
        put(&(length as u16).to_le_bytes());
        put(&self.head[2..]);
        if let Some(word) = &self.word {
            put(word);
        }
        put(self.operations);
        while keys != 0 {
            put(&self.view[keys.trailing_zeros() as usize].to_le_bytes());
            keys &= keys - 1;
        }
        length
    }
}

impl<const WIDTH: usize> Workspace<WIDTH> {
    fn convert(
        &mut self,
        edition: Edition,
        trace: &[u8],
        header: &Header,
        buffer: &mut [u8],
    ) -> Result<u32, Refusal> {
        self.take(trace, header)?;
        let mut length = MIN_BYTES;
        self.each_written(edition, trace, header, |record| length += record.len());
        if length > MAX_BYTES {
            return Err(Refusal::at(22, 0));
        }
        let Some(file) = buffer.get_mut(..length) else {
            return Err(Refusal::at(17, 0));
        };
        file[..4].copy_from_slice(&(length as u32).to_le_bytes());
        file[4..MIN_BYTES].copy_from_slice(&trace[4..MIN_BYTES]);
        let mut place = MIN_BYTES;
        self.each_written(edition, trace, header, |record| {
            place += record.put(&mut file[place..]);
        });
        Ok(length as u32)
    }

    /// The records of a trace that was taken, as an edition has them.
    fn each_written(
        &self,
        edition: Edition,
        trace: &[u8],
        header: &Header,
        mut each: impl FnMut(&Written<WIDTH>),
    ) {
        let every = u32::MAX >> (32 - header.keys);
        let mut views = [self.store.history[0]; CLIENTS];
        let mut after = [0; WIDTH];
        let mut reader = Reader::new(trace, header);
        while let Ok(record) = reader.next_record() {
            let (client, masks) = match record {
                Record::Shift { client, masks } | Record::Commit { client, masks, .. } => {
                    (client, masks)
                }
            };
            let view = &mut views[client];
            masks.over(view, &mut after);
            let by_edition = |short: (u8, u32), long: u8| match edition {
                Edition::Short => short,
                Edition::Long => (long, every),
            };
            each(&match record {
                Record::Shift { .. } => {
                    let (kind, keys) = by_edition((6, changed(view, &after)), 2);
                    Written {
                        head: [0, 0, kind, 0, client as u8, 0],
                        word: (kind == 6).then(|| keys.to_le_bytes()),
                        operations: &[],
                        keys,
                        view: &after,
                    }
                }
                Record::Commit {
                    session,
                    operations,
                    ..
                } => {
                    let (kind, keys) = by_edition((5, touched(operations)), 3);
                    let count = (operations.len() / 8) as u8;
                    Written {
                        head: [0, 0, kind, 0, client as u8, count],
                        word: Some(session.to_le_bytes()),
                        operations,
                        keys,
                        view: &after,
                    }
                }
            });
            *view = after;
        }
    }
}

/// The keys at which two views differ.
fn changed<const WIDTH: usize>(one: &Row<WIDTH>, other: &Row<WIDTH>) -> u32 {
    let differs = one.iter().zip(other).map(|(one, other)| one != other);
    let bits = differs
        .enumerate()
        .map(|(key, differs)| u32::from(differs) << key);
    bits.fold(0, |set, bit| set | bit)
}

/// The keys with an operation.
fn touched(operations: &[u8]) -> u32 {
    let keys = operations
        .chunks_exact(8)
        .map(|operation| 1 << operation[1]);
    keys.fold(0, |set, bit: u32| set | bit)
}
