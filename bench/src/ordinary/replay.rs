//! The replay of a trace: the trace is taken as it is for the judge, and its
//! commits are written out with the views that the store has kept.

use super::{put_masks, Judge, Workspace, NARROW};
use crate::answer::{Refusal, Replay, Verdict};
use crate::form::{self, Header, Reader, Record};

/// The bytes of a shift and of a commit without their operations and masks.
const SHIFT: usize = 6;
const COMMIT: usize = 10;

impl Judge {
    /// Writes the replay of one trace file. With a refusal no byte of `buffer`
    /// changes; otherwise the replay stands at its start, and the bytes after
    /// it are as they were.
    pub fn replay(&mut self, trace: &[u8], buffer: &mut [u8]) -> Replay {
        let replayed = form::header(trace).and_then(|header| {
            if header.keys <= NARROW {
                self.narrow.replay(trace, &header, buffer)
            } else {
                self.wide.replay(trace, &header, buffer)
            }
        });
        match replayed {
            Ok(length) => Replay::Written(length),
            Err(refusal) => Replay::Refused(refusal),
        }
    }
}

impl<const WIDTH: usize> Workspace<WIDTH> {
    fn replay(&mut self, trace: &[u8], header: &Header, buffer: &mut [u8]) -> Result<u32, Refusal> {
        self.take(trace, header)?;
        let [.., ser] = self.levels.verdicts;
        if let Verdict::Refused {
            record,
            key,
            version,
            ..
        } = ser
        {
            return Err(Refusal {
                code: 16,
                record,
                key,
                version,
                writer: 0,
            });
        }
        let length = self.replay_len();
        let Some(file) = buffer.get_mut(..length) else {
            return Err(Refusal::at(17, 0));
        };
        self.write_replay(trace, header, file);
        Ok(length as u32)
    }

    fn replay_len(&self) -> usize {
        let commits = self.store.commits;
        let operations: u32 = self.store.log[1..=commits]
            .iter()
            .map(|commit| commit.reads.keys.count_ones() + commit.writes.keys.count_ones())
            .sum();
        let masks = 2 * 8 * self.keys;
        12 + commits * (SHIFT + COMMIT + masks) + 8 * operations as usize
    }

    /// Writes the replay of a trace that was taken into a buffer of exactly its
    /// length.
    fn write_replay(&self, trace: &[u8], header: &Header, file: &mut [u8]) {
        let (length, records) = (file.len() as u32, 2 * self.store.commits as u16);
        let (head, mut rest) = file.split_at_mut(12);
        head.copy_from_slice(&trace[..12]);
        head[..4].copy_from_slice(&length.to_le_bytes());
        head[10..].copy_from_slice(&records.to_le_bytes());

        let mut reader = Reader::new(trace, header);
        let mut full = self.store.history[..=self.store.commits].windows(2);
        while let Ok(record) = reader.next_record() {
            let Record::Commit {
                client,
                session,
                operations,
                ..
            } = record
            else {
                continue;
            };
            let Some([before, after]) = full.next() else {
                return;
            };
            let client = client as u8;

            let length = SHIFT + 8 * self.keys;
            let (shift, next) = rest.split_at_mut(length);
            let [l0, l1] = (length as u16).to_le_bytes();
            shift[..SHIFT].copy_from_slice(&[l0, l1, 2, 0, client, 0]);
            put_masks(&mut shift[SHIFT..], before);

            let length = COMMIT + operations.len() + 8 * self.keys;
            let (commit, next) = next.split_at_mut(length);
            let [l0, l1] = (length as u16).to_le_bytes();
            let [s0, s1, s2, s3] = session.to_le_bytes();
            let count = (operations.len() / 8) as u8;
            let (head, body) = commit.split_at_mut(COMMIT);
            head.copy_from_slice(&[l0, l1, 3, 0, client, count, s0, s1, s2, s3]);
            let (listed, masks) = body.split_at_mut(operations.len());
            listed.copy_from_slice(operations);
            put_masks(masks, after);
            rest = next;
        }
    }
}
