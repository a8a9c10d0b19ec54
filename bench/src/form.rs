//! The form of a trace file: its header and its records (codes 1 to 7).

use crate::answer::Refusal;

/// The most keys a rack has.
pub const KEYS: usize = 32;
/// The most clients a rack has.
pub const CLIENTS: usize = 16;
/// The most commits a trace has.
pub const COMMITS: usize = 63;
/// The most operations a commit has.
const OPERATIONS: usize = 2 * KEYS;
pub const MIN_BYTES: usize = 12;
pub const MAX_BYTES: usize = 65_536;

/// One mask of versions for each key; keys that the trace has not are 0, so
/// that loops over a row have a fixed length.
pub type Row<const WIDTH: usize> = [u64; WIDTH];

/// The header's numbers.
pub struct Header {
    pub keys: usize,
    pub clients: usize,
    pub records: u32,
}

/// Reads the length field and the header: codes 1 and 2.
pub fn header(trace: &[u8]) -> Result<Header, Refusal> {
    let Some(&[l0, l1, l2, l3, n0, n1, k0, k1, keys, clients, c0, c1]) =
        trace.first_chunk::<MIN_BYTES>()
    else {
        return Err(Refusal::at(1, 0));
    };
    let length = u32::from_le_bytes([l0, l1, l2, l3]) as usize;
    if trace.len() > MAX_BYTES || length != trace.len() {
        return Err(Refusal::at(1, 0));
    }
    let (keys, clients) = (usize::from(keys), usize::from(clients));
    let sized = (1..=KEYS).contains(&keys) && (1..=CLIENTS).contains(&clients);
    if u16::from_le_bytes([n0, n1]) != 8 || u16::from_le_bytes([k0, k1]) != 1 || !sized {
        return Err(Refusal::at(2, 0));
    }
    Ok(Header {
        keys,
        clients,
        records: u32::from(u16::from_le_bytes([c0, c1])),
    })
}

/// One record, its length, kind and client found good.
pub enum Record<'a> {
    Shift {
        client: usize,
        masks: Masks<'a>,
    },
    Commit {
        client: usize,
        session: u32,
        operations: &'a [u8],
        masks: Masks<'a>,
    },
}

/// The masks that a record has: of all keys, or of the keys of a set, rising.
#[derive(Clone, Copy)]
pub enum Masks<'a> {
    All(&'a [u8]),
    Of(u32, &'a [u8]),
}

impl Masks<'_> {
    /// The view that a client is left with, from the one that it had.
    #[inline(always)]
    pub fn over<const WIDTH: usize>(&self, view: &Row<WIDTH>, row: &mut Row<WIDTH>) {
        match *self {
            Masks::All(bytes) => masks(bytes, row),
            Masks::Of(mut keys, bytes) => {
                *row = *view;
                for bytes in bytes.chunks_exact(8) {
                    row[keys.trailing_zeros() as usize] = word(bytes);
                    keys &= keys - 1;
                }
            }
        }
    }
}

/// The bytes of the records not read yet.
pub struct Reader<'a> {
    rest: &'a [u8],
    keys: usize,
    clients: usize,
}

impl<'a> Reader<'a> {
    /// A reader of the records of a trace that has this header.
    pub fn new(trace: &'a [u8], header: &Header) -> Reader<'a> {
        Reader {
            rest: &trace[MIN_BYTES..],
            keys: header.keys,
            clients: header.clients,
        }
    }

    pub fn at_end(&self) -> bool {
        self.rest.is_empty()
    }

    /// The next record, or the code that is due for it (3, 4, 6, or 7 for the
    /// spare byte and the set of a shift; operations are looked at by
    /// [`Operations`], before the masks).
    #[inline(always)]
    pub fn next_record(&mut self) -> Result<Record<'a>, u8> {
        let Some(&[l0, l1, k0, k1]) = self.rest.first_chunk::<4>() else {
            return Err(3);
        };
        let length = usize::from(u16::from_le_bytes([l0, l1]));
        match u16::from_le_bytes([k0, k1]) {
            2 => {
                if length != 6 + 8 * self.keys {
                    return Err(3);
                }
                let record = self.take(length)?;
                let client = self.client(record[4])?;
                if record[5] != 0 {
                    return Err(7);
                }
                Ok(Record::Shift {
                    client,
                    masks: Masks::All(&record[6..]),
                })
            }
            3 => {
                let Some(&count) = self.rest.get(5) else {
                    return Err(3);
                };
                let bytes = 8 * usize::from(count);
                if length != 10 + bytes + 8 * self.keys {
                    return Err(3);
                }
                let record = self.take(length)?;
                let client = self.client(record[4])?;
                let session = u32::from_le_bytes([record[6], record[7], record[8], record[9]]);
                let (operations, masks) = record[10..].split_at(bytes);
                Ok(Record::Commit {
                    client,
                    session,
                    operations,
                    masks: Masks::All(masks),
                })
            }
            5 => {
                let Some(&count) = self.rest.get(5) else {
                    return Err(3);
                };
                let bytes = 8 * usize::from(count);
                let Some(operations) = self.rest.get(10..10 + bytes) else {
                    return Err(3);
                };
                let (listed, keys) = turns(operations);
                if length != 10 + bytes + 8 * listed {
                    return Err(3);
                }
                let record = self.take(length)?;
                let client = self.client(record[4])?;
                let session = u32::from_le_bytes([record[6], record[7], record[8], record[9]]);
                Ok(Record::Commit {
                    client,
                    session,
                    operations,
                    masks: Masks::Of(keys, &record[10 + bytes..]),
                })
            }
            6 => {
                let Some(&[s0, s1, s2, s3]) = self.rest.get(6..10).and_then(<[u8]>::first_chunk)
                else {
                    return Err(3);
                };
                let keys = u32::from_le_bytes([s0, s1, s2, s3]);
                if length != 10 + 8 * keys.count_ones() as usize {
                    return Err(3);
                }
                let record = self.take(length)?;
                let client = self.client(record[4])?;
                if record[5] != 0 || u64::from(keys) >> self.keys != 0 {
                    return Err(7);
                }
                Ok(Record::Shift {
                    client,
                    masks: Masks::Of(keys, &record[10..]),
                })
            }
            _ => Err(4),
        }
    }

    fn take(&mut self, length: usize) -> Result<&'a [u8], u8> {
        let Some((record, rest)) = self.rest.split_at_checked(length) else {
            return Err(3);
        };
        self.rest = rest;
        Ok(record)
    }

    fn client(&self, byte: u8) -> Result<usize, u8> {
        let client = usize::from(byte);
        if client < self.clients {
            Ok(client)
        } else {
            Err(6)
        }
    }
}

/// How many operations have another key than the one before them, and the set of
/// the keys, if the store has them.
fn turns(operations: &[u8]) -> (usize, u32) {
    let (mut turns, mut keys) = (0, 0);
    let mut last = None;
    for operation in operations.chunks_exact(8) {
        let key = operation[1];
        turns += usize::from(last != Some(key));
        keys |= 1u32.wrapping_shl(key.into());
        last = Some(key);
    }
    (turns, keys)
}

/// The masks of a record into the places of its keys in a row.
#[inline(always)]
pub fn masks<const WIDTH: usize>(bytes: &[u8], row: &mut Row<WIDTH>) {
    for (mask, bytes) in row.iter_mut().zip(bytes.chunks_exact(8)) {
        *mask = word(bytes);
    }
}

/// Eight bytes as a little-endian number.
fn word(bytes: &[u8]) -> u64 {
    u64::from_le_bytes(bytes.try_into().expect("eight bytes"))
}

/// One operation as it stands in the file: kind in byte 0, key in byte 1, zeros
/// in bytes 2 and 3, value in the upper half.
#[derive(Clone, Copy, Default)]
pub struct Operation(u64);

impl Operation {
    pub fn key(self) -> usize {
        usize::from((self.0 >> 8) as u8)
    }

    pub fn value(self) -> u32 {
        (self.0 >> 32) as u32
    }

    /// 0 for a read, 1 for a write; anything else is bad form.
    fn kind(self) -> usize {
        usize::from(self.0 as u8)
    }

    /// Operations rise strictly by this number, as the key stands above the kind.
    fn rank(self) -> u32 {
        self.0 as u32
    }
}

/// The operations of one commit, reads apart from writes, each in order of keys.
pub struct Operations {
    reads: [Operation; OPERATIONS],
    writes: [Operation; OPERATIONS],
    read_count: usize,
    write_count: usize,
}

impl Default for Operations {
    fn default() -> Operations {
        Operations {
            reads: [Operation::default(); OPERATIONS],
            writes: [Operation::default(); OPERATIONS],
            read_count: 0,
            write_count: 0,
        }
    }
}

impl Operations {
    pub fn reads(&self) -> &[Operation] {
        &self.reads[..self.read_count]
    }

    pub fn writes(&self) -> &[Operation] {
        &self.writes[..self.write_count]
    }

    /// Takes the operations of a record over; false if code 7 is due.
    #[inline(never)] // so that its loop has the registers to itself
    pub fn read(&mut self, bytes: &[u8], keys: usize) -> bool {
        if bytes.len() > 2 * 8 * keys {
            return false; // more than one read and one write for each key
        }
        let (mut reads, mut writes) = (0, 0);
        let mut stray = 0; // set bits where the form has none
        let mut rising = true;
        let mut least = 0; // the least rank that may come next
        for bytes in bytes.chunks_exact(8) {
            let operation = Operation(word(bytes));
            let rank = operation.rank();
            stray |= rank & 0xffff_00fe;
            rising &= rank >= least;
            least = rank.wrapping_add(1);
            // Which list it goes to is not a branch, as it cannot be foretold.
            let write = operation.kind() & 1;
            self.reads[reads] = operation;
            self.writes[writes] = operation;
            reads += 1 - write;
            writes += write;
        }
        (self.read_count, self.write_count) = (reads, writes);
        // The last one has the greatest key; `least` is its rank and one more.
        stray == 0 && rising && least <= (keys as u32) << 8
    }
}
