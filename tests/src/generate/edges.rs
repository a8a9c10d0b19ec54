//! The edges of the form of kinds 5 and 6: where the file ends, what the length
//! is, and what stands in the body.

use super::editions::Mixing;
use super::mangled::small_trace;
use super::Case;
use crate::editions::masks_of_commit;
use crate::random::Random;
use crate::trace::{commit_len, file_of, shift_len};
use crate::Refusal;

/// A record of some kind brought to an edge, and the code that is due then; 0
/// if the file is taken.
pub struct Edge {
    pub name: &'static str,
    kind: u8,
    code: u8,
    bring: fn(&mut Edited) -> Option<()>,
}

const fn edge(
    name: &'static str,
    kind: u8,
    code: u8,
    bring: fn(&mut Edited) -> Option<()>,
) -> Edge {
    Edge {
        name,
        kind,
        code,
        bring,
    }
}

pub const EDGES: [Edge; 34] = [
    edge("6, the kind beyond the end", 6, 3, |at| at.cut(0, 3)),
    edge("6, the spare byte beyond the end", 6, 3, |at| at.cut(4, 5)),
    edge("6, the set beyond the end", 6, 3, |at| at.cut(6, 9)),
    edge("6, a mask beyond the end", 6, 3, |at| {
        let last = at.record.len() - 1;
        at.cut(10, last)
    }),
    edge("6, the length of kind 2", 6, 3, |at| {
        at.resize(shift_len(at.keys))
    }),
    edge("6, a bit without a mask", 6, 3, |at| {
        let bit = at.bit_of(!at.set())?;
        at.set_to(at.set() | bit)
    }),
    edge("6, a mask without a bit", 6, 3, |at| at.more_masks(1)),
    edge("6, the masks of the bits below the keys", 6, 3, |at| {
        let bit = at.bit_of(at.above())?;
        at.set_to(at.set() | bit)
    }),
    edge("6, a bit above the keys", 6, 7, |at| {
        let bit = at.bit_of(at.above())?;
        at.set_to(at.set() | bit)?;
        at.more_masks(1)
    }),
    edge("6, the first bit above the keys", 6, 7, |at| {
        let bit = 1u32.checked_shl(at.keys as u32)?;
        at.set_to(at.set() | bit)?;
        at.more_masks(1)
    }),
    edge("6, bit 31 above the keys", 6, 7, |at| {
        let bit = at.above() & 1 << 31;
        at.bit_of(bit)?;
        at.set_to(at.set() | bit)?;
        at.more_masks(1)
    }),
    edge("6, bits above the keys alone", 6, 7, |at| {
        let bits = at.bit_of(at.above())? | at.bit_of(at.above())?;
        at.set_to(bits)?;
        at.resize(10 + 8 * bits.count_ones() as usize)
    }),
    edge("6, all 32 bits", 6, 7, |at| {
        at.bit_of(at.above())?;
        at.set_to(u32::MAX)?;
        at.resize(10 + 8 * 32)
    }),
    edge("6, the spare byte", 6, 7, |at| {
        at.record[5] = at.random.between(1, 255) as u8;
        Some(())
    }),
    edge("6, the client before the set", 6, 6, |at| {
        let bit = at.bit_of(at.above())?;
        at.set_to(at.set() | bit)?;
        at.more_masks(1)?;
        at.wrong_client()
    }),
    edge("6, the empty set", 6, 0, |at| (at.set() == 0).then_some(())),
    edge("6, every key", 6, 0, |at| {
        (at.set() | at.above() == u32::MAX).then_some(())
    }),
    edge("5, the kind beyond the end", 5, 3, |at| at.cut(0, 3)),
    edge("5, the byte m beyond the end", 5, 3, |at| at.cut(4, 5)),
    edge("5, an operation's key beyond the end", 5, 3, |at| {
        let last = at.random.below(at.some_operations()?);
        at.cut(6, 10 + 8 * last + 1)
    }),
    edge("5, an operation's value beyond the end", 5, 3, |at| {
        let last = 10 + 8 * (at.some_operations()? - 1);
        at.cut(last + 2, last + 7)
    }),
    edge("5, a mask beyond the end", 5, 3, |at| {
        let masks = 10 + 8 * at.some_operations()?;
        let last = at.record.len() - 1;
        at.cut(masks, last)
    }),
    edge("5, the length of kind 3", 5, 3, |at| {
        let length = commit_len(at.operations(), at.keys);
        (length != at.record.len()).then_some(())?;
        at.resize(length)
    }),
    edge("5, a mask for each operation", 5, 3, |at| {
        let length = 10 + 16 * at.operations();
        (length != at.record.len()).then_some(())?;
        at.resize(length)
    }),
    edge("5, a mask more", 5, 3, |at| at.more_masks(1)),
    edge("5, no operations and a mask", 5, 3, |at| {
        (at.operations() == 0).then_some(())?;
        at.more_masks(1)
    }),
    edge("5, keys 0, 1, 0 with three masks", 5, 7, |at| {
        let keys = at.one_other_one()?;
        at.of_keys(&keys, 3)
    }),
    edge("5, keys 0, 1, 0 with two masks", 5, 3, |at| {
        let keys = at.one_other_one()?;
        at.of_keys(&keys, 2)
    }),
    edge("5, a write before a read of the key", 5, 7, |at| {
        let key = at.random.below(at.keys) as u8;
        at.of_keys(&[key; 2], 1)?;
        (at.record[10], at.record[18]) = (1, 0);
        Some(())
    }),
    edge("5, a key above the keys", 5, 7, |at| {
        let key = at.random.between(at.keys, 255) as u8;
        at.of_keys(&[key], 1)
    }),
    edge("5, the first key above the keys", 5, 7, |at| {
        let key = at.keys as u8;
        at.of_keys(&[key], 1)
    }),
    edge("5, 255 operations", 5, 7, |at| {
        let most = at.random.between(1, at.keys) as u8;
        let keys: Vec<u8> = (0..255).map(|place| place % most).collect();
        at.of_keys(&keys, masks_of_commit(&keys))
    }),
    edge("5, the client before the operations", 5, 6, |at| {
        let key = at.random.below(at.keys) as u8;
        at.of_keys(&[key; 3], 1)?;
        at.wrong_client()
    }),
    edge("5, no operations", 5, 0, |at| {
        (at.operations() == 0).then_some(())
    }),
];

/// A file at one of the edges.
pub fn edge_case(random: &mut Random) -> Case {
    let edge = &EDGES[random.below(EDGES.len())];
    loop {
        if let Some((bytes, record)) = brought(random, edge) {
            let case = Case {
                edge: Some(edge.name),
                ..Case::taken("edge", bytes)
            };
            return match edge.code {
                0 => case,
                code => case.refused_with(Refusal::at(code, record)),
            };
        }
    }
}

/// Some file with a record at an edge, and the number of that record; nothing
/// if it has no record for it.
fn brought(random: &mut Random, edge: &Edge) -> Option<(Vec<u8>, usize)> {
    let mut trace = small_trace(random);
    let mixing = Mixing {
        short: random.pick(&[50, 100]),
        ..Mixing::random(random)
    };
    let mut records = mixing.records(random, &trace);
    let all = 0..records.len();
    let of_kind: Vec<usize> = all.filter(|&i| records[i][2] == edge.kind).collect();
    if of_kind.is_empty() {
        return None;
    }
    let index = random.pick(&of_kind);
    let mut edited = Edited {
        keys: trace.keys,
        clients: trace.clients,
        record: records[index].clone(),
        is_cut: false,
        random,
    };
    (edge.bring)(&mut edited)?;
    let is_cut = edited.is_cut;
    records[index] = edited.record;
    if is_cut {
        records.truncate(index + 1);
        trace.records.truncate(index + 1);
    }
    Some((file_of(&trace, records), index + 1))
}

/// A record of kind 5 or 6 that is brought to an edge.
struct Edited<'a> {
    random: &'a mut Random,
    keys: usize,
    clients: usize,
    record: Vec<u8>,
    /// Whether the file ends with it.
    is_cut: bool,
}

impl Edited<'_> {
    /// The file ends within the record, so many bytes of it being left. Its
    /// length is the one that it had, or that of what is left.
    fn cut(&mut self, least: usize, most: usize) -> Option<()> {
        if most < least {
            return None;
        }
        let left = self.random.between(least, most);
        self.is_cut = true;
        self.record.truncate(left);
        if left >= 2 && self.random.percent(50) {
            self.fit();
        }
        Some(())
    }

    /// The length of the record is that of its bytes.
    fn fit(&mut self) {
        let length = self.record.len() as u16;
        self.record[..2].copy_from_slice(&length.to_le_bytes());
    }

    fn resize(&mut self, length: usize) -> Option<()> {
        self.record.resize(length, 1);
        self.fit();
        Some(())
    }

    fn more_masks(&mut self, masks: usize) -> Option<()> {
        self.resize(self.record.len() + 8 * masks)
    }

    /// A client that the header does not have.
    fn wrong_client(&mut self) -> Option<()> {
        self.record[4] = self.random.between(self.clients, 255) as u8;
        Some(())
    }

    /// The set of a kind 6.
    fn set(&self) -> u32 {
        u32::from_le_bytes(self.record[6..10].try_into().expect("four bytes"))
    }

    fn set_to(&mut self, set: u32) -> Option<()> {
        self.record[6..10].copy_from_slice(&set.to_le_bytes());
        Some(())
    }

    /// The bits at or above the number of keys.
    fn above(&self) -> u32 {
        u32::MAX.checked_shl(self.keys as u32).unwrap_or(0)
    }

    /// One of these bits, if there are any.
    fn bit_of(&mut self, bits: u32) -> Option<u32> {
        let bits: Vec<u32> = (0..32)
            .map(|bit| 1 << bit)
            .filter(|bit| bits & bit != 0)
            .collect();
        (!bits.is_empty()).then(|| self.random.pick(&bits))
    }

    /// The operations of a kind 5.
    fn operations(&self) -> usize {
        self.record[5].into()
    }

    /// How many they are, if there are any.
    fn some_operations(&self) -> Option<usize> {
        (self.operations() > 0).then(|| self.operations())
    }

    /// A key, another one, and the first again.
    fn one_other_one(&mut self) -> Option<[u8; 3]> {
        if self.keys == 1 {
            return None;
        }
        let high = self.random.between(1, self.keys - 1);
        let (low, high) = (self.random.below(high) as u8, high as u8);
        Some(self.random.pick(&[[low, high, low], [high, low, high]]))
    }

    /// Operations of these keys, and so many masks.
    fn of_keys(&mut self, keys: &[u8], masks: usize) -> Option<()> {
        self.record.truncate(10);
        self.record[5] = keys.len() as u8;
        for &key in keys {
            let kind = self.random.below(2) as u8;
            self.record.extend([kind, key, 0, 0, 0, 0, 0, 0]);
        }
        self.more_masks(masks)
    }
}

/// Sets a bit of a record of kind 6 that is above the keys, with a mask for it;
/// nothing if there is no such bit.
pub fn with_bit_above(random: &mut Random, keys: usize, record: &mut Vec<u8>) -> Option<()> {
    let mut edited = Edited {
        keys,
        clients: 0,
        record: record.clone(),
        is_cut: false,
        random,
    };
    let bit = edited.bit_of(edited.above())?;
    edited.set_to(edited.set() | bit)?;
    edited.more_masks(1)?;
    *record = edited.record;
    Some(())
}

/// A record of which operations were changed: if it is of kind 5, as many masks
/// as it has to have then, and its length.
pub fn with_due_masks(record: &mut Vec<u8>) {
    if record[2] != 5 {
        return;
    }
    let operations = usize::from(record[5]);
    let keys: Vec<u8> = (0..operations)
        .map(|place| record[10 + 8 * place + 1])
        .collect();
    let length = 10 + 8 * operations + 8 * masks_of_commit(&keys);
    record.resize(length, 1);
    record[..2].copy_from_slice(&(length as u16).to_le_bytes());
}
