//! An image whose trace is lost: it is tested and its links are gathered in one
//! pass, a row of 64 bits for each commit; then the commits are placed.

use crate::answer::{Bare, Refusal};
use crate::form::{CLIENTS, COMMITS, KEYS};

use super::{lowest, members, SLOTS};

/// Judges one image. With codes 17 and 20 no byte of `shown` changes; otherwise
/// the commits stand at its start, and the bytes after them are as they were.
pub fn judge_image(image: &[u8], shown: &mut [u8]) -> Bare {
    let Some((rows, commits)) = rows(image) else {
        return Bare::Refused(Refusal::at(20, 0));
    };
    if shown.len() < COMMITS {
        return Bare::Refused(Refusal::at(17, 0));
    }
    // Bit c for commit c, of those that are not placed.
    let mut left = all(commits);
    let mut order = [0; COMMITS];
    for byte in &mut order[..commits] {
        let Some(ready) = members(left).find(|&commit| rows[commit] & left == 0) else {
            return Bare::Ring(show_ring(&rows, left, shown));
        };
        *byte = ready as u8;
        left &= !(1 << ready);
    }
    shown[..commits].copy_from_slice(&order[..commits]);
    Bare::Order(commits)
}

/// The set of all commits.
fn all(commits: usize) -> u64 {
    (u64::MAX >> (63 - commits)) & !1
}

/// For each commit those with a link to it, and how many commits there are;
/// nothing where the image is misshapen.
fn rows(image: &[u8]) -> Option<([u64; SLOTS], usize)> {
    let (head, rest) = image.split_first_chunk::<8>()?;
    let [l0, l1, l2, l3, keys, commits, 0, 0] = *head else {
        return None;
    };
    let (keys, commits) = (usize::from(keys), usize::from(commits));
    let length = u32::from_le_bytes([l0, l1, l2, l3]) as usize;
    if length != image.len() || keys == 0 || keys > KEYS || commits > COMMITS {
        return None;
    }
    let mut rows = [0; SLOTS];
    let (entries, mut rest) = rest.split_at_checked(commits * (8 + 8 * keys))?;
    sessions(entries.chunks_exact(8 + 8 * keys), &mut rows)?;
    let known = all(commits);
    for _ in 0..keys {
        let (count, after) = rest.split_first_chunk::<4>()?;
        let bytes = (u32::from_le_bytes(*count) as usize).checked_mul(16)?;
        let (versions, after) = after.split_at_checked(bytes)?;
        links_of_key(versions, known, &mut rows)?;
        rest = after;
    }
    rest.is_empty().then_some((rows, commits))
}

/// SO of all commits.
fn sessions<'a>(entries: impl Iterator<Item = &'a [u8]>, rows: &mut [u64; SLOTS]) -> Option<()> {
    let mut numbers = [0; SLOTS];
    let mut of_client = [0u64; CLIENTS];
    for (place, entry) in entries.enumerate() {
        let commit = place + 1;
        let author = u32::from_le_bytes(entry[..4].try_into().ok()?);
        numbers[commit] = u32::from_le_bytes(entry[4..8].try_into().ok()?);
        let own = of_client.get_mut(author as usize)?;
        for other in members(*own) {
            if numbers[other] == numbers[commit] {
                return None;
            }
            let (first, second) = match numbers[other] < numbers[commit] {
                true => (other, commit),
                false => (commit, other),
            };
            rows[second] |= 1 << first;
        }
        *own |= 1 << commit;
    }
    Some(())
}

/// WR, WW and RW of one key.
fn links_of_key(versions: &[u8], known: u64, rows: &mut [u64; SLOTS]) -> Option<()> {
    let (mut wrote, mut read) = (0u64, 0u64);
    let (first, later) = versions.split_first_chunk::<16>()?;
    let [0, 0, 0, 0, 0, 0, 0, 0, readers @ ..] = *first else {
        return None;
    };
    let readers = u64::from_le_bytes(readers);
    if readers & !known != 0 {
        return None;
    }
    read |= readers;
    for version in later.chunks_exact(16) {
        let writer = u32::from_le_bytes(version[4..8].try_into().ok()?);
        let readers = u64::from_le_bytes(version[8..].try_into().ok()?);
        let own = 1u64.checked_shl(writer)?;
        if own & known & !wrote == 0 || readers & (!known | read) != 0 {
            return None;
        }
        rows[writer as usize] |= wrote | read & !own;
        for reader in members(readers) {
            rows[reader] |= own;
        }
        wrote |= own;
        read |= readers;
    }
    Some(())
}

/// Goes back from the lowest commit that is left until it comes to one again.
fn show_ring(rows: &[u64; SLOTS], left: u64, shown: &mut [u8]) -> usize {
    let mut way = [0u8; SLOTS];
    let (mut length, mut seen, mut at) = (0, 0u64, lowest(left));
    while seen >> at & 1 == 0 {
        seen |= 1 << at;
        way[length] = at as u8;
        length += 1;
        at = lowest(rows[at] & left);
    }
    let from = way.iter().position(|&commit| usize::from(commit) == at);
    let ring = &way[from.unwrap_or(0)..length];
    for (byte, commit) in shown.iter_mut().zip(ring.iter().rev()) {
        *byte = *commit;
    }
    ring.len()
}
