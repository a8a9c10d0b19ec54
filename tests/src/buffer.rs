//! Lent buffers, with something in them beforehand that shows what is written.

use crate::image;
use crate::store::Store;

/// More than any image needs.
pub const LONG: usize = image::LONGEST + 40;

/// More than any file needs that is written.
pub const LONG_FILE: usize = Store::MAX_BYTES + 40;

/// What words have in them.
pub const UNTOUCHED: u64 = 0x5A5A_A5A5_5A5A_A5A5;

/// What a buffer has in it: at places side by side, other bytes, which come
/// again after 256 places.
pub fn pattern(length: usize) -> Vec<u8> {
    let mut bytes = PERIOD.repeat(length / PERIOD.len() + 1);
    bytes.truncate(length);
    bytes
}

const PERIOD: [u8; 256] = {
    let mut bytes = [0; 256];
    let mut place = 0;
    while place < bytes.len() {
        bytes[place] = (place * 37 + 11) as u8;
        place += 1;
    }
    bytes
};

/// Does a buffer have the pattern still, from some place on?
pub fn untouched(buffer: &[u8], from: usize) -> bool {
    buffer[from..] == pattern(buffer.len())[from..]
}
