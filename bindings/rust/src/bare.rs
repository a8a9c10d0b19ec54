//! The call that judges an image whose trace is lost.

use crate::archive;
use crate::refusal::Refusal;

/// What an image is answered with: a refusal; or that some order of its commits
/// gives it, or that none does, with how many commits are shown in the lent
/// buffer.
#[derive(Clone, Copy, PartialEq, Eq, Debug)]
pub enum Bare {
    Refused(Refusal),
    /// Such an order, all commits.
    Order(usize),
    /// Code 19: a ring of SO, WR, WW or RW links.
    Ring(usize),
}

/// No image has more commits. A buffer for the commits that are shown has as
/// many bytes, or the image is refused with code 17.
pub const MOST_COMMITS: usize = 63;

/// The words of an answer of [`judge_image_words`].
pub const IMAGE_WORDS: usize = 5;

/// [`judge_image`] and [`judge_image_words`] take no more stack, in bytes.
pub const IMAGE_STACK: usize = 8_192;

/// Judges one image by itself: is there an order of its commits, each made from a
/// view of everything, that gives these versions, writers and readers, with each
/// client's session numbers in order? The views in the image are not looked at.
///
/// If there is, the order stands at the start of `shown`, one byte a commit: each
/// time the lowest-numbered commit of those that come after no other that is left.
/// If there is none, a ring of links stands there, in the order of its links and
/// without a commit twice; a commit that read its own version is one. No other
/// byte of `shown` changes, and none at all where the answer is a refusal.
pub fn judge_image(image: &[u8], shown: &mut [u8]) -> Bare {
    let mut words = [0; IMAGE_WORDS];
    match judge_image_words(image, shown, &mut words) {
        0 => Bare::Order(words[1] as usize),
        19 => Bare::Ring(words[1] as usize),
        _ => Bare::Refused(Refusal::of(&words)),
    }
}

/// The same with the answer as words at the start of `words`, which
/// `bindings/c/consistency.h` lays out, and its code, which is 0 where an order
/// is shown and 19 where a ring is. Where `words` has less than [`IMAGE_WORDS`]
/// nothing is written, and the code is [`NO_ROOM`](crate::NO_ROOM).
pub fn judge_image_words(image: &[u8], shown: &mut [u8], words: &mut [u64]) -> u64 {
    // It reads the image and writes the other two, all within their lengths.
    unsafe {
        archive::judge_image(
            image.as_ptr(),
            image.len(),
            shown.as_mut_ptr(),
            shown.len(),
            words.as_mut_ptr(),
            words.len(),
        )
    }
}
