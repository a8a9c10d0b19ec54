//! The call that writes the report of a trace file.

use crate::archive::report_file;

/// No report is longer; a buffer of this length is never too short.
pub const LONGEST_REPORT: usize = 1_272;

/// [`report`] takes no more stack, in bytes.
pub const REPORT_STACK: usize = 98_304;

/// Judges one trace file as [`judge`](crate::judge) does and writes the report,
/// each line with a line feed at its end, at the start of `text`: answers its
/// length. Where `text` has less than [`LONGEST_REPORT`] bytes nothing is
/// judged or written, and the answer is 0.
pub fn report(file: &[u8], image: &mut [u8], text: &mut [u8]) -> usize {
    // It reads the file and writes the other two, all within their lengths.
    unsafe {
        report_file(
            file.as_ptr(),
            file.len(),
            image.as_mut_ptr(),
            image.len(),
            text.as_mut_ptr(),
            text.len(),
        )
    }
}
