//! The functions of `libconsistency.a`, as `bindings/c/consistency.h` has them.

use crate::session::SessionRecord;

extern "C" {
    pub fn judge_file(
        file: *const u8,
        file_length: usize,
        image: *mut u8,
        image_length: usize,
        words: *mut u64,
        words_length: usize,
    ) -> u64;

    pub fn plain_file(
        file: *const u8,
        file_length: usize,
        words: *mut u64,
        words_length: usize,
    ) -> u64;

    pub fn replay_file(
        file: *const u8,
        file_length: usize,
        buffer: *mut u8,
        buffer_length: usize,
        words: *mut u64,
        words_length: usize,
    ) -> u64;

    pub fn short_file(
        file: *const u8,
        file_length: usize,
        buffer: *mut u8,
        buffer_length: usize,
        words: *mut u64,
        words_length: usize,
    ) -> u64;

    pub fn long_file(
        file: *const u8,
        file_length: usize,
        buffer: *mut u8,
        buffer_length: usize,
        words: *mut u64,
        words_length: usize,
    ) -> u64;

    pub fn report_file(
        file: *const u8,
        file_length: usize,
        image: *mut u8,
        image_length: usize,
        text: *mut u8,
        text_length: usize,
    ) -> usize;

    pub fn judge_image(
        image: *const u8,
        image_length: usize,
        shown: *mut u8,
        shown_length: usize,
        words: *mut u64,
        words_length: usize,
    ) -> u64;

    pub fn visibility_file(
        file: *const u8,
        file_length: usize,
        image: *mut u8,
        image_length: usize,
        rows: *mut u64,
        rows_length: usize,
        words: *mut u64,
        words_length: usize,
    ) -> u64;

    pub fn open_session(session: *mut SessionRecord);

    pub fn push_piece(
        session: *mut SessionRecord,
        kept: *mut u8,
        kept_length: usize,
        piece: *const u8,
        piece_length: usize,
    ) -> u64;

    pub fn close_session(
        session: *mut SessionRecord,
        kept: *const u8,
        kept_length: usize,
        image: *mut u8,
        image_length: usize,
        words: *mut u64,
        words_length: usize,
    ) -> u64;

    pub fn report_session(
        session: *mut SessionRecord,
        kept: *const u8,
        kept_length: usize,
        image: *mut u8,
        image_length: usize,
        text: *mut u8,
        text_length: usize,
    ) -> usize;
}
