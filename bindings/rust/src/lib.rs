//! The proved calls on trace files and images, for callers in Rust.
//!
//! `crates/consistency/src/lib.rt` says what is proved of each call; the types
//! are those of the proved crates below it. Nothing is asked of a caller: any
//! bytes get an answer, and a buffer may have any length. A call keeps nothing
//! and allocates nothing, so that several threads may call at once. It takes no
//! more stack than its constant says; the buffers are the caller's.
//!
//! A file is given whole, or in pieces to a [`Session`], which has a buffer of
//! its own for them. An image whose trace is lost is given to [`judge_image`].
//! [`visibility`] says of the commits of a trace which saw which.
//!
//! [`Refusal`] has the table of codes and that of the calls which give them,
//! [`Verdicts`] that of levels and [`Verdict`] that of clauses.
//! `docs/FORMAT.md` has the trace file, its two editions, the image, the replay
//! and the report, and the long form of the tables.

mod archive;
mod bare;
mod converting;
mod judging;
mod plain;
mod refusal;
mod replaying;
mod report;
mod session;
mod visibility;

pub use bare::{judge_image, judge_image_words, Bare, IMAGE_STACK, IMAGE_WORDS, MOST_COMMITS};
pub use converting::{
    long, long_words, short, short_words, Conversion, CONVERSION_STACK, CONVERSION_WORDS,
};
pub use judging::{judge, judge_words, Answer, Verdict, Verdicts, JUDGE_STACK, JUDGE_WORDS};
pub use plain::{plain, plain_words, PLAIN_STACK};
pub use refusal::{CommitNumber, Key, Refusal, VersionNumber, NO_ROOM, REFUSAL_WORDS};
pub use replaying::{replay, replay_words, Replay, LONGEST_REPLAY, REPLAY_STACK, REPLAY_WORDS};
pub use report::{report, LONGEST_REPORT, REPORT_STACK};
pub use session::{
    close_session, open_session, push_piece, report_session, Session, SessionRecord, CLOSE_STACK,
    PUSH_STACK,
};
pub use visibility::{visibility, visibility_words, VISIBILITY_STACK};

/// The most bytes that a trace file may have; a longer one is code 1, and none is
/// written.
pub const LONGEST_FILE: usize = 65_536;

/// No image is longer; a buffer of this length is never too short.
pub const LONGEST_IMAGE: usize = 49_536;
