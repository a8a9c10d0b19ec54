//! An ordinary fast judge of trace files, which writes replays and both editions
//! too, takes files in pieces and judges bare images, the traces it is timed
//! with, and the proved calls to be timed beside it.

pub mod answer;
pub mod contender;
pub mod form;
pub mod odd;
pub mod ordinary;
pub mod proved;
pub mod traces;

pub use answer::{Answer, Bare, Refusal, Replay, Report, Verdict};
pub use ordinary::{judge_image, Judge, Session};
