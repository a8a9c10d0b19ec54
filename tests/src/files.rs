//! The example traces as files: the name that each has in `examples/` and
//! in `crates/vectors/data/`, its bytes, and the report that the program
//! `vectors` must print for all of them.

use crate::example_traces::{all, ExampleTrace};
use crate::{judge_with_room, outcome, report, Call};
use std::path::{Path, PathBuf};

/// In the order of `example_traces::all`.
pub const NAMES: [&str; 18] = [
    "A-header-only",
    "B-lost-update",
    "C-long-fork",
    "D-write-skew",
    "E-lost-view",
    "F-write-without-earlier-write",
    "G-write-without-what-it-follows",
    "H-half-of-a-writer",
    "I-wrong-read",
    "I-number-twice",
    "I-number-twice-first-empty",
    "J-cut-to-79",
    "J-cut-to-79-first-field-79",
    "K-63-commits",
    "K-64-commits",
    "K-wrong-read-then-kind-9",
    "L-lost-own-write",
    "M-seen-not-read",
];

/// Each trace with the name of its file.
pub fn files() -> Vec<(&'static str, ExampleTrace)> {
    let traces = all();
    assert_eq!(traces.len(), NAMES.len());
    NAMES.into_iter().zip(traces).collect()
}

/// One name to a line, as `crates/vectors/args` has them.
pub fn arguments() -> String {
    NAMES.iter().map(|name| format!("{name}\n")).collect()
}

/// For each file its name and then its report.
pub fn printed() -> String {
    files()
        .iter()
        .map(|(name, example)| format!("{name}\n{}", report_of(&example.bytes)))
        .collect()
}

/// Where a file of the repository stands.
pub fn at(path: &str) -> PathBuf {
    Path::new(env!("CARGO_MANIFEST_DIR")).join("..").join(path)
}

/// The replay of one file that has one.
pub fn replay_of(file: &[u8]) -> Vec<u8> {
    written_of(Call::Replay, file)
}

/// What a call writes of one file that it does not refuse.
pub fn written_of(call: Call, file: &[u8]) -> Vec<u8> {
    let outcome = outcome(file);
    let written = call.written(&outcome);
    written.expect("a file that is not refused").to_vec()
}

/// The report of one file, with an image buffer that is long enough.
pub fn report_of(file: &[u8]) -> String {
    report(&judge_with_room(file))
}
