//! Section "Traces from the bench", the example traces A to K, the last of I as
//! request E7 amends it, trace L of request E4, and M, which shows what request
//! E14 does not claim, with the answers that the papers give, or that follow from
//! them where they say "the rest".

use crate::by_hand::{self, commit, read, shift};
use crate::levels::place_of;
use crate::store::Store;
use crate::trace::{encode, with_true_length, Operation, Record, Trace};
use crate::{Refusal, Verdict};

/// One trace, or one variant of it. `bytes` is the file; it is the encoding of
/// `trace` except where the paper cuts or spoils the file itself.
pub struct ExampleTrace {
    pub name: &'static str,
    pub trace: Trace,
    pub bytes: Vec<u8>,
    pub expected: Expected,
}

#[derive(Clone, Copy, PartialEq, Eq, Debug)]
#[allow(clippy::large_enum_variant)] // plain data, copied freely
pub enum Expected {
    Refused(Refusal),
    Judged([Verdict; 10]),
}

/// All of them in the papers' order.
pub fn all() -> Vec<ExampleTrace> {
    a_to_g()
        .into_iter()
        .chain(h_to_k())
        .chain([l(), m()])
        .collect()
}

/// A file that is the encoding of its trace.
fn whole(name: &'static str, trace: Trace, expected: Expected) -> ExampleTrace {
    ExampleTrace {
        name,
        bytes: encode(&trace),
        trace,
        expected,
    }
}

/// Those that get ten verdicts.
fn a_to_g() -> Vec<ExampleTrace> {
    vec![
        whole("A", trace_a(), judged(&[])),
        whole(
            "B",
            trace_b(),
            judged(&[
                ("UA", refused(2, 2, 5, 0, 1)),
                ("PSI", refused(2, 2, 5, 0, 1)),
                ("SI", refused(2, 2, 5, 0, 1)),
                ("SER", refused(2, 2, 8, 0, 1)),
            ]),
        ),
        whole(
            "C",
            trace_c(),
            judged(&[
                ("CP", refused(4, 6, 6, 0, 1)),
                ("SI", refused(4, 6, 7, 0, 1)),
                ("SER", refused(2, 2, 8, 0, 1)),
            ]),
        ),
        whole("D", trace_d(), judged(&[("SER", refused(2, 2, 8, 0, 1))])),
        whole(
            "E",
            trace_e(),
            judged(&[
                ("MR", refused(2, 3, 1, 0, 1)),
                ("CC", refused(2, 3, 1, 0, 1)),
                ("PSI", refused(2, 3, 1, 0, 1)),
                ("CP", refused(2, 3, 1, 0, 1)),
                ("SI", refused(2, 3, 1, 0, 1)),
            ]),
        ),
        whole(
            "F",
            trace_f(),
            judged(&[
                ("MW", refused(3, 4, 3, 0, 1)),
                ("CC", refused(3, 4, 3, 0, 1)),
                ("PSI", refused(3, 4, 3, 0, 1)),
                ("CP", refused(3, 4, 6, 0, 1)),
                ("SI", refused(3, 4, 7, 0, 1)),
                ("SER", refused(3, 4, 8, 0, 1)),
            ]),
        ),
        whole(
            "G",
            trace_g(),
            judged(&[
                ("WFR", refused(3, 5, 4, 0, 1)),
                ("CC", refused(3, 5, 4, 0, 1)),
                ("PSI", refused(3, 5, 4, 0, 1)),
                ("CP", refused(3, 5, 6, 0, 1)),
                ("SI", refused(3, 5, 7, 0, 1)),
                ("SER", refused(3, 5, 8, 0, 1)),
            ]),
        ),
    ]
}

/// Those about codes.
fn h_to_k() -> Vec<ExampleTrace> {
    vec![
        whole("H", trace_h(), code(11, 2, 1, 1)),
        whole(
            "I, reads 1 from the opening store",
            trace_i_read(),
            code(13, 1, 0, 0),
        ),
        whole("I, number 0 twice", trace_i_twice(), code(9, 2, 0, 0)),
        whole(
            "I, number 0 twice, the first one empty",
            trace_i_empty(),
            code(9, 2, 0, 0),
        ),
        ExampleTrace {
            name: "J, B cut to 79 bytes",
            trace: trace_b(),
            bytes: encode(&trace_b())[..79].to_vec(),
            expected: code(1, 0, 0, 0),
        },
        ExampleTrace {
            name: "J, B cut to 79 bytes with first field 79",
            trace: trace_b(),
            bytes: with_true_length(encode(&trace_b())[..79].to_vec()),
            expected: code(3, 2, 0, 0),
        },
        whole("K, 63 commits", trace_k(63), judged(&[])),
        whole("K, 64 commits", trace_k(64), code(8, 64, 0, 0)),
        ExampleTrace {
            name: "K, a wrong read in record 1 and kind 9 in record 2",
            trace: trace_k_wrong_read(),
            bytes: with_kind_9_in_record_2(&trace_k_wrong_read()),
            expected: code(4, 2, 0, 0),
        },
    ]
}

/// Read your writes, of the whole session.
fn l() -> ExampleTrace {
    whole(
        "L",
        trace_l(),
        judged(&[
            ("MR", refused(2, 2, 1, 0, 1)),
            ("RYW", refused(2, 2, 2, 0, 1)),
            ("CC", refused(2, 2, 1, 0, 1)),
            ("PSI", refused(2, 2, 1, 0, 1)),
            ("CP", refused(2, 2, 1, 0, 1)),
            ("SI", refused(2, 2, 1, 0, 1)),
        ]),
    )
}

/// Visibility that is not transitive, though every level but SER accepts.
fn m() -> ExampleTrace {
    whole("M", trace_m(), judged(&[("SER", refused(3, 5, 8, 0, 1))]))
}

/// Header only, one key.
pub fn trace_a() -> Trace {
    trace(1, 1, vec![])
}

/// Lost update.
pub fn trace_b() -> Trace {
    trace(
        1,
        2,
        vec![
            commit(0, 0, &[read(0, 0), write(0)], &[&[0, 1]]),
            commit(1, 0, &[read(0, 0), write(0)], &[&[0, 2]]),
        ],
    )
}

/// Long fork.
pub fn trace_c() -> Trace {
    trace(
        2,
        4,
        vec![
            commit(0, 0, &[write(0)], &[&[0, 1], &[0]]),
            commit(1, 0, &[write(1)], &[&[0], &[0, 1]]),
            shift(2, &[&[0, 1], &[0]]),
            commit(2, 0, &[read(0, 1), read(1, 0)], &[&[0, 1], &[0]]),
            shift(3, &[&[0], &[0, 1]]),
            commit(3, 0, &[read(0, 0), read(1, 1)], &[&[0], &[0, 1]]),
        ],
    )
}

/// Write skew.
pub fn trace_d() -> Trace {
    trace(
        2,
        2,
        vec![
            commit(0, 0, &[read(0, 0), write(0), read(1, 0)], &[&[0, 1], &[0]]),
            commit(1, 0, &[read(0, 0), read(1, 0), write(1)], &[&[0], &[0, 1]]),
        ],
    )
}

/// A reader loses what it read.
pub fn trace_e() -> Trace {
    trace(
        1,
        2,
        vec![
            commit(0, 0, &[write(0)], &[&[0, 1]]),
            shift(1, &[&[0, 1]]),
            commit(1, 0, &[read(0, 1)], &[&[0]]),
        ],
    )
}

/// The second write of a session without the first.
pub fn trace_f() -> Trace {
    trace(
        2,
        3,
        vec![
            commit(0, 0, &[write(0)], &[&[0, 1], &[0]]),
            commit(0, 1, &[write(1)], &[&[0, 1], &[0, 1]]),
            shift(2, &[&[0], &[0, 1]]),
            commit(2, 0, &[read(1, 1)], &[&[0], &[0, 1]]),
        ],
    )
}

/// A write without what its writer had read.
pub fn trace_g() -> Trace {
    trace(
        2,
        3,
        vec![
            commit(0, 0, &[write(0)], &[&[0, 1], &[0]]),
            shift(1, &[&[0, 1], &[0]]),
            commit(1, 0, &[read(0, 1), write(1)], &[&[0, 1], &[0, 1]]),
            shift(2, &[&[0], &[0, 1]]),
            commit(2, 0, &[read(1, 1)], &[&[0], &[0, 1]]),
        ],
    )
}

/// Half of a writer.
pub fn trace_h() -> Trace {
    trace(
        2,
        2,
        vec![
            commit(0, 0, &[write(0), write(1)], &[&[0, 1], &[0, 1]]),
            shift(1, &[&[0, 1], &[0]]),
        ],
    )
}

pub fn trace_i_read() -> Trace {
    trace(1, 1, vec![commit(0, 0, &[read(0, 1)], &[&[0]])])
}

pub fn trace_i_twice() -> Trace {
    trace(
        1,
        1,
        vec![
            commit(0, 0, &[write(0)], &[&[0, 1]]),
            commit(0, 0, &[write(0)], &[&[0, 1, 2]]),
        ],
    )
}

pub fn trace_i_empty() -> Trace {
    trace(
        1,
        1,
        vec![
            commit(0, 0, &[], &[&[0]]),
            commit(0, 0, &[write(0)], &[&[0, 1]]),
        ],
    )
}

/// One client that writes one key again and again. Beyond 63 commits the view
/// after cannot name the newest version any more, and need not.
pub fn trace_k(commits: usize) -> Trace {
    let mut records = Vec::new();
    for number in 1..=commits {
        let held: Vec<usize> = (0..=number.min(Store::MAX_COMMITS)).collect();
        records.push(commit(0, number as u32 - 1, &[write(0)], &[&held]));
    }
    trace(1, 1, records)
}

/// Before record 2 is given kind 9.
pub fn trace_k_wrong_read() -> Trace {
    trace(
        1,
        1,
        vec![
            commit(0, 0, &[read(0, 1)], &[&[0]]),
            commit(0, 1, &[write(0)], &[&[0, 1]]),
        ],
    )
}

/// A client loses what an earlier commit of its session wrote.
pub fn trace_l() -> Trace {
    trace(
        1,
        1,
        vec![
            commit(0, 0, &[write(0)], &[&[0, 1]]),
            commit(0, 1, &[read(0, 1)], &[&[0]]),
        ],
    )
}

/// Client 1 sees what client 0 wrote and does not read it; client 2 sees what
/// client 1 wrote alone.
pub fn trace_m() -> Trace {
    trace(
        2,
        3,
        vec![
            commit(0, 0, &[write(0)], &[&[0, 1], &[0]]),
            shift(1, &[&[0, 1], &[0]]),
            commit(1, 0, &[write(1)], &[&[0, 1], &[0, 1]]),
            shift(2, &[&[0], &[0, 1]]),
            commit(2, 0, &[read(1, 1)], &[&[0], &[0, 1]]),
        ],
    )
}

fn with_kind_9_in_record_2(trace: &Trace) -> Vec<u8> {
    let mut bytes = encode(trace);
    let record_1 = 12;
    let record_2 = record_1 + bytes[record_1] as usize;
    bytes[record_2 + 2] = 9;
    bytes
}

/// Ten verdicts, accepted where none is given.
fn judged(failures: &[(&str, Verdict)]) -> Expected {
    let mut verdicts = [Verdict::Accepted; 10];
    for (name, verdict) in failures {
        verdicts[place_of(name)] = *verdict;
    }
    Expected::Judged(verdicts)
}

fn refused(commit: usize, record: usize, clause: u8, key: usize, version: usize) -> Verdict {
    Verdict::Refused {
        commit,
        record,
        clause,
        key,
        version,
    }
}

fn code(code: u8, record: usize, key: usize, version: usize) -> Expected {
    Expected::Refused(Refusal {
        code,
        record,
        key,
        version,
        writer: 0,
    })
}

fn trace(keys: usize, clients: usize, records: Vec<Record>) -> Trace {
    Trace {
        keys,
        clients,
        records,
    }
}

/// Values written are 1.
fn write(key: usize) -> Operation {
    by_hand::write(key, 1)
}
