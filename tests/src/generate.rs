//! Seeded test files: taken traces of many styles, traces about the numbers of
//! one client, files planted with one fault or with several, and spoiled bytes;
//! and images whose trace is lost. The same seed gives the same file. What a file
//! is known to be answered with comes along with it, found from how it was made
//! and not by judging it.

pub mod edges;
pub mod editions;
pub mod images;
pub mod mangled;
pub mod numbers;
pub mod pieces;
pub mod planted;
pub mod session;
pub mod taken;

pub use edges::{edge_case, EDGES};
pub use editions::{growing_case, mixed, GROWING};
pub use images::{
    image_case, long_ring, ImageCase, ImageExpected, DAMAGES, IMAGE_KINDS, LONGEST_RING,
};
pub use mangled::{mangled, record_places};
pub use numbers::numbers_case;
pub use pieces::{pieces, script, Script};
pub use planted::{competing, planted};
pub use session::build_session;
pub use taken::{
    build, build_path, exactly_full, growing, largest, largest_serial, Built, Numbering, Rule,
    Seeing, Style, FORMER_KEYS,
};

use crate::random::Random;
use crate::trace::{encode, Trace};
use crate::Refusal;

/// One generated file.
pub struct Case {
    pub kind: &'static str,
    pub bytes: Vec<u8>,
    /// The faults planted on purpose, each as it would be answered alone.
    pub planted: Vec<Refusal>,
    pub expected: Expected,
    /// The edge of form that a record is at, and how the file grows, for cases
    /// that are made for it.
    pub edge: Option<&'static str>,
    pub grows: Option<&'static str>,
}

impl Case {
    /// A file that is taken.
    pub fn taken(kind: &'static str, bytes: Vec<u8>) -> Case {
        Case {
            kind,
            bytes,
            planted: vec![],
            expected: Expected::Taken,
            edge: None,
            grows: None,
        }
    }

    /// The same file where it is refused.
    pub fn refused_with(self, refusal: Refusal) -> Case {
        Case {
            planted: vec![refusal],
            expected: Expected::Refused(refusal),
            ..self
        }
    }
}

/// Every kind of a case.
pub const KINDS: [&str; 18] = [
    "taken",
    "path",
    "session",
    "numbers",
    "largest",
    "full",
    "overfull",
    "planted",
    "competing",
    "cut",
    "cut, its length true",
    "a field that lies",
    "random bytes",
    "flipped bits",
    "a record moved",
    "scrambled",
    "edge",
    "growing",
];

/// What is known of the answer, the image buffer being long enough.
#[derive(Clone, PartialEq, Eq, Debug)]
pub enum Expected {
    /// Ten verdicts.
    Taken,
    /// This very refusal.
    Refused(Refusal),
    /// Nothing is known.
    Anything,
}

/// The file of a seed, of all kinds mixed; about one in three hundred is large.
pub fn case(seed: u64) -> Case {
    let mut random = Random::seeded(seed);
    match random.below(1000) {
        0..=429 => taken_case(&mut random),
        430..=449 => numbers_case(&mut random),
        450..=638 => {
            let code = random.between(1, 14) as u8;
            let (bytes, refusal) = planted(&mut random, code);
            Case::taken("planted", bytes).refused_with(refusal)
        }
        639..=767 => {
            let (bytes, planted, expected) = competing(&mut random);
            Case {
                planted,
                expected,
                ..Case::taken("competing", bytes)
            }
        }
        768..=965 => {
            let (kind, bytes, expected) = mangled(&mut random);
            Case {
                expected,
                ..Case::taken(kind, bytes)
            }
        }
        966..=995 => edge_case(&mut random),
        996..=997 => growing_case(&mut random),
        998 => {
            let trace = largest(&mut random).trace;
            known_taken(&mut random, "largest", &trace)
        }
        _ => full_case(&mut random),
    }
}

/// The bytes of a seed alone.
pub fn file(seed: u64) -> Vec<u8> {
    case(seed).bytes
}

/// A taken trace of a random style, or around one path of links or one session,
/// in all kinds of records.
pub fn taken_case(random: &mut Random) -> Case {
    let (kind, built) = match random.below(100) {
        0..=24 => ("path", build_path(random)),
        25..=34 => ("session", build_session(random)),
        _ => {
            let style = Style::random(random);
            ("taken", build(random, &style))
        }
    };
    known_taken(random, kind, &built.trace)
}

fn known_taken(random: &mut Random, kind: &'static str, trace: &Trace) -> Case {
    Case::taken(kind, mixed(random, trace))
}

/// A file of 65,536 bytes, or one that is longer by one record.
fn full_case(random: &mut Random) -> Case {
    let mut trace = exactly_full(random).trace;
    if random.percent(50) {
        return Case::taken("full", encode(&trace));
    }
    let last = trace
        .records
        .last()
        .expect("a full file has records")
        .clone();
    trace.records.push(last);
    Case::taken("overfull", encode(&trace)).refused_with(Refusal::at(1, 0))
}
