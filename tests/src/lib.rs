//! A plain model of the trace checker.
//!
//! It answers the call that section "The work to build and its rules" asks
//! for: one trace file in a lent slice, one store image into a second lent
//! slice, and either ten verdicts or one refusal (section "Bench codes"); and
//! the calls of requests E1 and E6, which write the replay of a trace, or the
//! trace in its short or long edition, into a lent file buffer; and the calls of
//! request E5, by which a trace file comes in pieces; and the call of request E9,
//! which judges an image whose trace is lost; and that of request E14, which says
//! which commit is visible to which. Everything is sets, maps and lists,
//! as near to the wording of the paper as it goes. It is slow on purpose: it is
//! there to be compared with.

pub mod bare;
#[cfg(feature = "proved")]
pub mod beside;
pub mod buffer;
pub mod by_hand;
pub mod call;
pub mod editions;
pub mod example_traces;
pub mod facts;
pub mod files;
pub mod form;
pub mod generate;
pub mod image;
pub mod levels;
pub mod met;
pub mod numbers;
pub mod own_writes;
pub mod port;
#[cfg(feature = "proved")]
pub mod programs;
pub mod random;
pub mod relations;
pub mod replay;
pub mod run;
pub mod serial;
pub mod store;
pub mod text;
pub mod trace;
pub mod visibility;
pub mod words;

pub use call::Call;
pub use editions::{Conversion, Edition};
pub use replay::Replay;
pub use text::report;

use store::Store;

/// What a trace file is answered with.
#[allow(clippy::large_enum_variant)] // plain data, copied freely
#[derive(Clone, Copy, PartialEq, Eq, Debug)]
pub enum Answer {
    Refused(Refusal),
    Judged(Report),
}

impl Answer {
    /// The code; 0 where the file was judged.
    pub fn code(&self) -> u8 {
        match self {
            Answer::Refused(refusal) => refusal.code,
            Answer::Judged(_) => 0,
        }
    }
}

/// One code, 1 to 18 or 20 to 22, with what it names; 0 where it names nothing.
#[derive(Clone, Copy, PartialEq, Eq, PartialOrd, Ord, Debug)]
pub struct Refusal {
    pub code: u8,
    pub record: usize,
    pub key: usize,
    pub version: usize,
    /// Of code 13 alone: the commit that wrote the version.
    pub writer: usize,
}

impl Refusal {
    /// A code that names its record only.
    pub fn at(code: u8, record: usize) -> Refusal {
        Refusal {
            code,
            record,
            key: 0,
            version: 0,
            writer: 0,
        }
    }
}

/// Code 0: the verdicts in report order and the three numbers beside them.
#[derive(Clone, Copy, PartialEq, Eq, Debug)]
pub struct Report {
    pub verdicts: [Verdict; 10],
    pub records: usize,
    pub commits: usize,
    pub image_len: usize,
}

/// What one level says of the whole trace.
#[derive(Clone, Copy, PartialEq, Eq, PartialOrd, Ord, Debug)]
pub enum Verdict {
    Accepted,
    Refused {
        commit: usize,
        record: usize,
        clause: u8,
        key: usize,
        version: usize,
    },
}

/// Judges one trace file. With a refusal no byte of `image` changes; otherwise
/// the store image stands at its start and the bytes after it are as before.
pub fn judge(trace: &[u8], image: &mut [u8]) -> Answer {
    answer(&outcome(trace), image)
}

/// The answer where the image buffer is long enough.
pub fn judge_with_room(trace: &[u8]) -> Answer {
    judge(trace, &mut [0; image::LONGEST])
}

/// Writes the replay of a trace file. With a refusal no byte of `buffer`
/// changes; otherwise the replay stands at its start and the bytes after it are
/// as before.
pub fn replay(trace: &[u8], buffer: &mut [u8]) -> Replay {
    replayed(&outcome(trace), buffer)
}

/// Writes a trace file in an edition. With a refusal no byte of `buffer`
/// changes; otherwise the file stands at its start and the bytes after it are
/// as before.
pub fn convert(edition: Edition, trace: &[u8], buffer: &mut [u8]) -> Conversion {
    written_in(edition, &outcome(trace), buffer)
}

/// What a file comes to before any buffer is looked at: one of the codes 1 to
/// 14, or a taken trace.
pub type Outcome = Result<Taken, Refusal>;

/// A taken trace: its report, its final store and the image of that; its replay
/// as a file, or code 16; and the trace itself as a short file and as a long
/// one, or code 22.
#[derive(Clone, Debug)]
pub struct Taken {
    pub report: Report,
    pub store: Store,
    pub image: Vec<u8>,
    pub replay: Result<Vec<u8>, Refusal>,
    pub short: Result<Vec<u8>, Refusal>,
    pub long: Result<Vec<u8>, Refusal>,
}

impl Taken {
    /// The trace as a file of an edition.
    pub fn converted(&self, edition: Edition) -> &Result<Vec<u8>, Refusal> {
        match edition {
            Edition::Short => &self.short,
            Edition::Long => &self.long,
        }
    }
}

/// The order of the codes: form (1 to 8), then meaning (9 to 14).
pub fn outcome(file: &[u8]) -> Outcome {
    let trace = form::read(file)?;
    let run = run::run(&trace)?;
    let image = image::image(&run.store);
    let report = Report {
        verdicts: levels::verdicts(&run),
        records: trace.records.len(),
        commits: run.steps.len(),
        image_len: image.len(),
    };
    let ser = &report.verdicts[levels::place_of("SER")];
    Ok(Taken {
        replay: replay::replay_file(&trace, &run, ser),
        short: editions::converted(&trace, Edition::Short),
        long: editions::converted(&trace, Edition::Long),
        report,
        store: run.store,
        image,
    })
}

/// What a lent image buffer gets. "15 last": nothing but its length matters.
pub fn answer(outcome: &Outcome, buffer: &mut [u8]) -> Answer {
    match outcome {
        Err(refusal) => Answer::Refused(*refusal),
        Ok(taken) if !put(&taken.image, buffer) => Answer::Refused(Refusal::at(15, 0)),
        Ok(taken) => Answer::Judged(taken.report),
    }
}

/// The same for a lent file buffer. "A refused trace keeps its own code, before
/// 16".
pub fn replayed(outcome: &Outcome, buffer: &mut [u8]) -> Replay {
    match outcome {
        Err(refusal) => Replay::Refused(*refusal),
        Ok(taken) => replay::write(&taken.replay, buffer),
    }
}

/// The same for the trace in an edition: "a refused file keeps its code".
pub fn written_in(edition: Edition, outcome: &Outcome, buffer: &mut [u8]) -> Conversion {
    match outcome {
        Err(refusal) => Conversion::Refused(*refusal),
        Ok(taken) => replay::write(taken.converted(edition), buffer),
    }
}

/// Puts bytes at the start of a buffer; nothing if it is shorter than they are.
fn put(bytes: &[u8], buffer: &mut [u8]) -> bool {
    let Some(start) = buffer.get_mut(..bytes.len()) else {
        return false;
    };
    start.copy_from_slice(bytes);
    true
}
