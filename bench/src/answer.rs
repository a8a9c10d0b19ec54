//! What a trace file is answered with; the model says the same in wider numbers.

/// Either one code with what it names, or ten verdicts.
#[derive(Clone, Copy, PartialEq, Eq, Debug)]
pub enum Answer {
    Refused(Refusal),
    Judged(Report),
}

/// The length of the file that was written, the replay of a trace or the trace in
/// an edition; or a refusal.
#[derive(Clone, Copy, PartialEq, Eq, Debug)]
pub enum Replay {
    Refused(Refusal),
    Written(u32),
}

/// How many commits of an image are shown, in an order or in a ring; or a refusal.
#[derive(Clone, Copy, PartialEq, Eq, Debug)]
pub enum Bare {
    Refused(Refusal),
    Order(usize),
    Ring(usize),
}

/// A code, 1 to 18, 20 or 22; record, key, version and writer are 0 where not
/// named.
#[derive(Clone, Copy, PartialEq, Eq, Debug)]
pub struct Refusal {
    pub code: u8,
    pub record: u32,
    pub key: u8,
    pub version: u8,
    pub writer: u8,
}

impl Refusal {
    /// A code that names its record only.
    pub fn at(code: u8, record: u32) -> Refusal {
        Refusal {
            code,
            record,
            key: 0,
            version: 0,
            writer: 0,
        }
    }
}

/// Code 0: the verdicts in report order (MR, MW, RYW, WFR, CC, UA, PSI, CP, SI,
/// SER) and the three numbers beside them.
#[derive(Clone, Copy, PartialEq, Eq, Debug)]
pub struct Report {
    pub verdicts: [Verdict; 10],
    pub records: u32,
    pub commits: u32,
    pub image_len: u32,
}

/// What one level says of the whole trace: its first failure, if any.
#[derive(Clone, Copy, PartialEq, Eq, Debug)]
pub enum Verdict {
    Accepted,
    Refused {
        commit: u8,
        record: u32,
        clause: u8,
        key: u8,
        version: u8,
    },
}

impl From<Answer> for model::Answer {
    fn from(answer: Answer) -> model::Answer {
        match answer {
            Answer::Refused(refusal) => model::Answer::Refused(refusal.into()),
            Answer::Judged(report) => model::Answer::Judged(model::Report {
                verdicts: report.verdicts.map(model::Verdict::from),
                records: report.records as usize,
                commits: report.commits as usize,
                image_len: report.image_len as usize,
            }),
        }
    }
}

impl From<Replay> for model::Replay {
    fn from(answer: Replay) -> model::Replay {
        match answer {
            Replay::Refused(refusal) => model::Replay::Refused(refusal.into()),
            Replay::Written(length) => model::Replay::Written(length as usize),
        }
    }
}

impl From<Bare> for model::bare::Shown {
    fn from(answer: Bare) -> model::bare::Shown {
        match answer {
            Bare::Refused(refusal) => model::bare::Shown::Refused(refusal.into()),
            Bare::Order(commits) => model::bare::Shown::Order(commits),
            Bare::Ring(commits) => model::bare::Shown::Ring(commits),
        }
    }
}

impl From<Refusal> for model::Refusal {
    fn from(refusal: Refusal) -> model::Refusal {
        model::Refusal {
            code: refusal.code,
            record: refusal.record as usize,
            key: refusal.key.into(),
            version: refusal.version.into(),
            writer: refusal.writer.into(),
        }
    }
}

impl From<Verdict> for model::Verdict {
    fn from(verdict: Verdict) -> model::Verdict {
        match verdict {
            Verdict::Accepted => model::Verdict::Accepted,
            Verdict::Refused {
                commit,
                record,
                clause,
                key,
                version,
            } => model::Verdict::Refused {
                commit: commit.into(),
                record: record as usize,
                clause,
                key: key.into(),
                version: version.into(),
            },
        }
    }
}
