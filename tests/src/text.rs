//! Section "Traces from the bench", its end: the report as text. Each line
//! ends with one line feed.

use crate::levels::LEVELS;
use crate::{Answer, Refusal, Verdict};

/// No text is longer: ten levels refuse, and each number has twenty digits. A
/// call that has less room for it does nothing.
pub const LONGEST: usize = 1_272;

/// The line of a refusal; "`writer` and that number stand at the end of a code
/// 13 line" (request E13).
pub fn refused(refusal: &Refusal) -> String {
    let mut line = format!(
        "refused {} record {} key {} version {}",
        refusal.code, refusal.record, refusal.key, refusal.version
    );
    if refusal.code == 13 {
        line += &format!(" writer {}", refusal.writer);
    }
    line + "\n"
}

pub fn report(answer: &Answer) -> String {
    match answer {
        Answer::Refused(refusal) => refused(refusal),
        Answer::Judged(report) => {
            let mut text = format!("records {} commits {}\n", report.records, report.commits);
            for (level, verdict) in LEVELS.iter().zip(&report.verdicts) {
                text += level.name;
                text += &match verdict {
                    Verdict::Accepted => " accepted\n".to_string(),
                    Verdict::Refused {
                        record,
                        clause,
                        key,
                        version,
                        ..
                    } => format!(
                        " refused record {record} clause {clause} key {key} version {version}\n"
                    ),
                };
            }
            text
        }
    }
}
