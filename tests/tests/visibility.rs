//! Request E14 through the model: the rows of the example traces, what holds of
//! them, the order of the codes, and readings of the request that are wrong and
//! must be noticed.

use model::example_traces::{trace_a, trace_b, trace_c, trace_d, trace_e, trace_m};
use model::facts::{accepts, is_transitive, taken, visibility_holds};
use model::files::files;
use model::generate::taken_case;
use model::image::members;
use model::met::all_noticed;
use model::random::Random;
use model::run::{Run, Step};
use model::store::{writers_in, CommitNumber, OPENING};
use model::trace::{encode, Trace};
use model::visibility::{pattern, reported, row, rows, tables, text, visible_to, TOO_FEW_ROWS};
use model::{outcome, Answer, Outcome, Refusal, Taken};
use std::collections::BTreeSet;

fn rows_of(trace: &Trace) -> Vec<u64> {
    rows(&outcome(&encode(trace)).expect("taken").store)
}

#[test]
fn rows_of_the_examples() {
    assert_eq!(rows_of(&trace_a()), []);
    assert_eq!(rows_of(&trace_b()), [0, 0], "each from version 0 alone");
    assert_eq!(rows_of(&trace_c()), [0, 0, 0b10, 0b100]);
    assert_eq!(rows_of(&trace_d()), [0, 0]);
    assert_eq!(rows_of(&trace_e()), [0, 0b10], "before it loses sight");
    assert_eq!(text(&rows_of(&trace_m())), "0\n2\n4\n");
    assert_eq!(text(&[]), "");
}

/// "Not claimed: that visibility is transitive under CC, which is false for
/// versions seen and not read."
#[test]
fn visibility_is_not_transitive() {
    let taken = outcome(&encode(&trace_m())).expect("taken");
    for level in ["CC", "PSI", "CP", "SI"] {
        assert!(accepts(&taken.report, level), "{level}");
    }
    assert!(!is_transitive(&rows(&taken.store)));
}

/// The first taken traces that are not long.
fn traces(number: u64) -> impl Iterator<Item = (Run, Taken)> {
    let files = (0..number).map(|seed| taken_case(&mut Random::seeded(seed)).bytes);
    files.filter_map(|file| {
        let (_, run) = taken(&file).expect("taken");
        (run.steps.len() <= 16).then(|| (run, outcome(&file).expect("taken")))
    })
}

/// The facts hold of every trace. Under CC, and SI, there are some whose visibility
/// is not transitive; under SER there are none.
#[test]
fn what_holds_and_what_is_not_claimed() {
    let mut not_transitive: BTreeSet<&str> = BTreeSet::new();
    for (run, taken) in traces(3_000) {
        let rows = rows(&run.store);
        visibility_holds(&rows, &run, &taken.report).expect("a fact");
        if !is_transitive(&rows) {
            let levels = [
                "MR", "MW", "RYW", "WFR", "CC", "UA", "PSI", "CP", "SI", "SER",
            ];
            not_transitive.extend(levels.iter().filter(|level| accepts(&taken.report, level)));
        }
    }
    println!("not transitive, though accepted by {not_transitive:?}");
    assert!(not_transitive.contains("CC") && not_transitive.contains("SI"));
    assert!(!not_transitive.contains("SER"));
}

/// Every length of the image buffer around what is needed with every number of
/// rows that is tried: 15 before 21; the image as judged with 21; nothing but the
/// rows of the commits written.
#[test]
fn the_order_of_the_codes() {
    for (name, example) in files() {
        let outcome = outcome(&example.bytes);
        let needed = outcome.as_ref().map_or(0, |taken| taken.image.len());
        let commits = outcome
            .as_ref()
            .map_or(0, |taken| taken.store.authors.len());
        for room in [0, needed.saturating_sub(1), needed, needed + 9] {
            for table in tables(commits) {
                let mut image = vec![0xA5; room];
                let mut rows = pattern(table);
                let answer = reported(&outcome, &mut image, &mut rows);
                let due = match &outcome {
                    Err(refusal) => refusal.code,
                    Ok(_) if room < needed => 15,
                    Ok(_) if table < commits => TOO_FEW_ROWS,
                    Ok(_) => 0,
                };
                assert_eq!(answer.code(), due, "{name}, {room}, {table}");
                let written = if due == 0 { commits } else { 0 };
                assert_eq!(rows[written..], pattern(table)[written..], "{name}");
                let stands = matches!(due, 0 | TOO_FEW_ROWS);
                let judged = outcome.as_ref().ok().filter(|_| stands);
                let image_due = judged.map_or(&[][..], |taken| &taken.image);
                assert!(image.starts_with(image_due), "{name}");
                let behind = &image[image_due.len()..];
                assert!(behind.iter().all(|&byte| byte == 0xA5), "{name}");
            }
        }
    }
}

/// Row by row, what a wrong reading of visibility gives.
type Reading = fn(&Run, &Step) -> BTreeSet<CommitNumber>;

fn visible(run: &Run, step: &Step) -> BTreeSet<CommitNumber> {
    visible_to(&run.store, step.commit)
}

fn without_opening(mut commits: BTreeSet<CommitNumber>) -> BTreeSet<CommitNumber> {
    commits.remove(&OPENING);
    commits
}

/// Each gives other rows than the right ones; those that are marked break a fact
/// too, which is asked of the rows without the model's own.
#[test]
fn slips_of_the_rows_are_noticed() {
    let slips: [(&str, bool, Reading); 9] = [
        ("the view after", true, |run, step| {
            without_opening(writers_in(&run.store, &step.u_after))
        }),
        ("the opening transaction counted", true, |run, step| {
            let mut with = visible(run, step);
            with.insert(OPENING);
            with
        }),
        ("readers counted as writers", true, |run, step| {
            let mut readers = BTreeSet::new();
            for &(key, version) in &step.u {
                readers.extend(&run.store.get(key, version).readers);
            }
            readers.union(&visible(run, step)).copied().collect()
        }),
        ("commits counted from 0", true, |run, step| {
            let counted = visible(run, step).into_iter();
            counted.map(|commit| CommitNumber(commit.0 - 1)).collect()
        }),
        ("every earlier writer", true, |run, step| {
            without_opening(writers_in(&run.store, &step.store.versions()))
        }),
        ("every earlier commit", true, |_, step| {
            (1..step.commit.0).map(CommitNumber).collect()
        }),
        ("the writers that it read from", true, |run, step| {
            let read = step.u.iter().filter(|&&(key, version)| {
                let stored = run.store.get(key, version);
                stored.readers.contains(&step.commit)
            });
            without_opening(
                read.map(|&(key, version)| run.store.get(key, version).writer)
                    .collect(),
            )
        }),
        ("the newest of each key alone", false, |run, step| {
            let newest = run.store.keys().into_iter().map(|key| {
                let version = model::store::newest(&step.u, key);
                run.store.get(key, version).writer
            });
            without_opening(newest.collect())
        }),
        ("what visible commits saw too", false, |run, step| {
            let mut all = visible(run, step);
            for commit in visible(run, step) {
                all.extend(visible_to(&run.store, commit));
            }
            all
        }),
    ];
    let traces: Vec<(Run, Taken)> = traces(1_500).collect();
    println!("{} traces", traces.len());
    let slipped = |run: &Run, slip: Reading| -> Vec<u64> {
        run.steps.iter().map(|step| row(&slip(run, step))).collect()
    };
    let other = |slip: Reading| {
        let other = traces
            .iter()
            .filter(|(run, _)| slipped(run, slip) != rows(&run.store));
        other.count()
    };
    all_noticed(&slips.map(|(name, _, slip)| (name, other(slip))));
    println!("by what holds of the rows");
    let untrue = |slip: Reading| {
        let holds =
            |run: &Run, taken: &Taken| visibility_holds(&slipped(run, slip), run, &taken.report);
        let untrue = traces
            .iter()
            .filter(|(run, taken)| holds(run, taken).is_err());
        untrue.count()
    };
    let breaking = slips.iter().filter(|slip| slip.1);
    let breaking: Vec<(&str, usize)> = breaking
        .map(|&(name, _, slip)| (name, untrue(slip)))
        .collect();
    all_noticed(&breaking);
}

/// A wrong reading of the call: its answer for a file, an image buffer and a table.
type Calling = fn(&Outcome, &mut [u8], &mut [u64]) -> Answer;

#[test]
fn slips_of_the_call_are_noticed() {
    let slips: [(&str, Calling); 7] = [
        ("rows past the commits cleared", |outcome, image, table| {
            let answer = reported(outcome, image, table);
            if let Answer::Judged(report) = answer {
                table[report.commits..].fill(0);
            }
            answer
        }),
        ("21 before 15", |outcome, image, table| match outcome {
            Ok(taken) if table.len() < taken.store.authors.len() => {
                Answer::Refused(Refusal::at(TOO_FEW_ROWS, 0))
            }
            _ => reported(outcome, image, table),
        }),
        ("21 where there are just enough", |outcome, image, table| {
            let answer = reported(outcome, image, &mut table.to_vec());
            match answer {
                Answer::Judged(report) if table.len() <= report.commits => {
                    Answer::Refused(Refusal::at(TOO_FEW_ROWS, 0))
                }
                _ => reported(outcome, image, table),
            }
        }),
        ("63 rows asked for", |outcome, image, table| {
            let answer = reported(outcome, image, &mut table.to_vec());
            match answer {
                Answer::Judged(_) if table.len() < 63 => {
                    Answer::Refused(Refusal::at(TOO_FEW_ROWS, 0))
                }
                _ => reported(outcome, image, table),
            }
        }),
        ("with 21 no image", |outcome, image, table| {
            let before = image.to_vec();
            let answer = reported(outcome, image, table);
            if answer.code() == TOO_FEW_ROWS {
                image.copy_from_slice(&before);
            }
            answer
        }),
        ("with 21 the rows that fit", |outcome, image, table| {
            let answer = reported(outcome, image, table);
            if let (TOO_FEW_ROWS, Ok(taken)) = (answer.code(), outcome) {
                let rows = rows(&taken.store);
                table.copy_from_slice(&rows[..table.len()]);
            }
            answer
        }),
        ("the rows in the other order", |outcome, image, table| {
            let answer = reported(outcome, image, table);
            if let Answer::Judged(report) = answer {
                table[..report.commits].reverse();
            }
            answer
        }),
    ];
    let outcomes: Vec<Outcome> = traces(400).map(|(_, taken)| Ok(taken)).collect();
    let noticed = |slip: Calling| {
        let notices = |outcome: &&Outcome| {
            let taken = outcome.as_ref().expect("taken");
            [taken.image.len() - 1, taken.image.len()]
                .iter()
                .any(|&room| {
                    let tables = tables(taken.store.authors.len()).into_iter();
                    tables.into_iter().any(|table| {
                        let call = |call: Calling| {
                            let (mut image, mut rows) = (vec![0xA5; room], pattern(table));
                            let answer = call(outcome, &mut image, &mut rows);
                            (answer, image, rows)
                        };
                        call(slip) != call(reported)
                    })
                })
        };
        outcomes.iter().filter(notices).count()
    };
    all_noticed(&slips.map(|(name, slip)| (name, noticed(slip))));
}

/// A row has no bit that is not a commit's, and rows are as many as commits: up to
/// 63 of them.
#[test]
fn the_bits_of_a_row() {
    let mut most = 0;
    for (run, _) in traces(2_000) {
        let rows = rows(&run.store);
        assert_eq!(rows.len(), run.steps.len());
        for (place, row) in rows.iter().enumerate() {
            assert!(members(*row).all(|bit| 0 < bit && bit <= place));
            most = most.max(members(*row).count());
        }
    }
    assert!(most > 5, "{most}");
}
