//! Do the generated traces tell a wrong reading of the clauses, of the replay,
//! of rule 1 or of the limits from the right one? Each slip here is one of them read
//! wrongly; some taken trace must get other verdicts by it, or another answer;
//! some file must be read otherwise.

use model::buffer::{pattern, LONG_FILE};
use model::facts::{entries_differ, numbers_rise, taken};
use model::form::{read, read_within};
use model::generate::{file, planted, taken_case, FORMER_KEYS};
use model::image::image;
use model::levels::{
    least_missing, missing, missing_before, place_of, session_of, verdicts, verdicts_by, Clauses,
};
use model::met::all_noticed;
use model::numbers::former_rule;
use model::own_writes::{former_clauses, lacked};
use model::random::Random;
use model::relations::{
    compose, dependencies, one_or_more, prefix_paths, prefix_steps, rw, snapshot_paths,
    snapshot_steps, so, then_maybe, union, wr, ww, Relation,
};
use model::replay::{replay_file, replay_of, write};
use model::run::{number_rises, run_by, writer_seen, Numbers, Run, Step, Writers};
use model::store::{
    newest_visible, opening_view, writers_in, Author, CommitNumber, Key, Store, Version, View,
};
use model::trace::{encode, OperationKind, Record, Trace};
use model::{Refusal, Verdict};
use std::collections::BTreeSet;

const TRACES: u64 = 4_000;

/// The first taken traces that are not long, with their runs.
fn traces(number: u64) -> Vec<(Trace, Run)> {
    (0..number)
        .map(|seed| taken(&taken_case(&mut Random::seeded(seed)).bytes).expect("taken"))
        .filter(|(_, run)| run.steps.len() <= 16)
        .collect()
}

type Missing = Option<(Key, Version)>;

#[test]
fn slips_are_noticed() {
    let slips: [(&str, Clauses); 20] = [
        ("6 and 7 on direct links only", direct_links_only),
        ("6 and 7 on two steps at most", two_steps_at_most),
        ("6 and 7 without commits that only read", without_readers),
        ("6 and 7 on links of held commits only", held_links_only),
        ("6 and 7 changed about", six_for_seven),
        ("6 and 7 without RW", without_rw),
        ("7 with RW anywhere", rw_anywhere),
        ("7 with RW before and not after", rw_before),
        ("u against the store after the commit", store_after),
        ("3 names what the first t wants", first_t_only),
        (
            "3 on the next commit of a session only",
            next_in_session_only,
        ),
        ("4 without t' before t", reads_of_t_only),
        (
            "4 wants all versions of what was read",
            all_of_a_read_writer,
        ),
        ("5 on all keys with an operation", keys_read_too),
        ("2 of the commit's own versions only", former_clauses),
        ("2 of the versions before the commit only", all_but_own),
        ("2 of the last two commits only", last_two_only),
        ("2 of u and the store before the commit", own_writes_in_u),
        ("2 names its own versions first", own_first),
        (
            "no clause for commits without operations",
            empty_commits_pass,
        ),
    ];
    let runs: Vec<Run> = traces(TRACES).into_iter().map(|(_, run)| run).collect();
    let right: Vec<_> = runs.iter().map(verdicts).collect();
    println!("{} traces", runs.len());
    let noticed = slips.map(|(name, slip)| {
        let other = runs
            .iter()
            .zip(&right)
            .filter(|(run, right)| verdicts_by(run, slip) != **right);
        (name, other.count())
    });
    all_noticed(&noticed);
}

/// Clauses 6 and 7 with other paths, the rest as it is.
fn with_paths(
    clause: u8,
    step: &Step,
    six: fn(&Store) -> Relation,
    seven: fn(&Store) -> Relation,
) -> Missing {
    let paths = match clause {
        6 => six(&step.store),
        7 => seven(&step.store),
        _ => return missing(clause, step),
    };
    missing_before(step, &paths)
}

fn direct_links_only(clause: u8, step: &Step) -> Missing {
    with_paths(clause, step, prefix_steps, snapshot_steps)
}

/// The truth is the same; another version may be named.
fn two_steps_at_most(clause: u8, step: &Step) -> Missing {
    let twice = |steps: Relation| then_maybe(&steps, &steps);
    let links = match clause {
        6 => twice(prefix_steps(&step.store)),
        7 => twice(snapshot_steps(&step.store)),
        _ => return missing(clause, step),
    };
    missing_before(step, &links)
}

fn without_readers(clause: u8, step: &Step) -> Missing {
    let writers_only = |links: Relation, store: &Store| -> Relation {
        let writers = writers_in(store, &store.versions());
        links
            .into_iter()
            .filter(|link| writers.contains(&link.0) && writers.contains(&link.1))
            .collect()
    };
    let store = &step.store;
    let only = |links| writers_only(links, store);
    let rw = only(rw(store));
    let (so, wr, ww) = (only(so(store)), only(wr(store)), only(ww(store)));
    let steps = match clause {
        6 => union(&[then_maybe(&so, &rw), then_maybe(&wr, &rw), ww]),
        7 => then_maybe(&union(&[so, wr, ww]), &rw),
        _ => return missing(clause, step),
    };
    missing_before(step, &one_or_more(&steps))
}

fn held_links_only(clause: u8, step: &Step) -> Missing {
    let steps = match clause {
        6 => prefix_steps(&step.store),
        7 => snapshot_steps(&step.store),
        _ => return missing(clause, step),
    };
    let held = writers_in(&step.store, &step.u);
    let steps = steps
        .into_iter()
        .filter(|link| held.contains(&link.1))
        .collect();
    missing_before(step, &one_or_more(&steps))
}

fn six_for_seven(clause: u8, step: &Step) -> Missing {
    with_paths(clause, step, snapshot_paths, prefix_paths)
}

fn without_rw(clause: u8, step: &Step) -> Missing {
    let paths = |store: &Store| one_or_more(&union(&[so(store), wr(store), ww(store)]));
    with_paths(clause, step, paths, paths)
}

fn rw_anywhere(clause: u8, step: &Step) -> Missing {
    let seven = |store: &Store| one_or_more(&dependencies(store));
    with_paths(clause, step, prefix_paths, seven)
}

fn rw_before(clause: u8, step: &Step) -> Missing {
    let seven = |store: &Store| {
        let others = union(&[so(store), wr(store), ww(store)]);
        one_or_more(&union(&[others.clone(), compose(&rw(store), &others)]))
    };
    with_paths(clause, step, prefix_paths, seven)
}

fn store_after(clause: u8, step: &Step) -> Missing {
    let mut wrong = step.clone();
    wrong.store = step.store_after.clone();
    missing(clause, &wrong)
}

/// The truth is the same; another version may be named.
fn first_t_only(clause: u8, step: &Step) -> Missing {
    if clause != 3 {
        return missing(clause, step);
    }
    for t in writers_in(&step.store, &step.u) {
        let links = so(&step.store)
            .into_iter()
            .filter(|link| link.1 == t)
            .collect();
        if let Some(missing) = missing_before(step, &links) {
            return Some(missing);
        }
    }
    None
}

fn next_in_session_only(clause: u8, step: &Step) -> Missing {
    if clause != 3 {
        return missing(clause, step);
    }
    let so = so(&step.store);
    let further = compose(&so, &so);
    missing_before(step, &so.difference(&further).copied().collect())
}

fn reads_of_t_only(clause: u8, step: &Step) -> Missing {
    if clause != 4 {
        return missing(clause, step);
    }
    let held = writers_in(&step.store, &step.u);
    least_missing(&step.store, &step.u, |key, version| {
        !step.store.get(key, version).readers.is_disjoint(&held)
    })
}

fn all_of_a_read_writer(clause: u8, step: &Step) -> Missing {
    if clause != 4 {
        return missing(clause, step);
    }
    let (so, wr) = (so(&step.store), wr(&step.store));
    missing_before(step, &union(&[wr.clone(), compose(&wr, &so)]))
}

fn keys_read_too(clause: u8, step: &Step) -> Missing {
    let mut wrong = step.clone();
    for operation in &mut wrong.operations {
        operation.kind = OperationKind::Write;
    }
    missing(clause, &wrong)
}

/// Clause 2 with another session, or with the versions of another store or
/// another view.
fn of_session(
    session: &BTreeSet<CommitNumber>,
    store: &Store,
    view: &View,
    step: &Step,
) -> Missing {
    if step.operations.is_empty() {
        return None;
    }
    least_missing(store, view, |key, version| {
        session.contains(&store.get(key, version).writer)
    })
}

/// So the earlier commits' are wanted, and its own are not.
fn all_but_own(clause: u8, step: &Step) -> Missing {
    if clause != 2 {
        return missing(clause, step);
    }
    of_session(&session_of(step), &step.store, &step.u_after, step)
}

fn last_two_only(clause: u8, step: &Step) -> Missing {
    if clause != 2 {
        return missing(clause, step);
    }
    let session = session_of(step).into_iter().rev().take(2).collect();
    of_session(&session, &step.store_after, &step.u_after, step)
}

fn own_writes_in_u(clause: u8, step: &Step) -> Missing {
    if clause != 2 {
        return missing(clause, step);
    }
    of_session(&session_of(step), &step.store, &step.u, step)
}

/// The truth is the same; another version may be named.
fn own_first(clause: u8, step: &Step) -> Missing {
    former_clauses(clause, step).or_else(|| missing(clause, step))
}

/// Clause 2 asked of every commit, also of those without operations.
fn of_empty_commits(clause: u8, step: &Step) -> Missing {
    if clause != 2 {
        return missing(clause, step);
    }
    lacked(step).first().copied()
}

/// What the client of a commit without operations lacks it has lacked since an
/// earlier commit, which has failed clause 2: that the clause asks nothing of
/// such a commit can be told from the clause, and from no verdict.
#[test]
fn a_slip_that_no_verdict_tells() {
    let mut noticed = 0;
    for (_, run) in traces(TRACES) {
        assert_eq!(verdicts_by(&run, of_empty_commits), verdicts(&run));
        let other = |step: &&Step| of_empty_commits(2, step) != missing(2, step);
        noticed += run.steps.iter().filter(other).count();
    }
    println!("clause 2 of commits without operations: noticed at {noticed} commits");
    assert!(noticed > 0);
}

fn empty_commits_pass(clause: u8, step: &Step) -> Missing {
    if step.operations.is_empty() {
        return None;
    }
    missing(clause, step)
}

/// A taken trace, its run, and what SER says of it.
struct Given {
    trace: Trace,
    run: Run,
    ser: Verdict,
}

/// The replay of a trace as a file or a refusal; only one of the slips looks
/// at the length of the buffer.
type Replaying = fn(&Given, usize) -> Result<Vec<u8>, Refusal>;

#[test]
fn slips_of_the_replay_are_noticed() {
    let slips: [(&str, Replaying); 7] = [
        ("old shifts kept", old_shifts_kept),
        ("no shift of a client that sees all", no_needless_shift),
        ("the shift to the store after the commit", shift_to_after),
        ("the view after without the own versions", without_own),
        ("17 before 16", short_before_refused),
        ("record 0 with 16", record_0),
        ("key and version 0 with 16", record_only),
    ];
    let given: Vec<Given> = traces(TRACES / 4)
        .into_iter()
        .map(|(trace, run)| Given {
            ser: verdicts(&run)[place_of("SER")],
            trace,
            run,
        })
        .collect();
    println!("{} traces", given.len());
    let noticed = slips.map(|(name, slip)| {
        let other = given.iter().filter(|given| {
            [0, LONG_FILE].into_iter().any(|length| {
                let answered = |replaying: Replaying| {
                    let mut buffer = pattern(length);
                    (write(&replaying(given, length), &mut buffer), buffer)
                };
                answered(slip) != answered(right)
            })
        });
        (name, other.count())
    });
    all_noticed(&noticed);
}

fn right(given: &Given, _: usize) -> Result<Vec<u8>, Refusal> {
    replay_file(&given.trace, &given.run, &given.ser)
}

/// Other records where there is a replay.
fn with_records(given: &Given, records: Vec<Record>) -> Result<Vec<u8>, Refusal> {
    let wrong = Trace {
        records,
        ..given.trace
    };
    right(given, 0).map(|_| encode(&wrong))
}

fn records(given: &Given) -> Vec<Record> {
    replay_of(&given.trace, &given.run).records
}

fn old_shifts_kept(given: &Given, _: usize) -> Result<Vec<u8>, Refusal> {
    let mut replayed = records(given).into_iter();
    let mut kept = Vec::new();
    for record in &given.trace.records {
        match record {
            Record::Shift { .. } => kept.push(record.clone()),
            Record::Commit { .. } => kept.extend(replayed.by_ref().take(2)),
        }
    }
    with_records(given, kept)
}

fn no_needless_shift(given: &Given, _: usize) -> Result<Vec<u8>, Refusal> {
    let mut views = vec![opening_view(given.trace.keys); given.trace.clients];
    let mut records = records(given);
    records.retain(|record| match record {
        Record::Shift { client, view } => views[*client] != *view,
        Record::Commit { client, after, .. } => {
            views[*client] = after.clone();
            true
        }
    });
    with_records(given, records)
}

/// Other views in the shift and in the commit.
fn with_views(given: &Given, views: fn(&Step) -> [View; 2]) -> Result<Vec<u8>, Refusal> {
    let mut records = records(given);
    for (pair, step) in records.chunks_mut(2).zip(&given.run.steps) {
        for (record, other) in pair.iter_mut().zip(views(step)) {
            match record {
                Record::Shift { view, .. } => *view = other,
                Record::Commit { after, .. } => *after = other,
            }
        }
    }
    with_records(given, records)
}

fn shift_to_after(given: &Given, _: usize) -> Result<Vec<u8>, Refusal> {
    with_views(given, |step| {
        [step.store_after.versions(), step.store_after.versions()]
    })
}

fn without_own(given: &Given, _: usize) -> Result<Vec<u8>, Refusal> {
    with_views(given, |step| [step.store.versions(), step.store.versions()])
}

fn short_before_refused(given: &Given, length: usize) -> Result<Vec<u8>, Refusal> {
    if length < encode(&replay_of(&given.trace, &given.run)).len() {
        return Err(Refusal::at(17, 0));
    }
    right(given, length)
}

fn record_0(given: &Given, length: usize) -> Result<Vec<u8>, Refusal> {
    right(given, length).map_err(|refusal| Refusal {
        record: 0,
        ..refusal
    })
}

fn record_only(given: &Given, length: usize) -> Result<Vec<u8>, Refusal> {
    right(given, length).map_err(|refusal| Refusal::at(refusal.code, refusal.record))
}

/// What a trace comes to by a rule 1: the final store, or a refusal.
fn stored(trace: &Trace, numbers: Numbers) -> Result<Store, Refusal> {
    run_by(trace, numbers, writer_seen).map(|run| run.store)
}

/// The traces of the first files that are in form and not long.
fn traces_in_form() -> Vec<Trace> {
    let traces = (0..TRACES).filter_map(|seed| read(&file(seed)).ok());
    traces.filter(|trace| trace.records.len() <= 32).collect()
}

#[test]
fn slips_of_the_numbers_are_noticed() {
    let slips: [(&str, Numbers); 6] = [
        ("commits with operations bind alone", former_rule),
        ("commits with operations are bound alone", empty_unbound),
        ("commits bind their own sort alone", own_sort_only),
        ("an equal number rises", equal_rises),
        ("the numbers of all clients", of_all_clients),
        ("the first number of the client", first_only),
    ];
    let traces = traces_in_form();
    println!("{} traces", traces.len());
    let right: Vec<_> = traces
        .iter()
        .map(|trace| stored(trace, number_rises))
        .collect();
    let noticed = slips.map(|(name, slip)| {
        let other = traces
            .iter()
            .zip(&right)
            .filter(|(trace, right)| stored(trace, slip) != **right);
        (name, other.count())
    });
    all_noticed(&noticed);
}

/// Who is named with code 13, by a reading of who wrote what was read.
fn named_writer(trace: &Trace, writers: Writers) -> usize {
    let refusal = run_by(trace, number_rises, writers).expect_err("a wrong read");
    assert_eq!(refusal.code, 13);
    refusal.writer
}

#[test]
fn slips_of_the_writer_are_noticed() {
    let slips: [(&str, Writers); 5] = [
        ("the reader", |step, _| step.commit),
        ("the writer of the key's newest version", |step, key| {
            writer_of(&step.store, key, step.store.versions_of(key).len() - 1)
        }),
        ("the opening transaction", |step, key| {
            writer_of(&step.store, key, 0)
        }),
        ("the version's own number", |step, key| {
            CommitNumber(newest_visible(&step.store, &step.u, key).version.0)
        }),
        ("the newest writer of the view", |step, _| {
            *writers_in(&step.store, &step.u).last().expect("version 0")
        }),
    ];
    let traces: Vec<Trace> = (0..TRACES / 8)
        .map(|seed| planted(&mut Random::seeded(seed), 13).0)
        .map(|bytes| read(&bytes).expect("in form"))
        .collect();
    println!("{} traces", traces.len());
    let noticed = slips.map(|(name, slip)| {
        let other = traces
            .iter()
            .filter(|trace| named_writer(trace, slip) != named_writer(trace, writer_seen));
        (name, other.count())
    });
    all_noticed(&noticed);
}

fn writer_of(store: &Store, key: Key, version: usize) -> CommitNumber {
    store.get(key, Version(version)).writer
}

/// Rule 1 with some of the earlier commits.
fn above(step: &Step, binds: impl Fn(CommitNumber, Author) -> bool) -> bool {
    let earlier = step.store.commits().into_iter();
    earlier
        .map(|commit| (commit, step.store.author(commit)))
        .filter(|(commit, earlier)| binds(*commit, *earlier))
        .all(|(_, earlier)| earlier.session < step.author.session)
}

fn empty_unbound(step: &Step) -> bool {
    step.operations.is_empty() || number_rises(step)
}

fn own_sort_only(step: &Step) -> bool {
    let appearing = step.store.appearing();
    above(step, |commit, earlier| {
        let same_sort = appearing.contains(&commit) != step.operations.is_empty();
        earlier.client == step.author.client && same_sort
    })
}

fn equal_rises(step: &Step) -> bool {
    above(step, |_, earlier| {
        earlier.client == step.author.client && earlier.session != step.author.session
    })
}

fn of_all_clients(step: &Step) -> bool {
    above(step, |_, _| true)
}

fn first_only(step: &Step) -> bool {
    let sessions = step.store.sessions_of(step.author.client);
    sessions
        .first()
        .is_none_or(|&first| first < step.author.session)
}

/// The number of the client's last commit alone.
fn last_only(step: &Step) -> bool {
    let mut earlier = step.store.authors.iter().rev();
    let last = earlier.find(|earlier| earlier.client == step.author.client);
    last.is_none_or(|last| last.session < step.author.session)
}

/// The numbers of a client rise as far as a trace is not refused, so its last
/// one is the greatest: no answer tells that the others are not looked at.
#[test]
fn a_slip_that_no_answer_tells() {
    let mut refused = 0;
    for trace in traces_in_form() {
        let right = stored(&trace, number_rises);
        assert_eq!(stored(&trace, last_only), right);
        refused += usize::from(matches!(right, Err(Refusal { code: 9, .. })));
    }
    println!("the last number alone: the same code 9 in {refused}");
    assert!(refused > 0);
}

/// By the rule before request E7 a trace is taken whose log has two entries
/// alike, and another with a number below an earlier one; by this one none is.
#[test]
fn numbers_that_do_not_rise_are_noticed() {
    let (mut falling, mut alike) = (0, 0);
    for trace in traces_in_form() {
        if let Ok(store) = stored(&trace, former_rule) {
            let falls = numbers_rise(&store).is_err();
            let has_alike = entries_differ(&image(&store)).is_err();
            assert_eq!(falls, stored(&trace, number_rises).is_err());
            assert!(falls || !has_alike);
            falling += usize::from(falls);
            alike += usize::from(has_alike);
        }
    }
    println!("taken before: {falling} with numbers that do not rise, {alike} with two alike");
    assert!(falling > alike && alike > 0);
}

/// A file as a trace, or a refusal of its form.
type Reading = fn(&[u8]) -> Result<Trace, Refusal>;

#[test]
fn slips_of_the_limits_are_noticed() {
    let slips: [(&str, Reading); 5] = [
        ("16 keys at most", as_before),
        ("33 keys too", one_key_more),
        ("17 clients too", one_client_more),
        ("as many clients as keys", clients_as_keys),
        ("32 operations at most", operations_as_before),
    ];
    let files: Vec<Vec<u8>> = (0..TRACES).map(file).collect();
    let noticed = slips.map(|(name, slip)| {
        let other = files.iter().filter(|file| slip(file) != read(file));
        (name, other.count())
    });
    println!("{} files", files.len());
    all_noticed(&noticed);
}

fn as_before(file: &[u8]) -> Result<Trace, Refusal> {
    read_within(file, FORMER_KEYS, Store::MAX_CLIENTS)
}

fn one_key_more(file: &[u8]) -> Result<Trace, Refusal> {
    read_within(file, Store::MAX_KEYS + 1, Store::MAX_CLIENTS)
}

fn one_client_more(file: &[u8]) -> Result<Trace, Refusal> {
    read_within(file, Store::MAX_KEYS, Store::MAX_CLIENTS + 1)
}

fn clients_as_keys(file: &[u8]) -> Result<Trace, Refusal> {
    read_within(file, Store::MAX_KEYS, Store::MAX_KEYS)
}

fn operations_as_before(file: &[u8]) -> Result<Trace, Refusal> {
    let trace = read(file)?;
    let too_many = |record: &Record| match record {
        Record::Shift { .. } => false,
        Record::Commit { operations, .. } => operations.len() > 2 * FORMER_KEYS,
    };
    match trace.records.iter().position(too_many) {
        Some(index) => Err(Refusal::at(7, index + 1)),
        None => Ok(trace),
    }
}
