//! Request E11, a serial run by hand: the example traces, and wrong readings to
//! notice. By each of them the claim is false of some trace that SER accepts.

use model::example_traces::{all, trace_b, trace_d, trace_e, trace_f, Expected};
use model::facts::taken;
use model::generate::taken_case;
use model::levels::{missing, place_of};
use model::met::all_noticed;
use model::random::Random;
use model::run::Run;
use model::serial::{commits, holds_by_hand, newest_values, of_kind, serial_run, NotFound, Table};
use model::store::{newest, CommitNumber, Key};
use model::trace::{Operation, OperationKind, Record, Trace};
use model::Verdict;
use std::collections::BTreeSet;

/// "Traces that SER fails are not covered; B shows why": its second commit reads 0
/// where the table has 1, and so does that of D, which SI accepts.
#[test]
fn a_lost_update_and_a_write_skew() {
    let second = NotFound {
        commit: CommitNumber(2),
        key: Key(0),
        read: 0,
        there: 1,
    };
    assert_eq!(serial_run(&trace_b()), Err(second));
    assert_eq!(serial_run(&trace_d()), Err(second));
}

/// SER accepts E. It fails F, at a version that the commit does not read, and the
/// run goes on to the end there too: that SER accepts cannot be told by hand.
#[test]
fn traces_whose_reads_find_their_values() {
    assert_eq!(serial_run(&trace_e()), Ok(vec![1]));
    assert_eq!(serial_run(&trace_f()), Ok(vec![1, 1]));
}

#[test]
fn every_example_that_ser_accepts() {
    let mut accepted = Vec::new();
    for example in all() {
        let Expected::Judged(verdicts) = example.expected else {
            continue;
        };
        if verdicts[place_of("SER")] == Verdict::Accepted {
            let (trace, run) = taken(&example.bytes).expect("taken");
            assert_eq!(holds_by_hand(&trace, &run.store), Ok(()));
            accepted.push(example.name);
        }
    }
    assert!(accepted.len() >= 4, "{accepted:?}");
}

/// A trace, its run, and whether SER accepts it.
struct Given {
    trace: Trace,
    run: Run,
    serial: bool,
}

const TRACES: u64 = 4_000;

/// The first taken traces that are not long.
fn given() -> Vec<Given> {
    let given = |seed| {
        let file = taken_case(&mut Random::seeded(seed)).bytes;
        let (trace, run) = taken(&file).expect("taken");
        let serial = run.steps.iter().all(|step| missing(8, step).is_none());
        Given { trace, run, serial }
    };
    (0..TRACES)
        .map(given)
        .filter(|given| given.run.steps.len() <= 16)
        .collect()
}

/// The table that a reading ends with, and the one that it ought to end with;
/// nothing where a read does not find its value.
type Reading = fn(&Given) -> Option<[Table; 2]>;

fn right(given: &Given) -> Option<[Table; 2]> {
    let table = serial_run(&given.trace).ok()?;
    Some([table, newest_values(&given.run.store)])
}

/// Does the claim hold by a reading?
fn holds(reading: Reading, given: &Given) -> bool {
    reading(given).is_some_and(|[table, due]| table == due)
}

#[test]
fn slips_are_noticed() {
    let slips: [(&str, Reading); 9] = [
        ("a commit's writes before its reads", writes_first),
        ("a table of ones at first", ones_at_first),
        ("a table for each client", table_for_each_client),
        ("a new table after each shift", anew_after_shifts),
        ("the last commit first", last_first),
        ("client after client", client_after_client),
        ("the first write to a key stays", first_write_stays),
        ("the table ends with what the last view sees", last_view),
        ("the table ends with the version before", version_before),
    ];
    let given = given();
    let serial: Vec<&Given> = given.iter().filter(|given| given.serial).collect();
    println!("{} traces that SER accepts", serial.len());
    assert!(serial.iter().all(|given| holds(right, given)));
    let noticed = slips.map(|(name, slip)| {
        let fails = serial.iter().filter(|given| !holds(slip, given));
        (name, fails.count())
    });
    all_noticed(&noticed);
}

/// A read of a taken trace has what its client's view sees. A run that looks there
/// holds of every trace, and those that SER accepts do not tell it.
#[test]
fn a_slip_that_ser_hides() {
    let mut noticed = 0;
    for given in given() {
        assert!(holds(reads_by_view, &given));
        assert!(holds(right, &given) || !given.serial);
        noticed += usize::from(!holds(right, &given));
    }
    all_noticed(&[("reads look at their client's view", noticed)]);
}

/// The operations of a record rise by key, a read of a key before its write: run
/// one after the other each read stands before the writes that it must not see, and
/// no trace tells the two runs apart.
#[test]
fn a_reading_that_no_trace_tells() {
    for given in given() {
        let in_turn = |table: &mut Table, operations: &[Operation]| {
            let mut operations = operations.iter();
            operations.all(|operation| run_one(table, operation))
        };
        let table = vec![0; given.trace.keys];
        let run = run_commits(&given.trace, table, in_turn);
        assert_eq!(run, serial_run(&given.trace).ok());
    }
}

/// A read has to find its value; a write puts its own.
fn run_one(table: &mut Table, operation: &Operation) -> bool {
    let place = &mut table[operation.key.0];
    match operation.kind {
        OperationKind::Read => *place == operation.value,
        OperationKind::Write => {
            *place = operation.value;
            true
        }
    }
}

/// The operations of one commit: its reads and then its writes, or otherwise.
fn in_order(table: &mut Table, operations: &[Operation], order: [OperationKind; 2]) -> bool {
    order.into_iter().all(|kind| {
        let mut of_kind = of_kind(operations, kind);
        of_kind.all(|operation| run_one(table, operation))
    })
}

fn reads_first(table: &mut Table, operations: &[Operation]) -> bool {
    in_order(
        table,
        operations,
        [OperationKind::Read, OperationKind::Write],
    )
}

/// The commits in turn, each by a rule that says whether its reads found their
/// values.
fn run_commits(
    trace: &Trace,
    mut table: Table,
    mut rule: impl FnMut(&mut Table, &[Operation]) -> bool,
) -> Option<Table> {
    let found = commits(trace).all(|(_, operations)| rule(&mut table, operations));
    found.then_some(table)
}

/// Another run, which ought to end with the newest versions.
fn to_newest(given: &Given, table: Option<Table>) -> Option<[Table; 2]> {
    Some([table?, newest_values(&given.run.store)])
}

fn writes_first(given: &Given) -> Option<[Table; 2]> {
    let table = vec![0; given.trace.keys];
    let writes_first = |table: &mut Table, operations: &[Operation]| {
        in_order(
            table,
            operations,
            [OperationKind::Write, OperationKind::Read],
        )
    };
    to_newest(given, run_commits(&given.trace, table, writes_first))
}

fn ones_at_first(given: &Given) -> Option<[Table; 2]> {
    let table = vec![1; given.trace.keys];
    to_newest(given, run_commits(&given.trace, table, reads_first))
}

/// A client sees its own writes; the tables together have the last ones.
fn table_for_each_client(given: &Given) -> Option<[Table; 2]> {
    let mut tables = vec![vec![0; given.trace.keys]; given.trace.clients];
    let mut last = vec![0; given.trace.keys];
    for step in &given.run.steps {
        if !reads_first(&mut tables[step.author.client], &step.operations) {
            return None;
        }
        for write in of_kind(&step.operations, OperationKind::Write) {
            run_one(&mut last, write);
        }
    }
    to_newest(given, Some(last))
}

fn anew_after_shifts(given: &Given) -> Option<[Table; 2]> {
    let mut table = vec![0; given.trace.keys];
    for record in &given.trace.records {
        match record {
            Record::Shift { .. } => table.fill(0),
            Record::Commit { operations, .. } => {
                if !reads_first(&mut table, operations) {
                    return None;
                }
            }
        }
    }
    to_newest(given, Some(table))
}

/// The commits in another order.
fn reordered(given: &Given, order: impl Fn(&Given) -> Vec<usize>) -> Option<[Table; 2]> {
    let mut table = vec![0; given.trace.keys];
    for place in order(given) {
        if !reads_first(&mut table, &given.run.steps[place].operations) {
            return None;
        }
    }
    to_newest(given, Some(table))
}

fn last_first(given: &Given) -> Option<[Table; 2]> {
    reordered(given, |given| (0..given.run.steps.len()).rev().collect())
}

fn client_after_client(given: &Given) -> Option<[Table; 2]> {
    reordered(given, |given| {
        let mut places: Vec<usize> = (0..given.run.steps.len()).collect();
        places.sort_by_key(|&place| given.run.steps[place].author.client);
        places
    })
}

fn first_write_stays(given: &Given) -> Option<[Table; 2]> {
    let mut written = BTreeSet::new();
    let table = vec![0; given.trace.keys];
    let table = run_commits(&given.trace, table, |table, operations| {
        let first =
            |other: &&Operation| other.kind == OperationKind::Read || written.insert(other.key);
        let operations: Vec<Operation> = operations.iter().filter(first).copied().collect();
        reads_first(table, &operations)
    });
    to_newest(given, table)
}

/// Keys have the newest version that the last commit's view after holds.
fn last_view(given: &Given) -> Option<[Table; 2]> {
    let [table, mut due] = right(given)?;
    if let Some(last) = given.run.steps.last() {
        for (key, value) in due.iter_mut().enumerate() {
            let version = newest(&last.u_after, Key(key));
            *value = given.run.store.get(Key(key), version).value;
        }
    }
    Some([table, due])
}

fn version_before(given: &Given) -> Option<[Table; 2]> {
    let [table, _] = right(given)?;
    let lists = given.run.store.lists.iter();
    let before = lists.map(|list| list[list.len().saturating_sub(2)].value);
    Some([table, before.collect()])
}

fn reads_by_view(given: &Given) -> Option<[Table; 2]> {
    let mut table = vec![0; given.trace.keys];
    for step in &given.run.steps {
        let mut reads = of_kind(&step.operations, OperationKind::Read);
        let seen = |key| step.store.get(key, newest(&step.u, key)).value;
        if !reads.all(|read| seen(read.key) == read.value) {
            return None;
        }
        for write in of_kind(&step.operations, OperationKind::Write) {
            run_one(&mut table, write);
        }
    }
    to_newest(given, Some(table))
}
