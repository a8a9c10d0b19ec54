//! Do the generated traces tell a wrong image from the right one? Each slip here
//! is request E8 read wrongly: another view in the place of u, another order of
//! the bytes, another length for code 15.

use model::facts::{stored_views_hold, taken};
use model::generate::taken_case;
use model::image::{author_bytes, former_len, image, list_bytes};
use model::met::all_noticed;
use model::random::Random;
use model::run::{Run, Step};
use model::store::{opening_view, Key, View};
use model::trace::{masks_bytes, with_true_length, Record, Trace};
use model::{outcome, Call, Outcome, Taken};
use std::collections::BTreeSet;
use std::rc::Rc;

const TRACES: u64 = 1_500;

/// The first taken traces that are not long.
fn files() -> Vec<Vec<u8>> {
    let files = (0..TRACES).map(|seed| taken_case(&mut Random::seeded(seed)).bytes);
    files
        .filter(|file| taken(file).expect("taken").1.steps.len() <= 16)
        .collect()
}

/// A taken trace, what it comes to, and its run.
struct Given {
    trace: Trace,
    run: Run,
    taken: Taken,
}

fn given() -> Vec<Given> {
    let given = |file: Vec<u8>| {
        let (trace, run) = taken(&file).expect("taken");
        Given {
            trace,
            run,
            taken: outcome(&file).expect("taken"),
        }
    };
    files().into_iter().map(given).collect()
}

type Imaging = fn(&Given) -> Vec<u8>;

/// Each is noticed beside the right image, and by what holds of the views of one
/// image alone.
#[test]
fn slips_of_the_views_are_noticed() {
    let slips: [(&str, Imaging); 8] = [
        ("the view after", |given| {
            with_views(given, |_, step| step.u_after.clone())
        }),
        ("the view with the commit's own versions", |given| {
            with_views(given, |_, step| {
                let own = step.store_after.written_by(step.commit);
                step.u.union(&own).copied().collect()
            })
        }),
        ("the view of the commit before", |given| {
            with_views(given, |given, step| {
                let earlier = given.run.steps[..step.commit.0 - 1].last();
                u_or_opening(given, earlier)
            })
        }),
        ("the view of the client's commit before", |given| {
            with_views(given, |given, step| {
                u_or_opening(given, own_before(given, step))
            })
        }),
        ("the view that the client's commit before left", |given| {
            with_views(given, |given, step| match own_before(given, step) {
                Some(earlier) => earlier.u_after.clone(),
                None => opening_view(given.trace.keys),
            })
        }),
        ("the client's last view", |given| {
            with_views(given, |given, step| last_view(given, step.author.client))
        }),
        ("the full view", |given| {
            with_views(given, |_, step| step.store.versions())
        }),
        ("the keys with an operation alone", |given| {
            with_views(given, |_, step| {
                let touched: BTreeSet<Key> = step.operations.iter().map(|one| one.key).collect();
                let mut view = step.u.clone();
                view.retain(|held| touched.contains(&held.0));
                view
            })
        }),
    ];
    let given = given();
    println!("{} traces", given.len());
    let other = |slip: Imaging| {
        let other = given
            .iter()
            .filter(|given| slip(given) != given.taken.image);
        other.count()
    };
    all_noticed(&slips.map(|(name, slip)| (name, other(slip))));
    println!("by what holds of the views of an image");
    let untrue = |slip: Imaging| {
        let holds = |given: &Given| stored_views_hold(&slip(given), &given.taken.report);
        given.iter().filter(|given| holds(given).is_err()).count()
    };
    all_noticed(&slips.map(|(name, slip)| (name, untrue(slip))));
}

/// The image with another view for each commit.
fn with_views(given: &Given, view: fn(&Given, &Step) -> View) -> Vec<u8> {
    let mut store = given.run.store.clone();
    for (stored, step) in store.views.iter_mut().zip(&given.run.steps) {
        *stored = Rc::new(view(given, step));
    }
    image(&store)
}

fn own_before<'a>(given: &'a Given, step: &Step) -> Option<&'a Step> {
    let mut earlier = given.run.steps[..step.commit.0 - 1].iter();
    earlier.rfind(|earlier| earlier.author.client == step.author.client)
}

/// The view that a commit was judged from; that of a new client if there is none.
fn u_or_opening(given: &Given, step: Option<&Step>) -> View {
    match step {
        Some(step) => step.u.clone(),
        None => opening_view(given.trace.keys),
    }
}

/// The view that a client has at the end of the trace.
fn last_view(given: &Given, of: usize) -> View {
    let mut records = given.trace.records.iter().rev();
    let last = records.find_map(|record| match record {
        Record::Shift { client, view } => (*client == of).then_some(view),
        Record::Commit { client, after, .. } => (*client == of).then_some(after),
    });
    last.cloned().expect("it has a commit")
}

#[test]
fn slips_of_the_layout_are_noticed() {
    let slips: [(&str, Imaging); 6] = [
        ("no views, as before", |given| {
            laid_out(given, |author, _, keys| [author, keys].concat())
        }),
        ("the views behind all commits", |given| {
            laid_out(given, |author, masks, keys| [author, masks, keys].concat())
        }),
        ("the views behind the keys", |given| {
            laid_out(given, |author, masks, keys| [author, keys, masks].concat())
        }),
        ("a view before its commit", |given| {
            each_commit(given, |author, masks| [masks, author].concat())
        }),
        ("masks by falling key", |given| {
            each_commit(given, |author, masks| {
                let falling: Vec<&[u8]> = masks.chunks(8).rev().collect();
                [author, falling.concat()].concat()
            })
        }),
        ("a mask for each key that there may be", |given| {
            each_commit(given, |author, mut masks| {
                masks.resize(8 * 32, 0);
                [author, masks].concat()
            })
        }),
    ];
    let given = given();
    all_noticed(&slips.map(|(name, slip)| {
        let other = given
            .iter()
            .filter(|given| slip(given) != given.taken.image);
        (name, other.count())
    }));
}

/// The bytes of each commit, those of its view, and those of the keys.
fn parts(given: &Given) -> (Vec<Vec<u8>>, Vec<Vec<u8>>, Vec<u8>) {
    let store = &given.run.store;
    let masks = |view: &Rc<View>| masks_bytes(view, given.trace.keys);
    let keys = store.lists.iter().map(|list| list_bytes(list));
    (
        store.authors.iter().map(author_bytes).collect(),
        store.views.iter().map(masks).collect(),
        keys.collect::<Vec<Vec<u8>>>().concat(),
    )
}

/// The image with its parts in another order.
fn laid_out(given: &Given, order: fn(Vec<u8>, Vec<u8>, Vec<u8>) -> Vec<u8>) -> Vec<u8> {
    let (authors, masks, keys) = parts(given);
    headed(given, order(authors.concat(), masks.concat(), keys))
}

/// The image with the bytes of each commit and its view put together otherwise.
fn each_commit(given: &Given, together: fn(Vec<u8>, Vec<u8>) -> Vec<u8>) -> Vec<u8> {
    let (authors, masks, keys) = parts(given);
    let commits = authors.into_iter().zip(masks);
    let commits = commits.map(|(author, masks)| together(author, masks));
    headed(given, [commits.collect::<Vec<_>>().concat(), keys].concat())
}

fn headed(given: &Given, rest: Vec<u8>) -> Vec<u8> {
    let head = &given.taken.image[..8];
    with_true_length([head, &rest].concat())
}

/// The length that a buffer must have, told from an image.
type Needed = fn(&[u8]) -> usize;

/// Some buffer that is tried with each file shows that code 15 goes by another
/// length.
#[test]
fn slips_of_the_length_are_noticed() {
    let slips: [(&str, Needed); 5] = [
        ("the length before E8", former_len),
        ("one mask for each commit", |image| {
            former_len(image) + 8 * usize::from(image[5])
        }),
        ("one view for all commits", |image| {
            former_len(image) + 8 * usize::from(image[4])
        }),
        ("a byte less", |image| image.len() - 1),
        ("a byte more", |image| image.len() + 1),
    ];
    let outcomes: Vec<Outcome> = files().iter().map(|file| outcome(file)).collect();
    for call in [Call::Judge, Call::Port] {
        println!("{}", call.name());
        all_noticed(&slips.map(|(name, needed)| {
            let other = |outcome: &&Outcome| {
                let image = call.written(outcome).expect("taken");
                let mut lengths = call.lengths(outcome).into_iter();
                lengths.any(|length| (length < needed(image)) != (length < image.len()))
            };
            (name, outcomes.iter().filter(other).count())
        }));
    }
}

/// A stays 28.
#[test]
fn a_trace_without_commits_has_the_image_that_it_had() {
    let (mut without, mut with) = (0, 0);
    for given in given() {
        let image = &given.taken.image;
        let same = former_len(image) == image.len();
        assert_eq!(same, given.run.steps.is_empty());
        without += usize::from(same);
        with += usize::from(!same);
    }
    println!("{without} without commits, {with} with some");
    assert!(without > 0 && with > 0);
}
