//! Do the generated images tell a wrong reading of request E9 from the right one?
//! Each slip here is one: some image must get another answer by it.

use model::bare::{
    bare, between_commits, is_ready, links, order_or_ring, sessions, shaped, shaped_by, show, Bare,
    Shown, Test, ROOM, TESTS,
};
use model::facts::stored_views_hold;
use model::generate::image_case;
use model::met::all_noticed;
use model::relations::{compose, rw, so, union, wr, ww, Relation};
use model::store::{CommitNumber, Store, OPENING};
use model::{Refusal, Report, Verdict};
use std::collections::BTreeSet;

const IMAGES: u64 = 6_000;

/// What the first images say that are not misshapen, and are not large.
fn stores() -> Vec<Store> {
    let images = (0..IMAGES).filter_map(|seed| shaped(&image_case(seed).bytes));
    images.filter(|store| store.authors.len() <= 20).collect()
}

/// An order, or that there is a ring; which one is free.
type Showing = fn(&Store) -> Option<Vec<CommitNumber>>;

fn right(store: &Store) -> Option<Vec<CommitNumber>> {
    order_of(order_or_ring(store, &links(store)))
}

fn order_of(bare: Bare) -> Option<Vec<CommitNumber>> {
    match bare {
        Bare::Order(order) => Some(order),
        _ => None,
    }
}

#[test]
fn slips_of_the_links_are_noticed() {
    let slips: [(&str, fn(&Store) -> Relation); 9] = [
        ("SO of commits with operations alone", |store| {
            let mut links = links(store);
            let sessions = &sessions(store) - &so(store);
            links.retain(|link| !sessions.contains(link));
            links
        }),
        ("no SO", |store| {
            between_commits(union(&[wr(store), ww(store), rw(store)]))
        }),
        ("SO from larger numbers to smaller", |store| {
            let turned = sessions(store).into_iter().map(|(a, b)| (b, a)).collect();
            between_commits(union(&[turned, wr(store), ww(store), rw(store)]))
        }),
        ("SO by the numbers of the commits", |store| {
            let same_client = |link: &(CommitNumber, CommitNumber)| {
                store.author(link.0).client == store.author(link.1).client && link.0 < link.1
            };
            let all = store.commits().into_iter().flat_map(|first| {
                let second = store.commits().into_iter();
                second.map(move |second| (first, second))
            });
            let own: Relation = all.filter(same_client).collect();
            between_commits(union(&[own, wr(store), ww(store), rw(store)]))
        }),
        ("no WR", |store| {
            between_commits(union(&[sessions(store), ww(store), rw(store)]))
        }),
        ("no WW", |store| {
            between_commits(union(&[sessions(store), wr(store), rw(store)]))
        }),
        ("no RW", |store| {
            between_commits(union(&[sessions(store), wr(store), ww(store)]))
        }),
        ("its own version read passed", |store| {
            let mut links = links(store);
            links.retain(|link| link.0 != link.1);
            links
        }),
        ("RW to itself too", |store| {
            let mut links = links(store);
            for list in &store.lists {
                for (place, version) in list.iter().enumerate() {
                    for later in &list[place + 1..] {
                        let own = version.readers.get(&later.writer);
                        links.extend(own.map(|&own| (own, own)));
                    }
                }
            }
            links
        }),
    ];
    let stores = stores();
    println!("{} images", stores.len());
    let noticed = slips.map(|(name, slip)| {
        let wrong = |store: &&Store| order_of(order_or_ring(store, &slip(store)));
        let other = stores.iter().filter(|store| wrong(store) != right(store));
        (name, other.count())
    });
    all_noticed(&noticed);
}

#[test]
fn slips_of_the_order_are_noticed() {
    let slips: [(&str, Showing); 4] = [
        ("the highest-numbered ready commit first", |store| {
            placed(store, |ready, _| ready.last().copied())
        }),
        ("the ready commits one round after the other", |store| {
            let mut round = Vec::new();
            placed(store, move |ready, _| {
                if round.is_empty() {
                    round = ready.to_vec();
                    round.reverse();
                }
                round.pop()
            })
        }),
        ("the next commit by its number, if it is ready", |store| {
            placed(store, |ready, order| {
                let last = order.last().copied().unwrap_or(CommitNumber(0));
                let next = ready.iter().find(|&&commit| commit > last);
                next.or(ready.first()).copied()
            })
        }),
        ("the order of the numbers, or a ring", |store| {
            right(store).map(|_| store.commits())
        }),
    ];
    let stores = stores();
    let noticed = slips.map(|(name, slip)| {
        let other = stores.iter().filter(|store| slip(store) != right(store));
        (name, other.count())
    });
    all_noticed(&noticed);
}

/// Places commits that are ready, chosen in some way.
fn placed(
    store: &Store,
    mut choose: impl FnMut(&[CommitNumber], &[CommitNumber]) -> Option<CommitNumber>,
) -> Option<Vec<CommitNumber>> {
    let links = links(store);
    let mut order = Vec::new();
    loop {
        let mut ready = store.commits();
        ready.retain(|commit| !order.contains(commit) && is_ready(*commit, &links, &order));
        match choose(&ready, &order) {
            Some(commit) => order.push(commit),
            None => break,
        }
    }
    (order.len() == store.authors.len()).then_some(order)
}

/// Links to the next version and the next number alone lead as far, by more links:
/// no order tells them apart, nor that there is a ring.
#[test]
fn a_slip_that_no_order_tells() {
    let mut fewer = 0;
    for store in stores() {
        let sessions = sessions(&store);
        let mut next: Relation = &sessions - &compose(&sessions, &sessions);
        next.extend(between_commits(wr(&store)));
        for list in &store.lists {
            for pair in list.windows(2) {
                let readers = pair[0].readers.iter().copied();
                let before = readers.chain([pair[0].writer]);
                let links = before.map(|before| (before, pair[1].writer));
                next.extend(links.filter(|link| link.0 != link.1 && link.0 != OPENING));
            }
        }
        assert_eq!(order_of(order_or_ring(&store, &next)), right(&store));
        fewer += usize::from(next.len() < links(&store).len());
    }
    println!("links to the next alone: fewer, with the same order, in {fewer}");
    assert!(fewer > 0);
}

/// Each test of code 20, left out, lets some image pass; and some that are none.
#[test]
fn slips_of_the_shape_are_noticed() {
    let images: Vec<Vec<u8>> = (0..3 * IMAGES).map(|seed| image_case(seed).bytes).collect();
    let right: Vec<bool> = images.iter().map(|image| shaped(image).is_some()).collect();
    let other = |passes: &dyn Fn(&[u8]) -> bool| {
        let pairs = images.iter().zip(&right);
        pairs
            .filter(|(image, right)| passes(image) != **right)
            .count()
    };
    let mut noticed: Vec<(&str, usize)> = Vec::new();
    for (place, (name, _)) in TESTS.iter().enumerate() {
        let mut tests: Vec<Test> = TESTS.to_vec();
        tests.remove(place);
        noticed.push((name, other(&|image| shaped_by(image, &tests).is_some())));
    }
    noticed.push((
        "stored views that are none",
        other(&|image| shaped(image).is_some() && has_views(image)),
    ));
    noticed.push((
        "commits that are nowhere in the store",
        other(&|image| shaped(image).is_some_and(|store| all_appear(&store))),
    ));
    noticed.push((
        "numbers that do not rise from commit to commit",
        other(&|image| shaped(image).is_some_and(|store| numbers_rise(&store))),
    ));
    noticed.push((
        "readers of version 0",
        other(&|image| shaped(image).is_some_and(|store| version_0_unread(&store))),
    ));
    all_noticed(&noticed);
}

fn has_views(image: &[u8]) -> bool {
    let report = Report {
        verdicts: [Verdict::Accepted; 10],
        records: 0,
        commits: 0,
        image_len: image.len(),
    };
    stored_views_hold(image, &report).is_ok()
}

fn all_appear(store: &Store) -> bool {
    store.appearing() == store.commits().into_iter().collect::<BTreeSet<_>>()
}

fn numbers_rise(store: &Store) -> bool {
    model::facts::numbers_rise(store).is_ok()
}

fn version_0_unread(store: &Store) -> bool {
    store.lists.iter().all(|list| list[0].readers.is_empty())
}

/// What a buffer of some length gets.
type Lent = fn(&Bare, usize) -> Shown;

#[test]
fn slips_of_the_buffer_are_noticed() {
    let slips: [(&str, Lent); 4] = [
        ("17 before 20", |bare, length| {
            if length < ROOM {
                return Shown::Refused(Refusal::at(17, 0));
            }
            show(bare, &mut vec![0; length])
        }),
        ("17 by the number of commits", |bare, length| {
            let needed = match bare {
                Bare::Misshapen => 0,
                Bare::Order(commits) | Bare::Ring(commits) => commits.len(),
            };
            if length < needed {
                return Shown::Refused(Refusal::at(17, 0));
            }
            show(bare, &mut vec![0; length.max(ROOM)])
        }),
        ("17 for 63 bytes", |bare, length| {
            let less = if length == ROOM { 0 } else { length };
            show(bare, &mut vec![0; less])
        }),
        ("19 whatever the buffer", |bare, length| match bare {
            Bare::Ring(_) => show(bare, &mut vec![0; length.max(ROOM)]),
            _ => show(bare, &mut vec![0; length]),
        }),
    ];
    let bares: Vec<Bare> = (0..1_000)
        .map(|seed| bare(&image_case(seed).bytes))
        .collect();
    let noticed = slips.map(|(name, slip)| {
        let other = bares.iter().filter(|bare| {
            [0, 1, ROOM - 1, ROOM, ROOM + 1]
                .into_iter()
                .any(|length| slip(bare, length) != show(bare, &mut vec![0; length]))
        });
        (name, other.count())
    });
    all_noticed(&noticed);
}
