//! Images whose trace is lost, through the model: what is known of each answer,
//! orders and rings against all orders tried one by one, and what a buffer gets.

use model::bare::{
    bare, first_that_gives, gives, is_ready, is_ring, judge_image, line, links, shaped, show, Bare,
    Shown, ROOM,
};
use model::buffer::{pattern, untouched};
use model::by_hand::{commit, read, shift, write};
use model::example_traces::all;
use model::facts::accepts;
use model::generate::{
    file, image_case, long_ring, taken_case, ImageCase, ImageExpected, LONGEST_RING,
};
use model::image::image;
use model::met::images::Images;
use model::random::Random;
use model::store::{CommitNumber, Store};
use model::trace::{encode, Record, Trace};
use model::{outcome, Refusal};

const IMAGES: u64 = 20_000;

/// The most commits of which all orders are tried.
const TRIED: usize = 6;

#[test]
fn generated_images() {
    let (mut orders, mut rings) = (0, 0);
    let met = Images::of(0..IMAGES, |seed, case, bare| {
        let name = format!("seed {seed}, {}", case.kind);
        check_expected(&name, case, bare);
        if let Some(store) = shaped(&case.bytes) {
            check_shown(&name, &store, bare);
            // All orders of six are tried with a part of the images.
            if store.authors.len() < TRIED || store.authors.len() == TRIED && seed % 4 == 0 {
                let tried = try_all(&name, &store, bare);
                orders += usize::from(tried);
                rings += usize::from(!tried);
            }
        }
        check_buffers(&name, bare)
    });
    met.print();
    println!("all orders tried: {orders} with an order that gives the image, {rings} without");
    met.lacks_nothing();
    assert!(orders > 1_000 && rings > 1_000);
}

/// The answer is the one that the image was made for.
fn check_expected(name: &str, case: &ImageCase, bare: &Bare) {
    let is_so = match case.expected {
        ImageExpected::Order => matches!(bare, Bare::Order(_)),
        ImageExpected::Ring => matches!(bare, Bare::Ring(_)),
        ImageExpected::Misshapen => *bare == Bare::Misshapen,
        ImageExpected::Shaped => *bare != Bare::Misshapen,
        ImageExpected::Anything => true,
    };
    assert!(is_so, "{name}, {:?}: {bare:?}", case.damage);
}

/// An order gives the image, with the lowest-numbered ready commit first each
/// time; a ring is one.
fn check_shown(name: &str, store: &Store, bare: &Bare) {
    let links = links(store);
    match bare {
        Bare::Misshapen => panic!("{name}"),
        Bare::Order(order) => {
            assert!(gives(store, order), "{name}: {order:?}");
            for (place, &next) in order.iter().enumerate() {
                let placed = &order[..place];
                assert!(is_ready(next, &links, placed), "{name}");
                let mut lower = order[place..].iter().filter(|&&commit| commit < next);
                assert!(!lower.any(|&commit| is_ready(commit, &links, placed)));
            }
        }
        Bare::Ring(ring) => assert!(is_ring(&links, ring), "{name}: {ring:?}"),
    }
}

/// Of all orders that give the image the one that is shown is the first; where
/// there is a ring none does.
fn try_all(name: &str, store: &Store, bare: &Bare) -> bool {
    let first = first_that_gives(store);
    let due = match bare {
        Bare::Order(order) => Some(order.clone()),
        _ => None,
    };
    assert_eq!(first, due, "{name}");
    first.is_some()
}

/// Codes 17 and 20 write nothing, and later bytes keep what they had.
fn check_buffers(name: &str, bare: &Bare) -> Vec<u8> {
    let check = |length: usize| {
        let mut buffer = pattern(length);
        let shown = show(bare, &mut buffer);
        let written: &[CommitNumber] = match (&shown, bare) {
            (Shown::Refused(_), _) => &[],
            (_, Bare::Order(commits) | Bare::Ring(commits)) => commits,
            _ => panic!("{name}"),
        };
        let bytes: Vec<u8> = written.iter().map(|commit| commit.0 as u8).collect();
        assert!(buffer.starts_with(&bytes), "{name}");
        assert!(untouched(&buffer, bytes.len()), "{name}");
        let due = match bare {
            Bare::Misshapen => 20,
            _ if length < ROOM => 17,
            Bare::Order(_) => 0,
            Bare::Ring(_) => 19,
        };
        assert_eq!(shown.code(), due, "{name}, buffer of {length}");
        due
    };
    [0, ROOM - 1, ROOM, ROOM + 40].map(check).to_vec()
}

/// "Images from a trace that SER accepts must get 0", and that of any taken trace
/// is never misshapen.
#[test]
fn images_of_traces() {
    let (mut accepted, mut others, mut rings) = (0, 0, 0);
    let files = (0..1_500).map(|seed| taken_case(&mut Random::seeded(seed)).bytes);
    for (place, file) in files.chain((0..1_500).map(file)).enumerate() {
        let Ok(taken) = outcome(&file) else {
            continue;
        };
        match (accepts(&taken.report, "SER"), bare(&taken.image)) {
            (_, Bare::Misshapen) => panic!("file {place}"),
            (true, Bare::Order(order)) => {
                // The commits see all that was there, so their own order gives it.
                assert_eq!(order, taken.store.commits(), "file {place}");
                accepted += 1;
            }
            (true, Bare::Ring(_)) => panic!("file {place}"),
            (false, Bare::Order(_)) => others += 1,
            (false, Bare::Ring(_)) => rings += 1,
        }
    }
    println!("SER accepts {accepted}; it does not, and there is an order {others}, a ring {rings}");
    assert!(accepted > 0 && others > 0 && rings > 0);
}

/// What the images of the example traces come to. B and D: each commit read what
/// the other wrote over. C: the readers saw the writes in opposite orders. F, G and M
/// are refused for versions that nobody read, which an image does not show.
#[test]
fn examples() {
    let mut lines = String::new();
    for example in all() {
        let Ok(taken) = outcome(&example.bytes) else {
            continue;
        };
        let bare = bare(&taken.image);
        lines += &match &bare {
            Bare::Ring(ring) => format!("{} ring of {}\n", example.name, ring.len()),
            _ => format!("{} {}", example.name, line(&bare)),
        };
    }
    let numbers: String = (1..=63).map(|number| format!(" {number}")).collect();
    let due = format!(
        "A order\nB ring of 2\nC ring of 4\nD ring of 2\nE order 1 2\nF order 1 2 3\n\
         G order 1 2 3\nK, 63 commits order{numbers}\nL order 1 2\nM order 1 2 3\n"
    );
    assert_eq!(lines, due);
}

fn image_of(keys: usize, clients: usize, records: &[Record]) -> Store {
    let file = encode(&Trace {
        keys,
        clients,
        records: records.to_vec(),
    });
    outcome(&file).expect("it is taken").store
}

/// The numbers may be renamed: a reader that was late sees what was there before.
#[test]
fn an_order_that_is_not_that_of_the_numbers() {
    let records = [
        commit(0, 0, &[write(0, 1)], &[&[0, 1]]),
        commit(1, 0, &[read(0, 0)], &[&[0]]),
    ];
    let store = image_of(1, 2, &records);
    assert_eq!(line(&bare(&image(&store))), "order 2 1\n");
}

/// "Here SO covers commits without operations too": commit 1 comes after commit 2
/// by its number.
#[test]
fn a_commit_without_operations_has_its_turn() {
    let records = [
        commit(0, 3, &[], &[&[0]]),
        commit(1, 0, &[write(0, 1)], &[&[0, 1]]),
    ];
    let mut store = image_of(1, 2, &records);
    assert_eq!(line(&bare(&image(&store))), "order 1 2\n");
    store.authors[1] = store.authors[0];
    store.authors[1].session = 2;
    assert_eq!(line(&bare(&image(&store))), "order 2 1\n");
}

/// "a commit reading its own version is a ring of one"
#[test]
fn a_ring_of_one() {
    let records = [
        commit(0, 0, &[write(0, 1)], &[&[0, 1], &[0]]),
        commit(1, 0, &[write(1, 1)], &[&[0], &[0, 1]]),
    ];
    let mut store = image_of(2, 2, &records);
    store.lists[1][1].readers.insert(CommitNumber(2));
    assert_eq!(line(&bare(&image(&store))), "ring 2\n");
    assert_eq!(first_that_gives(&store), None);
}

/// "The stored views are not consulted", and are no part of code 20.
#[test]
fn stored_views_are_not_looked_at() {
    let mut seen = 0;
    for seed in 0..2_000 {
        let case = image_case(seed);
        let Some(store) = shaped(&case.bytes) else {
            continue;
        };
        let mut bytes = case.bytes.clone();
        let length = 8 + 8 * store.lists.len();
        let random = &mut Random::seeded(seed);
        for commit in 0..store.authors.len() {
            let place = 8 + commit * length;
            let masks = &mut bytes[place + 8..place + length];
            masks.iter_mut().for_each(|byte| *byte = random.byte());
            seen += 1;
        }
        assert_eq!(bare(&bytes), bare(&case.bytes), "seed {seed}");
    }
    assert!(seen > 0);
}

/// "under 63 bytes is code 17, after 20", whatever the image needs.
#[test]
fn twenty_before_seventeen() {
    let good = image(&Store::opening(1));
    assert_eq!(line(&bare(&good)), "order\n");
    for length in 0..ROOM {
        let shown = judge_image(&good, &mut vec![0; length]);
        assert_eq!(shown, Shown::Refused(Refusal::at(17, 0)));
        let shown = judge_image(&good[..27], &mut vec![0; length]);
        assert_eq!(shown, Shown::Refused(Refusal::at(20, 0)));
    }
    assert_eq!(judge_image(&good, &mut [0; ROOM]), Shown::Order(0));
}

/// As long as a ring can be that is the only one.
#[test]
fn the_longest_rings() {
    for length in 3..=LONGEST_RING {
        let store = long_ring(&mut Random::seeded(length as u64), length);
        let Bare::Ring(ring) = bare(&image(&store)) else {
            panic!("{length}");
        };
        assert_eq!(ring.len(), length);
    }
}

/// A shift alone changes nothing.
#[test]
fn shifts_leave_no_trace() {
    let records = [
        commit(0, 0, &[write(0, 1)], &[&[0, 1]]),
        shift(1, &[&[0, 1]]),
        commit(1, 0, &[read(0, 1)], &[&[0, 1]]),
    ];
    let store = image_of(1, 2, &records);
    assert_eq!(line(&bare(&image(&store))), "order 1 2\n");
}
