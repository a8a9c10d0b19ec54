//! What a run over many images met, counted as `Met` counts files.

use crate::bare::{bare, links, shaped, Bare};
use crate::generate::{image_case, ImageCase, DAMAGES, IMAGE_KINDS, LONGEST_RING};
use crate::image;
use crate::store::{CommitNumber, Key, Store, Version};
use std::collections::BTreeMap;

#[derive(Default)]
pub struct Images {
    kinds: BTreeMap<&'static str, usize>,
    damages: BTreeMap<&'static str, usize>,
    /// Answers with each code, over all lengths of the buffer.
    codes: BTreeMap<u8, usize>,
    /// Images by what they come to and some sorts of them.
    sorts: BTreeMap<&'static str, usize>,
    /// The numbers of commits that orders and rings show.
    orders: BTreeMap<usize, usize>,
    rings: BTreeMap<usize, usize>,
    longest_image: usize,
}

const SORTS: [&str; 7] = [
    "an order, not that of the numbers",
    "an order with a commit without operations, out of turn",
    "an order of commits that all have no operations",
    "a ring, some commits placed before",
    "a ring with a commit without operations",
    "a ring whose commits are not in the order of their numbers",
    "a ring in an image with stored views that are none",
];

impl Images {
    /// Counts the images of some seeds, and the codes that each is found to get,
    /// what the model says of it being known.
    pub fn of(
        seeds: impl Iterator<Item = u64>,
        mut codes: impl FnMut(u64, &ImageCase, &Bare) -> Vec<u8>,
    ) -> Images {
        let mut met = Images::default();
        for seed in seeds {
            let case = image_case(seed);
            let bare = bare(&case.bytes);
            met.image(&case, &bare);
            for code in codes(seed, &case, &bare) {
                *met.codes.entry(code).or_default() += 1;
            }
        }
        met
    }

    fn image(&mut self, case: &ImageCase, bare: &Bare) {
        *self.kinds.entry(case.kind).or_default() += 1;
        if let Some(damage) = case.damage {
            *self.damages.entry(damage).or_default() += 1;
        }
        let Some(store) = shaped(&case.bytes) else {
            return;
        };
        self.longest_image = self.longest_image.max(case.bytes.len());
        let is_so = match bare {
            Bare::Misshapen => return,
            Bare::Order(order) => {
                *self.orders.entry(order.len()).or_default() += 1;
                of_order(&store, order)
            }
            Bare::Ring(ring) => {
                *self.rings.entry(ring.len()).or_default() += 1;
                of_ring(&store, ring)
            }
        };
        for (sort, is_so) in SORTS.into_iter().zip(is_so) {
            *self.sorts.entry(sort).or_default() += usize::from(is_so);
        }
    }

    pub fn add(&mut self, other: Images) {
        for (mine, others) in [
            (&mut self.kinds, other.kinds),
            (&mut self.damages, other.damages),
            (&mut self.sorts, other.sorts),
        ] {
            for (name, count) in others {
                *mine.entry(name).or_default() += count;
            }
        }
        for (code, count) in other.codes {
            *self.codes.entry(code).or_default() += count;
        }
        for (mine, others) in [
            (&mut self.orders, other.orders),
            (&mut self.rings, other.rings),
        ] {
            for (commits, count) in others {
                *mine.entry(commits).or_default() += count;
            }
        }
        self.longest_image = self.longest_image.max(other.longest_image);
    }

    pub fn print(&self) {
        for (head, counts) in [
            ("images of each kind", &self.kinds),
            ("images of each damage", &self.damages),
            ("images with", &self.sorts),
        ] {
            println!("{head}");
            for (name, count) in counts {
                println!("  {name}: {count}");
            }
        }
        println!("answers with each code, over all lengths of the buffer");
        for (code, count) in &self.codes {
            println!("  {code}: {count}");
        }
        println!("orders by the number of commits: {:?}", self.orders);
        println!("rings by the number of commits: {:?}", self.rings);
        println!("longest image {}", self.longest_image);
    }

    /// Fails if something was never met.
    pub fn lacks_nothing(&self) {
        for kind in IMAGE_KINDS {
            assert!(self.kinds.contains_key(kind), "no image of kind: {kind}");
        }
        for (damage, _) in &DAMAGES {
            assert!(self.damages.contains_key(damage), "no image: {damage}");
        }
        for sort in SORTS {
            let images = self.sorts.get(sort).copied().unwrap_or_default();
            assert!(images >= 10, "{images} images with {sort}");
        }
        let met: Vec<u8> = self.codes.keys().copied().collect();
        assert_eq!(met, [0, 17, 19, 20]);
        for commits in 0..=6 {
            assert!(self.orders.contains_key(&commits), "no order of {commits}");
        }
        assert!(self.orders.contains_key(&Store::MAX_COMMITS));
        for commits in [1, 2, 3, 4, LONGEST_RING] {
            assert!(self.rings.contains_key(&commits), "no ring of {commits}");
        }
        assert_eq!(self.longest_image, image::LONGEST);
    }
}

fn is_empty(store: &Store, commit: CommitNumber) -> bool {
    store.operations_of(commit).is_empty()
}

fn of_order(store: &Store, order: &[CommitNumber]) -> [bool; SORTS.len()] {
    let rises = order.windows(2).all(|pair| pair[0] < pair[1]);
    let links = links(store);
    let out_of_turn = |&commit: &CommitNumber| {
        let waits = |link: &&(CommitNumber, CommitNumber)| link.1 == commit && link.0 > commit;
        is_empty(store, commit) && links.iter().any(|link| waits(&link))
    };
    let all_empty = order.len() > 1 && order.iter().all(|&commit| is_empty(store, commit));
    [
        !rises,
        order.iter().any(out_of_turn),
        all_empty,
        false,
        false,
        false,
        false,
    ]
}

fn of_ring(store: &Store, ring: &[CommitNumber]) -> [bool; SORTS.len()] {
    let links = links(store);
    let commits = store.commits().into_iter();
    let mut first = commits.filter(|commit| links.iter().all(|link| link.1 != *commit));
    let mut turned = ring.to_vec();
    let least = ring.iter().min().expect("a ring has a commit");
    let place = ring.iter().position(|commit| commit == least);
    turned.rotate_left(place.expect("it is there"));
    let has_view = |commit: CommitNumber| {
        let held = store.view(commit);
        let exists = |held: &(Key, Version)| held.1 .0 < store.lists[held.0 .0].len();
        held.iter().all(exists)
    };
    [
        false,
        false,
        false,
        first.next().is_some(),
        ring.iter().any(|&commit| is_empty(store, commit)),
        turned.windows(2).any(|pair| pair[0] > pair[1]),
        !store.commits().into_iter().all(has_view),
    ]
}
