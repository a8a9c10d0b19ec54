//! Traces around the numbers of one client, for rule 1: commits with operations
//! and without, and then one whose number stands beside that of an earlier one
//! without.

use super::session::some_accesses;
use super::taken::{number_of_keys, some_keys, Accesses, Builder};
use super::{mixed, Case};
use crate::random::Random;
use crate::store::Key;
use crate::Refusal;

/// The client whose numbers matter.
const CLIENT: usize = 0;

/// Some commits with numbers that rise, and between them those of other clients,
/// whose numbers are none of the client's concern; then a commit with a number
/// below, at or above the one of the client's last commit without operations;
/// then some more with numbers that rise.
pub fn numbers_case(random: &mut Random) -> Case {
    let number = random.between(1, 3);
    let keys = number_of_keys(random, number);
    let used = some_keys(random, number, keys);
    let clients = random.between(1, 3);
    let (before, after) = (random.below(5), random.below(3));
    let mut builder = Builder::new(keys, clients, before + 2 + 3 + after);
    rising(random, &mut builder, &used, before);

    // The commit without operations, and in half of the cases others with.
    let first = match random.below(10) {
        0 => Some(u32::MAX),
        _ => some_number(random, &builder, CLIENT),
    };
    let empty = first.expect("a client with few commits has numbers left");
    commit(random, &mut builder, CLIENT, empty, &Accesses::new());
    let between = random.pick(&[0, 0, 1, 2, 3]);
    for _ in 0..between {
        let accesses = some_accesses(random, &used);
        if let Some(session) = some_number(random, &builder, CLIENT) {
            commit(random, &mut builder, CLIENT, session, &accesses);
        }
    }

    let greatest = builder.state.store.sessions_of(CLIENT).last().copied();
    let step = random.between(1, 4) as u32;
    let session = match random.below(4) {
        0 => empty,
        1 => empty.saturating_sub(step),
        2 => empty.saturating_add(step),
        _ => some_number(random, &builder, CLIENT).unwrap_or(empty),
    };
    let accesses = accesses(random, &used);
    commit(random, &mut builder, CLIENT, session, &accesses);
    let record = builder.records();
    rising(random, &mut builder, &used, after);

    let case = Case::taken("numbers", mixed(random, &builder.built().trace));
    if Some(session) > greatest {
        return case;
    }
    case.refused_with(Refusal::at(9, record))
}

/// Commits with numbers that rise, mostly by the client.
fn rising(random: &mut Random, builder: &mut Builder, used: &[Key], commits: usize) {
    let clients = builder.state.views.len();
    for _ in 0..commits {
        let client = match random.below(3) {
            0 => random.below(clients),
            _ => CLIENT,
        };
        let accesses = accesses(random, used);
        if let Some(session) = some_number(random, builder, client) {
            commit(random, builder, client, session, &accesses);
        }
    }
}

/// A number that the client may commit with, not always the least.
fn some_number(random: &mut Random, builder: &Builder, client: usize) -> Option<u32> {
    let least = builder.least_session(client)?;
    Some(least.saturating_add(random.below(5) as u32))
}

/// None in half of the cases.
fn accesses(random: &mut Random, used: &[Key]) -> Accesses {
    if random.percent(50) {
        return Accesses::new();
    }
    some_accesses(random, used)
}

fn commit(
    random: &mut Random,
    builder: &mut Builder,
    client: usize,
    session: u32,
    accesses: &Accesses,
) {
    let seen = builder.seen(client);
    builder.numbered_commit(random, client, session, accesses, &[], seen);
}
