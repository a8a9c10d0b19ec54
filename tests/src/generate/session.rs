//! Traces around one session, for clause 2: a client writes, and later one of
//! its commits leaves it without some of what it wrote.

use super::taken::{
    number_of_keys, some_keys, Accesses, Builder, Built, Numbering, Style, Writers,
};
use crate::random::Random;
use crate::store::{CommitNumber, Key};
use crate::trace::OperationKind;

/// The client of the session.
const CLIENT: usize = 0;

/// A client makes a few commits and sees all that it wrote, other clients
/// commit between; then comes one after which it may lack versions of its own,
/// earlier ones and those of this commit; then some more commits, among them
/// such as have no operations.
pub fn build_session(random: &mut Random) -> Built {
    let number = random.between(1, 4);
    let keys = number_of_keys(random, number);
    let used = some_keys(random, number, keys);
    let clients = random.between(1, 3);
    let (before, after) = (random.between(1, 5), random.below(4));
    let mut builder = Builder::new(keys, clients, before + 1 + after);
    for _ in 0..before {
        let client = if random.percent(70) {
            CLIENT
        } else {
            random.below(clients)
        };
        let accesses = some_accesses(random, &used);
        let seen = builder.seen(client);
        builder.plain_commit(random, client, &accesses, &[], seen);
    }
    forgetful_commit(random, &mut builder, &used);

    let style = Style {
        keys,
        used: used.into_iter().collect(),
        clients,
        numbering: Numbering::ByOne,
        ..Style::random(random)
    };
    for _ in 0..after {
        if random.percent(40) {
            let seen = builder.seen(CLIENT);
            builder.plain_commit(random, CLIENT, &Accesses::new(), &[], seen);
        } else {
            let client = random.below(clients);
            builder.styled_commit(random, &style, client);
        }
    }
    builder.built()
}

/// Reads and writes of some of the keys, at least one.
pub(super) fn some_accesses(random: &mut Random, used: &[Key]) -> Accesses {
    let mut accesses = Accesses::new();
    for _ in 0..random.between(1, used.len() + 1) {
        let kind = if random.percent(60) {
            OperationKind::Write
        } else {
            OperationKind::Read
        };
        accesses.insert((random.pick(used), kind));
    }
    accesses
}

/// A commit of the session that touches all keys of the commits that it loses
/// sight of, and in half of the cases does not see its own versions.
fn forgetful_commit(random: &mut Random, builder: &mut Builder, used: &[Key]) {
    let store = builder.state.store.clone();
    let mut after = builder.seen(CLIENT);
    let own = |writer: &CommitNumber| writer.0 > 0 && store.author(*writer).client == CLIENT;
    let lost: Writers = after
        .iter()
        .filter(|writer| own(writer) && random.percent(40))
        .copied()
        .collect();
    let mut accesses = match random.below(3) {
        0 if !lost.is_empty() => Accesses::new(),
        _ => some_accesses(random, used),
    };
    for &writer in &lost {
        for (key, _) in store.written_by(writer) {
            accesses.insert((key, OperationKind::Read));
        }
        after.remove(&writer);
    }
    let accesses: Vec<(OperationKind, Key)> = accesses
        .into_iter()
        .map(|(key, kind)| (kind, key))
        .collect();
    let operations = builder.with_values(CLIENT, &accesses, || random.below(3) as u32);
    let writes = accesses
        .iter()
        .any(|access| access.0 == OperationKind::Write);
    if writes && random.percent(50) {
        after.insert(builder.next_commit());
    }
    let session = store.sessions_of(CLIENT).len() as u32;
    builder.commit(CLIENT, session, operations, &after);
}
