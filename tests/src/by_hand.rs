//! Records written by hand.

use crate::store::{Key, Version, View};
use crate::trace::{Operation, OperationKind, Record};

pub fn shift(client: usize, held: &[&[usize]]) -> Record {
    Record::Shift {
        client,
        view: view(held),
    }
}

pub fn commit(client: usize, session: u32, operations: &[Operation], held: &[&[usize]]) -> Record {
    Record::Commit {
        client,
        session,
        operations: operations.to_vec(),
        after: view(held),
    }
}

/// For each key the versions held.
fn view(held: &[&[usize]]) -> View {
    let mut view = View::new();
    for (key, versions) in held.iter().enumerate() {
        view.extend(versions.iter().map(|&version| (Key(key), Version(version))));
    }
    view
}

pub fn read(key: usize, value: u32) -> Operation {
    operation(OperationKind::Read, key, value)
}

pub fn write(key: usize, value: u32) -> Operation {
    operation(OperationKind::Write, key, value)
}

fn operation(kind: OperationKind, key: usize, value: u32) -> Operation {
    Operation {
        kind,
        key: Key(key),
        value,
    }
}
