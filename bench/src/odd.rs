//! Kinds of traces that no judge was tuned for, to see whether one of them costs
//! much more than the traces of `traces.rs`: 63 commits over 32 keys by 16 clients,
//! where the kind does not say otherwise.

use crate::form::{COMMITS, KEYS, MIN_BYTES};
use crate::traces::{planned, Plan, Style, Trace};
use model::Edition;

/// How many traces of each kind are timed.
pub const NUMBER: usize = 200;

pub struct Kind {
    pub name: &'static str,
    styles: &'static [Style],
    plan: Plan,
    fault: Fault,
}

/// What is made wrong in a trace that was good.
#[derive(Clone, Copy)]
enum Fault {
    Nothing,
    /// The last mask of the first record lacks version 0: a refusal for what the
    /// record means, so that the form of all others is to be looked at.
    FirstRecord,
    /// The last mask of the last record does.
    LastRecord,
    /// The header counts one record less than there are.
    Count,
}

const PLAN: Plan = Plan::over(KEYS);
const MIX: Kind = Kind {
    name: "16 clients",
    styles: &Style::MIX,
    plan: PLAN,
    fault: Fault::Nothing,
};

pub const KINDS: [Kind; 18] = [
    MIX,
    Kind {
        name: "one client",
        plan: Plan { clients: 1, ..PLAN },
        ..MIX
    },
    Kind {
        name: "one key",
        plan: Plan::over(1),
        ..MIX
    },
    Kind {
        name: "no operations",
        styles: &[Style::Still],
        plan: Plan {
            reads: 0,
            writes: 0,
            ..PLAN
        },
        ..MIX
    },
    Kind {
        name: "every key read, none written",
        plan: Plan {
            reads: 100,
            writes: 0,
            ..PLAN
        },
        ..MIX
    },
    Kind {
        name: "every key written, none read",
        plan: Plan {
            reads: 0,
            writes: 100,
            ..PLAN
        },
        ..MIX
    },
    Kind {
        name: "every key read and written",
        plan: Plan {
            reads: 100,
            writes: 100,
            ..PLAN
        },
        ..MIX
    },
    Kind {
        name: "no shifts",
        plan: Plan { shifts: 0, ..PLAN },
        ..MIX
    },
    Kind {
        name: "odd views, none refuses",
        styles: &[Style::Detour],
        plan: Plan { shifts: 2, ..PLAN },
        ..MIX
    },
    Kind {
        name: "odd views, SER alone refuses",
        styles: &[Style::Apart],
        plan: Plan {
            reads: 90,
            writes: 90,
            ..PLAN
        },
        ..MIX
    },
    Kind {
        name: "odd views, CC accepts",
        styles: &[Style::Shared],
        plan: Plan { reads: 0, ..PLAN },
        ..MIX
    },
    Kind {
        name: "odd views after each commit",
        styles: &[Style::Odd],
        plan: Plan {
            reads: 90,
            writes: 10,
            ..PLAN
        },
        ..MIX
    },
    Kind {
        name: "12 shifts a commit, 8 keys",
        styles: &[Style::Creeping],
        plan: Plan {
            shifts: 12,
            ..Plan::over(8)
        },
        ..MIX
    },
    Kind {
        name: "short, one key listed",
        styles: &[Style::Single],
        plan: Plan {
            shifts: 8,
            edition: Edition::Short,
            ..PLAN
        },
        ..MIX
    },
    Kind {
        name: "short, nothing listed",
        styles: &[Style::Still],
        plan: Plan {
            shifts: 100,
            reads: 0,
            writes: 0,
            edition: Edition::Short,
            ..PLAN
        },
        ..MIX
    },
    Kind {
        name: "refused at the first record",
        fault: Fault::FirstRecord,
        ..MIX
    },
    Kind {
        name: "refused at the last record",
        fault: Fault::LastRecord,
        ..MIX
    },
    Kind {
        name: "a record too many",
        fault: Fault::Count,
        ..MIX
    },
];

impl Kind {
    /// So many traces of this kind, always the same.
    pub fn traces(&self, number: usize) -> Vec<Trace> {
        let mut traces = planned(3, self.styles, self.plan, number, COMMITS);
        for trace in &mut traces {
            self.fault.put_into(&mut trace.bytes);
        }
        traces
    }

    /// The code that is due for them.
    pub fn code(&self) -> u64 {
        match self.fault {
            Fault::Nothing => 0,
            Fault::FirstRecord | Fault::LastRecord => 10,
            Fault::Count => 5,
        }
    }
}

impl Fault {
    fn put_into(self, file: &mut [u8]) {
        let lose_opening_version = |mask: &mut [u8]| mask[0] &= !1;
        match self {
            Fault::Nothing => {}
            Fault::FirstRecord => {
                let length = u16::from_le_bytes([file[MIN_BYTES], file[MIN_BYTES + 1]]);
                let end = MIN_BYTES + usize::from(length);
                lose_opening_version(&mut file[end - 8..end]);
            }
            Fault::LastRecord => {
                let end = file.len();
                lose_opening_version(&mut file[end - 8..end]);
            }
            Fault::Count => {
                let count = u16::from_le_bytes([file[10], file[11]]) - 1;
                file[10..12].copy_from_slice(&count.to_le_bytes());
            }
        }
    }
}
