//! What was met of the views in the images: how the view that a commit was judged
//! from stands to others that could be taken for it.

use crate::run::{Run, Step};
use crate::store::{opening_view, View};
use std::collections::BTreeMap;

/// Sorts of commits in taken files.
const SORTS: [&str; 8] = [
    "has the opening view",
    "has the full view of a store that was written to",
    "has a view that is neither",
    "leaves another view",
    "leaves the same view",
    "has another view than the commit before",
    "has another view than the client's commit before",
    "has another view than the client's commit before has left",
];

#[derive(Default)]
pub struct Views {
    /// Files with a commit of each sort.
    sorts: BTreeMap<&'static str, usize>,
}

impl Views {
    /// Counts one file that is taken.
    pub fn taken(&mut self, run: &Run) {
        let keys = run.store.lists.len();
        let opening = opening_view(keys);
        let mut met = [false; SORTS.len()];
        for (place, step) in run.steps.iter().enumerate() {
            let earlier = &run.steps[..place];
            for (met, is_so) in met.iter_mut().zip(sorts(step, earlier, &opening)) {
                *met |= is_so;
            }
        }
        for (sort, met) in SORTS.into_iter().zip(met) {
            *self.sorts.entry(sort).or_default() += usize::from(met);
        }
    }

    pub fn add(&mut self, other: Views) {
        for (sort, files) in other.sorts {
            *self.sorts.entry(sort).or_default() += files;
        }
    }

    pub fn print(&self) {
        println!("taken files with a commit that");
        for (sort, files) in &self.sorts {
            println!("  {sort}: {files}");
        }
    }

    pub fn lacks_nothing(&self) {
        for sort in SORTS {
            let files = self.sorts.get(sort).copied().unwrap_or_default();
            assert!(files >= 10, "{files} files with a commit that {sort}");
        }
    }
}

/// Which of the sorts a commit is of, behind the earlier ones.
fn sorts(step: &Step, earlier: &[Step], opening: &View) -> [bool; SORTS.len()] {
    let all = step.store.versions();
    let client = step.author.client;
    let before = earlier.last();
    let own_before = earlier.iter().rfind(|step| step.author.client == client);
    let other = |view: Option<&View>| view.is_some_and(|view| *view != step.u);
    [
        step.u == *opening,
        step.u == all && all != *opening,
        step.u != all && step.u != *opening,
        step.u != step.u_after,
        step.u == step.u_after,
        other(before.map(|step| &step.u)),
        other(own_before.map(|step| &step.u)),
        other(own_before.map(|step| &step.u_after)),
    ]
}
