//! Every interleaving of a few calls: all states that they lead to, each judged, and what was met there.
//!
//! A state is the tables, the judge who has followed them there, and how many calls each task may still
//! start. A busy task has one event, its step. An idle one with a call left may start any that its scope
//! allows. So a scope stands for all its calls in every order, not for a sample.

mod graph;
mod key;
mod page;
mod scopes;
mod state;

pub use page::{never, row, table};
pub use scopes::{all, small, Scope, Wish, ANY};

use graph::Graph;
use state::State;
use std::collections::{BTreeMap, HashMap};

/// What a search visited, and the most and all that it met.
#[derive(Clone, Debug, PartialEq, Eq)]
pub struct Met {
    pub states: usize,
    /// Starts and steps, from every state where they are possible.
    pub events: usize,
    /// The most steps in a row, of whatever tasks, without effect or answer.
    pub stretch: u64,
    /// The most steps of a task alone to its answer, of pushes and of pops; 0 without one.
    pub alone: [u64; 2],
    /// How many events gave each answer.
    pub answers: BTreeMap<&'static str, usize>,
    /// Ways through the places, and those among them that no step went.
    pub ways: usize,
    pub missing: Vec<String>,
}

/// Visits every state of a scope. The judge's first objection ends it.
pub fn visit(scope: &Scope) -> Result<Met, String> {
    let first = State::opened(scope)?;
    let mut graph = Graph::default();
    let mut known = HashMap::from([(key::of(&first), graph.add(&first))]);
    let mut open = vec![(0, first)];
    while let Some((at, state)) = open.pop() {
        for (task, next) in state.events(scope)? {
            let to = *known.entry(key::of(&next.state)).or_insert_with(|| {
                let number = graph.add(&next.state);
                open.push((number, next.state));
                number
            });
            graph.join(at, to, task, next.kind);
            graph.go(next.way);
        }
    }
    Ok(graph.met(scope.pooled))
}
