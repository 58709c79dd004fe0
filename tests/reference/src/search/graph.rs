//! The states by number, and the events between them.

use super::state::{Kind, State};
use super::Met;
use crate::tables::{POP, PUSH};
use crate::ways::{self, Way};
use std::collections::{BTreeMap, BTreeSet};

struct Event {
    to: u32,
    task: u8,
    kind: Kind,
}

#[derive(Default)]
pub struct Graph {
    events: Vec<Vec<Event>>,
    /// Tasks with a push under way, and with a pop: bit n of a state's is task n.
    busy: [Vec<u8>; 2],
    gone: BTreeSet<Way>,
}

const UNKNOWN: u64 = u64::MAX;

impl Graph {
    /// A state's number.
    pub fn add(&mut self, state: &State) -> usize {
        for kind in [PUSH, POP] {
            let bits =
                state.under_way().enumerate().filter(|(_, under_way)| *under_way == Some(kind));
            self.busy[kind as usize].push(bits.map(|(task, _)| 1 << task).sum());
        }
        self.events.push(Vec::new());
        self.events.len() - 1
    }

    pub fn join(&mut self, from: usize, to: usize, task: usize, kind: Kind) {
        let to = u32::try_from(to).expect("fewer than four thousand million states");
        self.events[from].push(Event { to, task: task as u8, kind });
    }

    pub fn go(&mut self, way: Option<Way>) {
        self.gone.extend(way);
    }

    pub fn met(&self, pooled: bool) -> Met {
        let mut answers = BTreeMap::new();
        for word in self.events.iter().flatten().filter_map(|event| answer(event.kind)) {
            *answers.entry(word).or_default() += 1;
        }
        let mut known = vec![UNKNOWN; self.events.len()];
        let states = 0..self.events.len();
        let ways: Vec<Way> = ways::all().into_iter().filter(|way| way.pooled == pooled).collect();
        Met {
            states: self.events.len(),
            events: self.events.iter().map(Vec::len).sum(),
            stretch: states.map(|state| self.silent_from(state, &mut known)).max().unwrap_or(0),
            alone: [PUSH, POP].map(|kind| self.longest_alone(kind as usize)),
            answers,
            ways: ways.len(),
            missing: ways
                .iter()
                .filter(|way| !self.gone.contains(way))
                .map(Way::to_string)
                .collect(),
        }
    }

    /// The most steps that can follow one another from this state on with no effect and no answer.
    fn silent_from(&self, state: usize, known: &mut [u64]) -> u64 {
        if known[state] != UNKNOWN {
            return known[state];
        }
        let mut longest = 0;
        for event in &self.events[state] {
            let steps = match event.kind {
                Kind::Start => 0,
                Kind::Silent => 1,
                _ => continue,
            };
            longest = longest.max(steps + self.silent_from(event.to as usize, known));
        }
        known[state] = longest;
        longest
    }

    fn longest_alone(&self, kind: usize) -> u64 {
        let mut longest = 0;
        for (state, tasks) in self.busy[kind].iter().enumerate() {
            for task in (0..8).filter(|task| tasks >> task & 1 == 1) {
                longest = longest.max(self.alone_from(state, task));
            }
        }
        longest
    }

    /// The steps of a busy task alone, to its answer.
    fn alone_from(&self, mut state: usize, task: u8) -> u64 {
        for steps in 1.. {
            let event = self.events[state].iter().find(|event| event.task == task);
            let event = event.expect("a busy task has a step");
            if answer(event.kind).is_some() {
                return steps;
            }
            state = event.to as usize;
        }
        unreachable!("steps raise tags, and every state is another one")
    }
}

fn answer(kind: Kind) -> Option<&'static str> {
    match kind {
        Kind::Start | Kind::Silent | Kind::Effect => None,
        Kind::Pushed => Some("pushed"),
        Kind::Popped => Some("popped"),
        Kind::Empty => Some("empty"),
        Kind::NoSlot => Some("no slot"),
    }
}
