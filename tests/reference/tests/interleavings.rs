//! All interleavings of a few short calls, judged at every event: not a sample, every one. What the small
//! scopes met is told in docs/MODEL-CHECKING.md, whose table `search` writes.

use reference::search::{row, small, visit, Met, Scope, Wish, ANY};
use std::path::Path;

type Call = &'static [Wish];
const PUSH_LEFT: Call = &[Wish::Push(0)];
const PUSH_RIGHT: Call = &[Wish::Push(1)];
const POP_LEFT: Call = &[Wish::Pop(0)];
const POP_RIGHT: Call = &[Wish::Pop(1)];

fn met(pooled: bool, slots: u64, waiting: u8, calls: Vec<Vec<Call>>) -> Met {
    let scope = Scope { pooled, slots, waiting, calls };
    visit(&scope).unwrap_or_else(|what| panic!("{what} in {scope:?}"))
}

/// The rows in the document are what the search meets today, and stay within the papers' bounds:
/// 02, #108, for named slots, and 20 for each task and 3 for each pair in a pool.
#[test]
fn the_small_scopes_are_as_told() {
    let path = Path::new(env!("CARGO_MANIFEST_DIR")).join("../../docs/MODEL-CHECKING.md");
    let page = std::fs::read_to_string(path).expect("the document");
    for scope in small() {
        let found = visit(&scope).unwrap_or_else(|what| panic!("{what} in {scope:?}"));
        let line = row(&scope, &found);
        assert!(page.contains(&line), "not in docs/MODEL-CHECKING.md: {line}");
        let tasks = scope.calls.len() as u64;
        let (stretch, alone) = match scope.pooled {
            false => (26 * tasks, [18, 13]),
            true => (20 * tasks + 3 * (tasks * (tasks - 1) / 2), [21, 16]),
        };
        assert!(found.stretch < stretch && found.alone <= alone, "{line}");
    }
}

#[test]
fn two_tasks_with_two_calls_each() {
    let found = met(false, 3, 0, vec![vec![ANY, ANY], vec![ANY, ANY]]);
    assert!(found.states > 460_000, "only {} states", found.states);
    let found = met(false, 3, 1, vec![vec![ANY, ANY], vec![ANY]]);
    assert!(found.states > 40_000, "only {} states", found.states);
}

#[test]
fn three_tasks_with_a_call_each() {
    let crews = [
        [PUSH_RIGHT, PUSH_LEFT, POP_RIGHT],
        [PUSH_RIGHT, POP_LEFT, POP_RIGHT],
        [PUSH_LEFT, PUSH_LEFT, POP_LEFT],
    ];
    let crews = crews.map(|crew| met(false, 3, 1, crew.map(|call| vec![call]).to_vec()));
    let states: usize = crews.iter().map(|crew| crew.states).sum();
    assert!(states > 190_000, "only {states} states");
}

#[test]
fn two_tasks_share_a_pool() {
    let longer = vec![vec![PUSH_LEFT, ANY, POP_LEFT], vec![PUSH_LEFT, ANY, PUSH_RIGHT]];
    let shorter = vec![vec![ANY, POP_LEFT], vec![PUSH_LEFT, ANY, PUSH_RIGHT]];
    for (slots, calls, least) in [(1, longer, 3_700), (2, shorter, 220_000)] {
        let found = met(true, slots, 0, calls);
        assert!(found.states > least, "only {} states of {slots} slots", found.states);
        assert!(found.answers.contains_key("no slot"), "{slots} slots are never too few");
    }
}

#[test]
fn three_tasks_share_a_pool() {
    let crews = [
        vec![vec![PUSH_RIGHT], vec![PUSH_LEFT], vec![PUSH_RIGHT, POP_LEFT]],
        vec![vec![PUSH_RIGHT], vec![POP_LEFT], vec![PUSH_LEFT, POP_RIGHT]],
    ];
    let states: usize = crews.map(|crew| met(true, 2, 0, crew).states).iter().sum();
    assert!(states > 100_000, "only {states} states");
}

/// Document 02, #108, for named slots; in a pool the places 12 to 17 come to it.
#[test]
fn the_longest_ways_alone() {
    let crews = [
        vec![vec![PUSH_RIGHT; 3], vec![PUSH_RIGHT]],
        vec![vec![PUSH_RIGHT; 3], vec![POP_RIGHT]],
        vec![vec![PUSH_LEFT; 2], vec![POP_LEFT, PUSH_RIGHT]],
    ];
    let longest = |pooled| {
        let each = crews.clone().map(|crew| met(pooled, 4, 0, crew).alone);
        each.into_iter().reduce(|one, other| [one[0].max(other[0]), one[1].max(other[1])])
    };
    assert_eq!(longest(false), Some([18, 13]));
    assert_eq!(longest(true), Some([21, 16]));
}

/// Document 02, #108: 26 steps for each task always hold an effect or an answer. In a pool it is 20 for
/// each and 3 for each pair; there 26 alone would not be enough with many tasks. The longest of two tasks
/// are the cases `stretch_of_20` and `pooled_stretch_of_23`.
#[test]
fn the_longest_stretches() {
    let crews = [
        (vec![vec![PUSH_RIGHT; 3], vec![PUSH_RIGHT]], [20, 23]),
        (vec![vec![PUSH_RIGHT; 3], vec![POP_RIGHT]], [20, 23]),
        (vec![vec![PUSH_RIGHT]; 3], [26 * 3, 20 * 3 + 3 * 3]),
    ];
    for (crew, most) in crews {
        let longest = [false, true].map(|pooled| met(pooled, 5, 0, crew.clone()).stretch);
        println!("{crew:?}: silent steps in a row, named and pooled: {longest:?}");
        assert!(longest[0] <= most[0] && longest[1] <= most[1], "{longest:?} of {crew:?}");
    }
}
