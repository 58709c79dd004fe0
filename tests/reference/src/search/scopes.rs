//! What is searched.

/// A push or a pop at a side.
#[derive(Clone, Copy, Debug, PartialEq, Eq)]
pub enum Wish {
    Push(u8),
    Pop(u8),
}

/// Any call: where a task starts one of these, each is tried.
pub const ANY: &[Wish] = &[Wish::Push(0), Wish::Push(1), Wish::Pop(0), Wish::Pop(1)];

/// A queue of so many slots, with so many labels waiting at first.
#[derive(Clone, Debug, PartialEq, Eq)]
pub struct Scope {
    pub pooled: bool,
    pub slots: u64,
    pub waiting: u8,
    /// Of each task its calls, one after the other, and what each of them may be.
    pub calls: Vec<Vec<&'static [Wish]>>,
}

impl Scope {
    /// So many calls of each task, any of them.
    pub fn any(pooled: bool, slots: u64, waiting: u8, calls: &[u8]) -> Scope {
        let calls = calls.iter().map(|&count| vec![ANY; count.into()]).collect();
        Scope { pooled, slots, waiting, calls }
    }
}

/// Both ways to open.
fn both(slots: u64, waiting: u8, calls: &[u8]) -> [Scope; 2] {
    [false, true].map(|pooled| Scope::any(pooled, slots, waiting, calls))
}

/// The part that the tests search again each time.
pub fn small() -> Vec<Scope> {
    let two = [
        both(1, 0, &[2, 1]),
        both(2, 0, &[2, 1]),
        both(2, 1, &[1, 1]),
        both(2, 2, &[2, 1]),
        both(3, 2, &[1, 1]),
    ];
    let three = [both(1, 0, &[1, 1, 1]), both(2, 0, &[1, 1, 1])];
    [two.concat(), three.concat()].concat()
}

/// All of it, the small part first.
pub fn all() -> Vec<Scope> {
    let more = [both(3, 0, &[2, 2]), both(4, 0, &[3, 1]), both(2, 1, &[1, 1, 1])];
    [small(), more.concat()].concat()
}
