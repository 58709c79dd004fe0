//! The ways through the places: document 01's column "next" with #104 and #106.

use std::fmt::{self, Display, Formatter};

/// A push before its effect, a push after it, a pop.
#[derive(Clone, Copy, Debug, PartialEq, Eq, PartialOrd, Ord)]
pub enum Role {
    Push,
    Finishing,
    Pop,
}

/// A way through a place; `next` is 0 for an answer, `failed` a counted retry.
#[derive(Clone, Copy, Debug, PartialEq, Eq, PartialOrd, Ord)]
pub struct Way {
    pub pooled: bool,
    pub place: u64,
    pub role: Role,
    pub failed: bool,
    pub next: u64,
}

/// The ways through the places of both ways of opening: they differ from 11 on.
pub fn all() -> Vec<Way> {
    use Role::{Pop, Push};
    let mut pooled = vec![(12, Push, false, 0), (12, Push, false, 13), (13, Push, false, 14)];
    pooled.extend([(14, Push, false, 1), (14, Push, true, 12), (11, Pop, false, 15)]);
    pooled.extend([(15, Pop, false, 16), (16, Pop, false, 17)]);
    pooled.extend([(17, Pop, false, 0), (17, Pop, true, 15)]);
    let named = vec![(11, Pop, false, 0)];
    let both = [(false, named), (true, pooled)].into_iter().flat_map(|(pooled, ways)| {
        shared_ways().into_iter().chain(ways).map(move |way| (pooled, way))
    });
    both.map(|(pooled, (place, role, failed, next))| Way { pooled, place, role, failed, next })
        .collect()
}

/// Places 1 to 10, read off document 01's table; a failed 2 or 4 goes on as 1 (#106).
fn shared_ways() -> Vec<(u64, Role, bool, u64)> {
    use Role::{Finishing, Pop, Push};
    let mut ways = vec![(1, Pop, false, 0), (2, Pop, true, 0), (4, Pop, true, 0)];
    ways.extend([(2, Push, false, 0), (2, Pop, false, 11)]);
    ways.extend([(4, Push, false, 5), (4, Pop, false, 11)]);
    for role in [Push, Pop] {
        for (place, failed) in [(1, false), (2, true), (4, true)] {
            ways.extend([2, 3, 5].map(|next| (place, role, failed, next)));
        }
        ways.push((3, role, false, 4));
    }
    for (role, leave) in [(Push, 1), (Finishing, 0), (Pop, 1)] {
        ways.extend([(5, role, false, 6), (6, role, false, 7), (6, role, false, leave)]);
        ways.extend([(7, role, false, 8), (7, role, false, 10), (8, role, false, 9)]);
        ways.extend([(8, role, false, leave), (9, role, false, 10), (9, role, true, leave)]);
        ways.extend([(10, role, false, leave), (10, role, true, leave)]);
    }
    ways
}

impl Display for Way {
    fn fmt(&self, out: &mut Formatter) -> fmt::Result {
        let role = format!("{:?}", self.role).to_lowercase();
        let outcome = if self.failed { "failed" } else { "" };
        let queue = if self.pooled { "pooled" } else { "named" };
        write!(out, "{queue:7}place {:2} {role:10}{outcome:7}", self.place)?;
        match self.next {
            0 => write!(out, "answers"),
            next => write!(out, "to {next}"),
        }
    }
}
