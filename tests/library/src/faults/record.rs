//! 34 for the record.

use super::{busy, fault, named, pooled, unstable, Fault, Group, HIGH};
use crate::records::any_place;
use crate::sound::Scene;
use reference::dice::Dice;
use reference::tables::{POP, PUSH};
use reference::word::{Anchor, LPUSH, RPUSH, STABLE};

/// Another Anchor as read in a busy record.
fn seen(
    scene: &mut Scene,
    dice: &mut Dice,
    place: Option<u64>,
    edit: impl Fn(&mut Anchor, &mut Dice),
) {
    busy(scene, dice, place, None);
    let mut anchor = Anchor::unpack(scene.record().seen);
    edit(&mut anchor, dice);
    scene.record().seen = anchor.pack();
}

pub const FAULTS: &[Fault] = &[
    named(fault(Group::Record, "place 12 to 14 in a named queue", |s, d| {
        let place = d.between(12, 14);
        busy(s, d, Some(place), Some(PUSH));
    })),
    named(fault(Group::Record, "place 15 to 17 in a named queue", |s, d| {
        let place = d.between(15, 17);
        busy(s, d, Some(place), Some(POP));
    })),
    fault(Group::Record, "place 18", |s, d| {
        busy(s, d, None, None);
        s.record().place = 18;
    }),
    pooled(fault(Group::Record, "place 12 to 14 in a pop", |s, d| {
        let place = d.between(12, 14);
        busy(s, d, Some(place), Some(PUSH));
        s.record().kind = POP;
    })),
    pooled(fault(Group::Record, "place 15 to 17 in a push", |s, d| {
        let place = d.between(15, 17);
        busy(s, d, Some(place), Some(POP));
        s.record().kind = PUSH;
    })),
    pooled(fault(Group::Record, "finishing in a push at 12 to 14", |s, d| {
        let place = d.between(12, 14);
        busy(s, d, Some(place), Some(PUSH));
        s.record().finishing = 1;
    })),
    pooled(fault(Group::Record, "finishing in a pop at 15 to 17", |s, d| {
        let place = d.between(15, 17);
        busy(s, d, Some(place), Some(POP));
        s.record().finishing = 1;
    })),
    pooled(fault(Group::Record, "own slot in a push at 12 to 14", |s, d| {
        let place = d.between(12, 14);
        busy(s, d, Some(place), Some(PUSH));
        s.record().own = d.pick(&[1, HIGH]);
    })),
    pooled(fault(Group::Record, "own slot 0 in a pop at 15 to 17", |s, d| {
        let place = d.between(15, 17);
        busy(s, d, Some(place), Some(POP));
        s.record().own = 0;
    })),
    pooled(fault(Group::Record, "own slot above slots in a pop at 15 to 17", |s, d| {
        let place = d.between(15, 17);
        busy(s, d, Some(place), Some(POP));
        s.record().own = d.pick(&[s.slots + 1, HIGH + 1, u64::MAX]);
    })),
    pooled(fault(Group::Record, "slot 0 in the link at 13 and 14", |s, d| {
        let place = d.between(13, 14);
        busy(s, d, Some(place), Some(PUSH));
        s.record().link &= !0x7fff;
    })),
    fault(Group::Record, "place 2^32 + 1", |s, d| {
        busy(s, d, Some(1), None);
        s.record().place = HIGH + 1;
    }),
    fault(Group::Record, "kind 2", |s, d| {
        busy(s, d, None, None);
        s.record().kind = 2;
    }),
    fault(Group::Record, "kind 2^32 more", |s, d| {
        busy(s, d, None, None);
        s.record().kind += HIGH;
    }),
    fault(Group::Record, "side 2 in the record", |s, d| {
        busy(s, d, None, None);
        s.record().side = 2;
    }),
    fault(Group::Record, "side 2^32 more in the record", |s, d| {
        busy(s, d, None, None);
        s.record().side += HIGH;
    }),
    unstable(fault(Group::Record, "finishing 2", |s, d| {
        busy(s, d, Some(7), Some(PUSH));
        s.record().finishing = 2;
    })),
    unstable(fault(Group::Record, "finishing 2^32 more", |s, d| {
        busy(s, d, Some(7), Some(PUSH));
        s.record().finishing += HIGH;
    })),
    fault(Group::Record, "place 11 in a push", |s, d| {
        let place = d.between(1, 4);
        busy(s, d, Some(place), Some(PUSH));
        s.record().place = 11;
        s.record().finishing = 0;
    }),
    unstable(fault(Group::Record, "finishing in a pop at 5 to 10", |s, d| {
        let place = d.between(5, 10);
        busy(s, d, Some(place), Some(POP));
        s.record().finishing = 1;
    })),
    fault(Group::Record, "finishing in a pop before place 5", |s, d| {
        let place = d.between(1, 4);
        busy(s, d, Some(place), Some(POP));
        s.record().finishing = 1;
    }),
    fault(Group::Record, "finishing in a pop at 11", |s, d| {
        busy(s, d, Some(11), Some(POP));
        s.record().finishing = 1;
    }),
    fault(Group::Record, "finishing before place 5", |s, d| {
        let place = d.between(1, 4);
        busy(s, d, Some(place), Some(PUSH));
        s.record().finishing = 1;
    }),
    fault(Group::Record, "own slot 0 in a push", |s, d| {
        let place = any_place(d, s.slots, 10);
        busy(s, d, Some(place), Some(PUSH));
        s.record().own = 0;
    }),
    fault(Group::Record, "own slot above slots in a push", |s, d| {
        let place = any_place(d, s.slots, 10);
        busy(s, d, Some(place), Some(PUSH));
        s.record().own = d.pick(&[s.slots + 1, HIGH + 1, u64::MAX]);
    }),
    fault(Group::Record, "own slot in a pop", |s, d| {
        let place = any_place(d, s.slots, 11);
        busy(s, d, Some(place), Some(POP));
        s.record().own = d.pick(&[1, HIGH]);
    }),
    fault(Group::Record, "neighbour above slots", |s, d| {
        busy(s, d, None, None);
        s.record().neighbour = d.pick(&[s.slots + 1, HIGH, HIGH + 1, u64::MAX]);
    }),
    fault(Group::Record, "link with a bit of 31-15", |s, d| {
        busy(s, d, None, None);
        s.record().link |= 1 << d.between(15, 31);
    }),
    fault(Group::Record, "link with a slot above slots", |s, d| {
        busy(s, d, None, None);
        s.record().link = s.record().link & !0x7fff | d.pick(&[s.slots + 1, 0x7fff]);
    }),
    fault(Group::Record, "Anchor as read: status 3", |s, d| {
        let right = s.slots.min(2);
        seen(s, d, None, |a, _| (a.status, a.left, a.right) = (3, 1, right));
    }),
    fault(Group::Record, "Anchor as read: left end above slots", |s, d| {
        let end = s.slots + 1;
        seen(s, d, None, |a, _| (a.left, a.right) = (end, 1));
    }),
    fault(Group::Record, "Anchor as read: right end above slots", |s, d| {
        let end = s.slots + 1;
        seen(s, d, None, |a, _| (a.left, a.right) = (1, end));
    }),
    fault(Group::Record, "Anchor as read: one end null", |s, d| {
        seen(s, d, None, |a, d| (a.left, a.right) = d.pick(&[(0, 1), (1, 0)]));
    }),
    fault(Group::Record, "Anchor as read: unstable with equal ends", |s, d| {
        let most = s.slots.min(2);
        seen(s, d, None, |a, d| {
            let end = d.between(0, most);
            (a.status, a.left, a.right) = (d.between(RPUSH, LPUSH), end, end);
        });
    }),
    unstable(fault(Group::Record, "Anchor as read: STABLE at 5 to 10", |s, d| {
        let place = d.between(5, 10);
        seen(s, d, Some(place), |a, _| a.status = STABLE);
    })),
];
