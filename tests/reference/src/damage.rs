//! Damaged tables: every kind that refusals 12 and 34 name, and words that make a change
//! succeed where it must not. For tests that drive the calls on arbitrary contents.

mod parts;

use crate::dice::Dice;
use crate::tables::{Record, Storage, POP, PUSH};
use crate::word::{Anchor, Link, LAST_TAG, LPUSH, RPUSH, STABLE};
use parts::{above, anchor, any_link, any_slot, record, rows, slot};

pub struct Damage {
    pub name: &'static str,
    pub inflict: fn(&mut Storage, &mut Dice),
}

pub const DAMAGES: &[Damage] = &[
    Damage {
        name: "control: tasks",
        inflict: |s, d| s.control.tasks = d.pick(&[0, 17, 255, u64::MAX]),
    },
    Damage {
        name: "control: slots",
        inflict: |s, d| s.control.slots = d.pick(&[0, 1_024, 0x8000, u64::MAX]),
    },
    Damage { name: "control: fewer slots", inflict: |s, d| s.control.slots = d.between(1, 3) },
    Damage { name: "control: fewer tasks", inflict: |s, d| s.control.tasks = d.between(1, 2) },
    Damage {
        name: "record: retries",
        inflict: |s, d| {
            record(s, d, |r, d| r.retries = d.pick(&[LAST_TAG - 1, LAST_TAG, u64::MAX]))
        },
    },
    Damage {
        name: "control: pooled",
        inflict: |s, d| s.control.pooled = d.pick(&[2, 255, 1 << 32, u64::MAX]),
    },
    Damage {
        name: "control: the other way of opening",
        inflict: |s, _| s.control.pooled = 1 - s.control.pooled.min(1),
    },
    Damage { name: "head: any link word", inflict: |s, d| s.control.head = any_link(s, d) },
    Damage {
        name: "head: empty",
        inflict: |s, d| s.control.head = Link::new(d.pick(&[0, 9, LAST_TAG]), 0).0,
    },
    Damage {
        name: "head: last tag, and read so",
        inflict: |s, d| {
            let word = Link::new(LAST_TAG, slot(s, d)).0;
            s.control.head = word;
            record(s, d, |r, _| r.link = word);
        },
    },
    Damage {
        name: "head: as read",
        inflict: |s, d| {
            let word = s.control.head;
            record(s, d, |r, _| r.link = word);
        },
    },
    Damage {
        name: "next: any row",
        inflict: |s, d| {
            let (next, row) = (any_slot(s, d), d.between(0, 5) as usize);
            if let Some(word) = s.next.get_mut(row) {
                *word = next;
            }
        },
    },
    Damage { name: "anchor: status 3", inflict: |s, _| anchor(s, |a| a.status = 3) },
    Damage {
        name: "anchor: left end above slots",
        inflict: |s, d| {
            let n = above(s, d);
            anchor(s, |a| a.left = n)
        },
    },
    Damage {
        name: "anchor: right end above slots",
        inflict: |s, d| {
            let n = above(s, d);
            anchor(s, |a| a.right = n)
        },
    },
    Damage {
        name: "anchor: left end alone null",
        inflict: |s, _| anchor(s, |a| (a.left, a.right) = (0, 1)),
    },
    Damage {
        name: "anchor: right end alone null",
        inflict: |s, _| anchor(s, |a| (a.left, a.right) = (1, 0)),
    },
    Damage {
        name: "anchor: unstable with equal ends",
        inflict: |s, d| {
            let (status, end) = (d.pick(&[RPUSH, LPUSH]), slot(s, d));
            anchor(s, |a| (a.status, a.left, a.right) = (status, end, end));
        },
    },
    Damage {
        name: "anchor: unstable and empty",
        inflict: |s, d| {
            let status = d.pick(&[RPUSH, LPUSH]);
            anchor(s, |a| (a.status, a.left, a.right) = (status, 0, 0));
        },
    },
    Damage {
        name: "anchor: sound but false",
        inflict: |s, d| {
            let (left, right) = (d.between(1, s.control.slots.clamp(1, 9)), slot(s, d));
            let status = if left == right { STABLE } else { d.between(0, 2) };
            anchor(s, |a| (a.status, a.left, a.right) = (status, left, right));
        },
    },
    Damage { name: "anchor: last tag", inflict: |s, _| anchor(s, |a| a.tag = LAST_TAG) },
    Damage {
        name: "anchor: last tag, and read so",
        inflict: |s, d| {
            anchor(s, |a| a.tag = LAST_TAG);
            let word = s.control.anchor;
            record(s, d, |r, _| r.seen = word);
        },
    },
    Damage { name: "anchor: any word", inflict: |s, d| s.control.anchor = d.throw() },
    Damage {
        name: "short: left links",
        inflict: |s, d| {
            let n = rows(s, d);
            s.lefts.truncate(n)
        },
    },
    Damage {
        name: "short: right links",
        inflict: |s, d| {
            let n = rows(s, d);
            s.rights.truncate(n)
        },
    },
    Damage {
        name: "short: labels",
        inflict: |s, d| {
            let n = rows(s, d);
            s.labels.truncate(n)
        },
    },
    Damage {
        name: "short: marks",
        inflict: |s, d| {
            let words = s.control.slots.min(1_023) as usize / 64;
            s.marks.truncate(d.pick(&[words, words + 1, 0]));
        },
    },
    Damage {
        name: "short: next",
        inflict: |s, d| {
            let n = rows(s, d);
            s.next.truncate(n)
        },
    },
    Damage {
        name: "short: records",
        inflict: |s, d| {
            let tasks = s.control.tasks.clamp(1, 16) as usize;
            s.records.truncate(d.pick(&[tasks - 1, tasks, 0]));
        },
    },
    Damage {
        name: "record: place",
        inflict: |s, d| record(s, d, |r, d| r.place = d.pick(&[18, 1 << 32, u64::MAX])),
    },
    Damage {
        name: "record: another place",
        inflict: |s, d| record(s, d, |r, d| r.place = d.between(0, 17)),
    },
    Damage {
        name: "record: kind",
        inflict: |s, d| record(s, d, |r, d| r.kind = d.pick(&[1 - r.kind.min(1), 2, u64::MAX])),
    },
    Damage {
        name: "record: side",
        inflict: |s, d| record(s, d, |r, d| r.side = d.pick(&[1 - r.side.min(1), 2, u64::MAX])),
    },
    Damage {
        name: "record: finishing",
        inflict: |s, d| record(s, d, |r, d| r.finishing = d.pick(&[0, 1, 2, u64::MAX])),
    },
    Damage {
        name: "record: own slot",
        inflict: |s, d| {
            let own = any_slot(s, d);
            record(s, d, |r, _| r.own = own);
        },
    },
    Damage {
        name: "record: neighbour",
        inflict: |s, d| {
            let neighbour = any_slot(s, d);
            record(s, d, |r, _| r.neighbour = neighbour);
        },
    },
    Damage {
        name: "record: link as read",
        inflict: |s, d| {
            let link = any_link(s, d);
            record(s, d, |r, _| r.link = link);
        },
    },
    Damage {
        name: "record: link as read is current",
        inflict: |s, d| {
            let rows = [&s.lefts, &s.rights].map(Vec::clone);
            record(s, d, |r, d| {
                let links = &rows[d.between(0, 1) as usize];
                r.link = links.get(r.neighbour as usize).copied().unwrap_or(0);
            });
        },
    },
    Damage {
        name: "record: Anchor as read",
        inflict: |s, d| {
            record(s, d, |r, d| {
                let mut seen = Anchor::unpack(r.seen);
                match d.between(0, 4) {
                    0 => seen.status = d.between(0, 3),
                    1 => seen.left = d.pick(&[0, seen.right, 1_024, 0x7fff]),
                    2 => seen.right = d.pick(&[0, seen.left, 1_024, 0x7fff]),
                    3 => (seen.status, seen.left, seen.right) = (d.between(0, 2), 0, 0),
                    _ => seen = Anchor::unpack(d.throw()),
                }
                r.seen = seen.pack();
            })
        },
    },
    Damage {
        name: "record: Anchor as read is current",
        inflict: |s, d| {
            let word = s.control.anchor;
            record(s, d, |r, _| r.seen = word);
        },
    },
    Damage {
        name: "record: busy at random",
        inflict: |s, d| {
            let link = any_link(s, d);
            let (slots, word) = (s.control.slots.clamp(1, 9), s.control.anchor);
            record(s, d, |r, d| {
                let (place, side) = (d.between(1, 17), d.between(0, 1));
                let kind = match place {
                    11 | 15..=17 => POP,
                    12..=14 => PUSH,
                    _ => d.between(0, 1),
                };
                let held = if kind == PUSH { place <= 10 } else { place >= 15 };
                let own = if held { d.between(1, slots) } else { 0 };
                let neighbour = d.between(0, slots);
                *r = Record { place, kind, side, own, neighbour, link, seen: word, ..*r };
            });
        },
    },
    Damage {
        name: "rows: a link",
        inflict: |s, d| {
            let link = any_link(s, d);
            let row = d.between(0, 4) as usize;
            let links = if d.percent(50) { &mut s.lefts } else { &mut s.rights };
            if let Some(word) = links.get_mut(row) {
                *word = link;
            }
        },
    },
    Damage {
        name: "marks: any word",
        inflict: |s, d| {
            let bits = d.throw();
            s.marks.iter_mut().take(1).for_each(|word| *word = bits);
        },
    },
];
