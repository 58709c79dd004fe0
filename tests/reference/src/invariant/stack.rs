//! Lines 14 to 20: the pool of free slots.

use super::{line, Holder, State, Task};
use crate::pool;
use crate::tables::{Record, POP, PUSH};
use crate::word::Link;

impl State<'_> {
    /// Lines 14 to 17: the stack of a pooled queue, after all other holders are known.
    pub(super) fn pool(&mut self) -> Result<(), String> {
        let slots = self.shared.control.slots;
        let head = Link(self.shared.control.head);
        line(16, head.is_sound(slots), "the head is sound")?;
        let fits = self.shared.next[1..=slots as usize].iter().all(|&next| next <= slots);
        line(16, fits, "every next is a slot or 0")?;
        let Some(stacked) = pool::stacked(self.shared) else {
            return line(14, false, "the stack ends");
        };
        for slot in stacked {
            self.hold(14, slot, Holder::Stack)?;
        }
        let kept = !self.holders[1..].contains(&Holder::Nobody);
        line(15, kept, "every slot is waiting, held by a call or in the stack")?;
        self.head_tag(head.tag())
    }

    /// Line 17: the head's tag is bounded by Anchor's.
    fn head_tag(&self, tag: u64) -> Result<(), String> {
        let count = |kind: u64| {
            let holds = |record: &&Record| record.kind == kind && pool::held_slot(record).is_some();
            self.records.iter().filter(holds).count() as u64
        };
        let bounded = tag + count(POP) <= self.anchor.tag + count(PUSH);
        line(17, bounded, "the head's tag and the pops that hold a slot are bounded by Anchor's")
    }

    /// Lines 18 to 20: the head as read at 13, 14 and 17.
    pub(super) fn head_as_read(&self, task: &Task) -> Result<(), String> {
        let Record { place, own, neighbour, link, .. } = *task.record;
        let head = self.shared.control.head;
        let old = Link(link).tag() < Link(head).tag();
        let below = |slot: u64| self.shared.next[slot as usize];
        match place {
            13 => line(18, link == head || old, "the head as read is current or has a lower tag"),
            14 if link == head => {
                let fresh = below(Link(link).slot()) == neighbour;
                line(19, fresh, "the next of a current head is as read")
            }
            14 => line(19, old, "a head as read that is not current has a lower tag"),
            17 => line(20, below(own) == Link(link).slot(), "the own slot points at the head read"),
            _ => Ok(()),
        }
    }
}
