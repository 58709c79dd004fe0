//! A crew at work on a script: what idle tasks start, how often at which side, and how
//! often a number is out of range. Who moves next is up to the scenario.

use crate::dice::Dice;
use crate::script::Script;

/// How many tasks a queue is opened for, and in which way.
#[derive(Clone, Copy)]
pub struct Crew {
    pub tasks: u8,
    pub pooled: bool,
}

impl Crew {
    /// The same way of opening with a number of tasks within limits.
    pub fn clamp(self, least: u8, most: u8) -> Crew {
        Crew { tasks: self.tasks.clamp(least, most), ..self }
    }
}

/// Tasks at work on a script, with their habits in percent.
pub struct Shift<'a> {
    pub dice: &'a mut Dice,
    pub script: Script,
    pub pops: u64,
    pub lefts: u64,
    pub out_of_range: u64,
    pub pooled: bool,
    tasks: u8,
    slots: u16,
}

impl<'a> Shift<'a> {
    pub fn open(dice: &'a mut Dice, crew: Crew, slots: u16, first_tag: u32) -> Shift<'a> {
        let Crew { tasks, pooled } = crew;
        let script = match pooled {
            false => Script::open(tasks, slots, first_tag),
            true => Script::open_pooled(tasks, slots, first_tag),
        };
        let pops = dice.pick(&[40, 50, 60]);
        let lefts = dice.pick(&[10, 50, 50, 90]);
        Shift { dice, script, tasks, slots, pops, lefts, out_of_range: 1, pooled }
    }

    pub fn anyone(&mut self) -> u8 {
        self.dice.between(0, u64::from(self.tasks) - 1) as u8
    }

    pub fn anyone_but(&mut self, task: u8) -> u8 {
        let other = self.dice.between(1, u64::from(self.tasks) - 1) as u8;
        (task + other) % self.tasks
    }

    fn side(&mut self) -> u8 {
        u8::from(!self.dice.percent(self.lefts))
    }

    /// A free slot if a few throws find one.
    fn slot(&mut self) -> u16 {
        let mut slot = self.dice.between(1, self.slots.into()) as u16;
        for _ in 0..4 {
            if self.script.is_free(slot) {
                break;
            }
            slot = self.dice.between(1, self.slots.into()) as u16;
        }
        slot
    }

    fn label(&mut self) -> u32 {
        self.dice.throw() as u32 >> self.dice.pick(&[0, 16, 24, 31])
    }

    /// A step if the task is busy, else a start.
    pub fn act(&mut self, task: u8) {
        if self.dice.percent(self.out_of_range) {
            self.call_out_of_range();
        }
        if self.dice.between(1, 64) == 1 {
            self.script.end_steps();
        }
        if !self.script.is_idle(task) {
            let _ = self.script.step(task);
        } else if self.dice.percent(self.pops) {
            let side = self.side();
            self.script.pop(task, side);
        } else if self.pooled {
            let (side, label) = (self.side(), self.label());
            self.script.push_pooled(task, side, label);
        } else {
            let (side, slot, label) = (self.side(), self.slot(), self.label());
            self.script.push(task, side, slot, label);
        }
    }

    /// A call that is most likely refused: any task, side and slot, near the limits or not.
    fn call_out_of_range(&mut self) {
        let limit = [self.tasks - 1, self.tasks, 255];
        let task = if self.dice.percent(50) { self.anyone() } else { self.dice.pick(&limit) };
        let side = self.dice.pick(&[0, 1, 2, 255]);
        let slot = match self.dice.between(0, 3) {
            0 => 0,
            1 => self.slots,
            2 => self.slots + 1,
            _ => self.dice.throw() as u16,
        };
        match self.dice.between(0, 6) {
            0 | 1 => drop(self.script.push(task, side, slot, 77)),
            2 | 3 => drop(self.script.push_pooled(task, side, 78)),
            4 => drop(self.script.pop(task, side)),
            5 => self.script.no_steps(),
            _ => drop(self.script.step(task)),
        }
    }

    /// Others act until the task stands at a place, or 200 calls were made.
    pub fn bring_to(&mut self, task: u8, place: u64) {
        for _ in 0..200 {
            if self.script.record(task).place == place {
                break;
            }
            let next = if self.dice.percent(60) { task } else { self.anyone() };
            self.act(next);
        }
    }
}
