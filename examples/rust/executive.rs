//! A small executive: five tasks share one label queue and take turns at random, one touch at a
//! time. Three scales push labels at the right, the reprint desk pushes at the left, and the print
//! head pops at the left. Slots come from the queue's pool; while there is none a push is started
//! again. At the end every label that was pushed must have reached the head once, or still be
//! waiting.
//!
//! ```text
//! make
//! cargo run --release -p executive [seed]
//! ```

use std::process::ExitCode;
use zeppolecape::{Answer, Queue, Refusal, Side, POOLED_PUSH_STEPS};

const TASKS: usize = 5;
const HEAD: usize = 0;
const DESK: usize = 4;
const SLOTS: u64 = 12;
const TOUCHES: usize = 1_000;

/// What became of a label.
#[derive(Clone, Copy, Default)]
struct Fate {
    pushed: u32,
    printed: u32,
    waiting: u32,
}

struct Executive {
    queue: Queue,
    /// The n-th label that was started is n.
    fates: Vec<Fate>,
    under_way: [usize; TASKS],
    /// The task's label found no slot.
    put_off: [bool; TASKS],
    printed: usize,
}

impl Executive {
    /// An idle task starts its next call, a busy one makes one step.
    fn touch(&mut self, task: usize) -> Result<(), Refusal> {
        match self.queue.records()[task].place {
            0 => self.start(task),
            _ => self.step(task),
        }
    }

    /// The next call, or a push that was put off.
    fn start(&mut self, task: usize) -> Result<(), Refusal> {
        if task == HEAD {
            self.queue.pop(HEAD, Side::Left)?;
            return Ok(());
        }
        let side = if task == DESK { Side::Left } else { Side::Right };
        if !self.put_off[task] {
            self.under_way[task] = self.fates.len();
            self.fates.push(Fate::default());
        }
        self.put_off[task] = false;
        self.queue.push_pooled(task, side, self.under_way[task] as u32)?;
        Ok(())
    }

    fn step(&mut self, task: usize) -> Result<(), Refusal> {
        match self.queue.step(task)? {
            Answer::Pushed => self.fates[self.under_way[task]].pushed += 1,
            Answer::Popped { label, .. } => {
                self.printed += 1;
                print!("{label:3}{}", if self.printed % 20 == 0 { "\n" } else { " " });
                self.fates[label as usize].printed += 1;
            }
            Answer::NoFreeSlot => self.put_off[task] = true,
            Answer::Running(_) | Answer::Empty => {}
        }
        Ok(())
    }
}

fn random_below(state: &mut u64, limit: u64) -> u64 {
    *state ^= *state << 13;
    *state ^= *state >> 7;
    *state ^= *state << 17;
    (*state >> 20) % limit
}

fn run(seed: u64) -> Result<bool, Refusal> {
    let queue = Queue::open_pooled(TASKS as u64, SLOTS, 0)?;
    let (under_way, put_off) = ([0; TASKS], [false; TASKS]);
    let mut executive = Executive { queue, fates: Vec::new(), under_way, put_off, printed: 0 };
    let mut state = seed.wrapping_mul(0x9e37_79b9_7f4a_7c15) | 1;
    println!("the head got:");
    for _ in 0..TOUCHES {
        executive.touch(random_below(&mut state, TASKS as u64) as usize)?;
    }
    // Alone, a task answers within a few steps; one that does not stays busy in the report.
    for task in 0..TASKS {
        for _ in 0..POOLED_PUSH_STEPS {
            if executive.queue.records()[task].place != 0 {
                executive.step(task)?;
            }
        }
    }
    let Executive { queue, mut fates, printed, put_off, .. } = executive;
    let report = queue.report();
    let waiting = queue.waiting();
    for &(_, label) in &waiting {
        fates[label as usize].waiting += 1;
    }
    let left_over = put_off.iter().filter(|&&put_off| put_off).count();
    let (pushed, count) = (fates.len() - left_over, waiting.len());
    print!("\n{pushed} pushed, {printed} printed, {count} waiting; retries by task:");
    report.retries[..TASKS].iter().for_each(|count| print!(" {count}"));
    println!();
    let mut lost = report.busy != 0 || report.waiting != count as u64 || printed + count != pushed;
    for (label, fate) in fates.iter().enumerate() {
        let Fate { pushed, printed, waiting } = *fate;
        if pushed > 1 || printed + waiting != pushed {
            println!("label {label}: pushed {pushed}, printed {printed}, waiting {waiting}");
            lost = true;
        }
    }
    println!("{}", if lost { "LOST a label" } else { "no label lost" });
    Ok(!lost)
}

fn main() -> ExitCode {
    let seed = std::env::args().nth(1).and_then(|text| text.parse().ok()).unwrap_or(1);
    match run(seed) {
        Ok(true) => ExitCode::SUCCESS,
        Ok(false) => ExitCode::FAILURE,
        Err(refusal) => {
            eprintln!("refused {refusal}");
            ExitCode::from(2)
        }
    }
}
