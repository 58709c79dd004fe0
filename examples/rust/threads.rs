//! Five threads share one label queue without a lock: two scales push at the right, the reprint desk
//! pushes at the left, the print head pops at the left, and a cancel pops at the right. Slots come from
//! the queue's pool; a push that finds none is made again. At the end every label was printed once
//! or cancelled once, and none waits.
//!
//! ```text
//! make
//! cargo run --release -p executive --bin threads
//! ```

use std::process::ExitCode;
use std::sync::atomic::{AtomicUsize, Ordering};
use std::thread;
use zeppolecape::{Answer, Handle, Refusal, SharedQueue, Side};

const WRITERS: u32 = 3;
const DESK: u32 = 2;
const SLOTS: u64 = 100;
/// Of each writer: the n-th of task t is WRITERS * n + t.
const LABELS: u32 = 20_000;

/// A scale, or the desk.
fn write(mut handle: Handle<'_>, task: u32, writing: &AtomicUsize) -> Result<(), Refusal> {
    let side = if task == DESK { Side::Left } else { Side::Right };
    for at in 0..LABELS {
        while handle.push(side, WRITERS * at + task)? != Answer::Pushed {
            thread::yield_now(); // every slot is in use
        }
    }
    writing.fetch_sub(1, Ordering::SeqCst);
    Ok(())
}

/// The head or the cancel, until the writers have ended and nothing waits: the labels that it got.
fn read(mut handle: Handle<'_>, side: Side, writing: &AtomicUsize) -> Result<Vec<u32>, Refusal> {
    let mut got = Vec::new();
    loop {
        let last = writing.load(Ordering::SeqCst) == 0;
        match handle.pop(side)? {
            Answer::Popped { label, .. } => got.push(label),
            _ if last => return Ok(got),
            _ => thread::yield_now(),
        }
        if side == Side::Right {
            thread::yield_now(); // the cancel comes less often
        }
    }
}

fn run() -> Result<bool, Refusal> {
    let mut shared = SharedQueue::open_pooled(u64::from(WRITERS) + 2, SLOTS, 0)?;
    let writing = &AtomicUsize::new(WRITERS as usize);
    let mut handles = shared.handles();
    let (printed, cancelled) = thread::scope(|threads| {
        let writers: Vec<_> = (0..WRITERS)
            .zip(handles.by_ref())
            .map(|(task, handle)| threads.spawn(move || write(handle, task, writing)))
            .collect();
        let mut reader = |side| {
            let handle = handles.next().unwrap();
            threads.spawn(move || read(handle, side, writing))
        };
        let (head, cancel) = (reader(Side::Left), reader(Side::Right));
        for writer in writers {
            writer.join().unwrap()?;
        }
        Ok((head.join().unwrap()?, cancel.join().unwrap()?))
    })?;

    // At rest: any other call may look.
    let queue = shared.into_queue();
    let report = queue.report();
    let mut times = vec![0; (WRITERS * LABELS) as usize];
    for &label in printed.iter().chain(&cancelled) {
        times[label as usize] += 1;
    }
    let (printed, cancelled) = (printed.len(), cancelled.len());
    println!("{} pushed, {printed} printed, {cancelled} cancelled", WRITERS * LABELS);
    let lost = times.iter().filter(|&&times| times != 1).count();
    let well = lost == 0 && report.busy == 0 && report.waiting == 0;
    println!("{}", if well { "no label lost".to_string() } else { format!("LOST {lost} labels") });
    Ok(well)
}

fn main() -> ExitCode {
    match run() {
        Ok(true) => ExitCode::SUCCESS,
        Ok(false) => ExitCode::FAILURE,
        Err(refusal) => {
            eprintln!("refused {refusal}");
            ExitCode::from(2)
        }
    }
}
