//! What came of a run: how many labels went where, and whether all are accounted for.

use super::tasks;
use crate::play::{on_the_way, Missing, Play};
use crate::queue::Machine;
use crate::words::Names;

/// One line of sums, one about the labels, and one about calls that are half done.
pub fn lines<M: Machine>(play: &mut Play<M>, names: &Names) -> Vec<String> {
    if play.queue.control().tasks == 0 {
        return vec!["no queue was opened".into()];
    }
    let accounts = play.accounts.clone();
    let on_the_way = on_the_way(&play.queue);
    let waiting = play.waiting();
    let count = waiting.as_ref().map_or("?".into(), |entries| entries.len().to_string());
    let mut lines = vec![format!(
        "pushed {}, popped {}, waiting {count}, refused {}, no slot {}, told empty {}; retries {}",
        accounts.pushed,
        accounts.popped,
        accounts.refused,
        accounts.no_slot,
        accounts.empty,
        retries(&play.queue, names)
    )];
    lines.push(match waiting {
        Err(_) => {
            let missing = accounts.missing(&on_the_way, &[]);
            format!("LABELS ARE NOT ACCOUNTED FOR: the walk from end to end is broken; {}.", wrong(&missing, "not popped"))
        }
        Ok(entries) => match accounts.missing(&on_the_way, &entries)[..] {
            [] => format!(
                "All labels are accounted for: pushed {} = popped {} + on the way out {} + waiting {}.",
                accounts.pushed,
                accounts.popped,
                on_the_way.len(),
                entries.len()
            ),
            ref missing => format!("LABELS ARE NOT ACCOUNTED FOR: {}.", wrong(missing, "lost")),
        },
    });
    lines.extend(half_done(&play.queue, names));
    lines
}

/// What became of labels that were pushed more often than they are found, and of the others.
fn wrong(missing: &[Missing], gone: &str) -> String {
    let told: Vec<String> = missing
        .iter()
        .map(|Missing { label, copies }| match copies {
            1 => format!("{label} is {gone}"),
            2.. => format!("{copies} copies of {label} are {gone}"),
            -1 => format!("{label} is there once more than it was pushed"),
            _ => format!("{label} is there {} times more than it was pushed", -copies),
        })
        .collect();
    told.join(", ")
}

fn retries(queue: &impl Machine, names: &Names) -> String {
    let counts: Vec<(u8, u64)> = tasks(queue)
        .filter_map(|task| Some((task, queue.record(task)?.retries)))
        .filter(|&(_, count)| count > 0)
        .collect();
    let all: u64 = counts.iter().map(|(_, count)| count).sum();
    let each: Vec<String> = counts
        .iter()
        .map(|(task, count)| format!("{count} by {}", names.the_task(*task)))
        .collect();
    match each.is_empty() {
        true => "0".into(),
        false => format!("{all} ({})", each.join(", ")),
    }
}

fn half_done(queue: &impl Machine, names: &Names) -> Option<String> {
    let busy: Vec<String> = tasks(queue)
        .filter_map(|task| Some((task, queue.record(task)?)))
        .filter(|(_, record)| record.place != 0)
        .map(|(task, record)| {
            format!("{}: {}", names.the_task(task), crate::words::standing(&record))
        })
        .collect();
    (!busy.is_empty()).then(|| format!("Half done: {}.", busy.join(", ")))
}
