//! Text laid into columns.

use crate::queue::{Machine, Side};
use crate::words::status;
use zeppolecape::{link_slot, link_tag};

/// The labels that a row shows at the most: some lines of them.
pub fn most_labels(width: usize) -> usize {
    (width / 4).max(8)
}

/// The words of a text on lines of so many letters; a longer word has a line to itself.
pub fn wrapped(text: &str, width: usize) -> Vec<String> {
    let mut lines = vec![String::new()];
    for word in text.split(' ') {
        let line = lines.last_mut().expect("there is a line");
        if line.is_empty() {
            line.push_str(word);
        } else if line.len() + 1 + word.len() <= width {
            line.push(' ');
            line.push_str(word);
        } else {
            lines.push(word.to_string());
        }
    }
    lines
}

/// A word cut to so many letters.
pub fn cut(word: &str, width: usize) -> String {
    word.chars().take(width).collect()
}

/// Anchor and the slots that are, or ever were, in use: label, mark, both link words, and the free slots
/// of a pool.
pub fn slots(queue: &impl Machine) -> String {
    let (control, anchor) = (queue.control(), queue.anchor());
    let link = |sign: char, word: u64| format!("{sign}{}/{}", link_slot(word), link_tag(word));
    let mut parts = vec![format!(
        "Anchor {} {} {}..{}",
        anchor.tag,
        status(anchor.status),
        anchor.left,
        anchor.right
    )];
    for slot in 1..=control.slots {
        let (left, right) = (queue.link(Side::Left, slot), queue.link(Side::Right, slot));
        let (label, taken) = (queue.label(slot), queue.is_taken(slot));
        if (u64::from(label), left, right, taken) != (0, 0, 0, false) {
            let taken = if taken { "" } else { " free" };
            parts.push(format!("{slot}={label} {} {}{taken}", link('<', left), link('>', right)));
        }
    }
    if control.pooled == 1 {
        let free: Vec<String> = queue.free_stack().iter().map(u64::to_string).collect();
        let free = if free.is_empty() { "none".to_string() } else { free.join(" ") };
        parts.push(format!("pool {free}, tag {}", link_tag(control.head)));
    }
    parts.join(" | ")
}
