//! What a page is told of one queue: of each touch what it did and every word that it changed, and each
//! call with its start, its effect and its answer.

use super::json::{array, numbers, object, optional, text};
use crate::play::{Asked, Call, Play, Reply, Touch};
use crate::queue::{Machine, Side};
use crate::run::{Operation, Place};
use crate::view::options::Options;
use crate::view::row::Row;
use crate::view::{sums, tasks};
use crate::words::{self, linked, status};
use std::collections::BTreeMap;
use zeppolecape::{link_slot, link_tag, Anchor, Answer, Record};

/// A call as the time line shows it.
struct Span {
    task: u8,
    call: Call,
    end: Option<u64>,
    told: String,
}

/// The words that were told last, so that only what changed is told.
#[derive(Default)]
struct Told {
    records: Vec<Record>,
    rows: BTreeMap<u64, [u64; 7]>,
    queue: Option<String>,
}

pub struct Recorder<M> {
    play: Play<M>,
    title: String,
    product: bool,
    whole: bool,
    touches: Vec<String>,
    spans: Vec<Span>,
    told: Told,
}

impl<M: Machine> Recorder<M> {
    pub fn of(play: Play<M>, title: String, product: bool) -> Recorder<M> {
        let (touches, spans, told) = (Vec::new(), Vec::new(), Told::default());
        Recorder { play, title, product, whole: true, touches, spans, told }
    }

    pub fn shown(&self) -> u64 {
        self.touches.len() as u64
    }

    pub fn tasks(&self) -> u8 {
        tasks(&self.play.queue).end
    }

    pub fn is_well_formed(&self) -> bool {
        self.whole
    }

    /// Carries out an operation: whether the run goes on.
    pub fn touch(&mut self, at: Place, operation: Operation, options: &Options) -> bool {
        let Some(touch) = self.play.touch(at, operation) else { return false };
        self.whole &= touch.is_well_formed();
        self.span(&touch);
        if options.shows(touch.event) {
            let told = self.told_of(&touch, options);
            self.touches.push(told);
        }
        true
    }

    /// Follows the calls for the time line.
    fn span(&mut self, touch: &Touch) {
        let (Some(task), Some(call)) = (touch.task, touch.call) else { return };
        if call.start == touch.event {
            self.spans.push(Span { task, call, end: None, told: String::new() });
        }
        let Some(span) = self.spans.iter_mut().rfind(|span| span.task == task) else { return };
        span.call = call;
        match touch.reply {
            Reply::Moved(Answer::Running(_)) | Reply::Done => {}
            Reply::Moved(answer) => {
                (span.end, span.told) = (Some(touch.event), words::answer(answer));
            }
            _ => {}
        }
    }

    fn told_of(&mut self, touch: &Touch, options: &Options) -> String {
        let row = Row::of(touch, &mut self.play.queue, options);
        let kind = match touch.reply {
            Reply::Refused(_) | Reply::Malformed => "refused",
            _ if touch.effect => "effect",
            _ if touch.retry().is_some() => "failed",
            _ => "plain",
        };
        let (control, anchor) = (touch.after.0, row.anchor);
        let head = [link_slot(control.head), link_tag(control.head)];
        let mut fields = vec![
            ("event", touch.event.to_string()),
            ("task", optional(touch.task.map(u64::from))),
            ("at", text(&touch.at.to_string())),
            ("what", text(&row.what)),
            ("kind", text(kind)),
            ("effect", touch.effect.to_string()),
            ("anchor", numbers(&[anchor.tag, anchor.status, anchor.left, anchor.right])),
            ("status", text(status(anchor.status))),
            ("word", text(&format!("{:016x}", control.anchor))),
            ("head", numbers(&head)),
        ];
        fields.extend(self.told.records(&row.records));
        fields.extend(self.told.rows(&self.play.queue));
        fields.extend(self.told.queue(&row, &self.play.queue));
        object(&fields)
    }

    /// All of it, with the sums at the end.
    pub fn json(&mut self, options: &Options) -> String {
        let control = self.play.queue.control();
        let spans = self.spans.iter().map(|span| {
            object(&[
                ("task", span.task.to_string()),
                ("text", text(&called(span.call.asked))),
                ("start", span.call.start.to_string()),
                ("effect", optional(span.call.effect)),
                ("end", optional(span.end)),
                ("told", text(&span.told)),
            ])
        });
        let spans = array(spans);
        let sums = sums::lines(&mut self.play, &options.names);
        object(&[
            ("title", text(&self.title)),
            ("product", self.product.to_string()),
            ("slots", control.slots.to_string()),
            ("pooled", (control.pooled == 1).to_string()),
            ("touches", array(std::mem::take(&mut self.touches))),
            ("calls", spans),
            ("sums", array(sums.iter().map(|line| text(line)))),
        ])
    }
}

/// `push L 200`, `pop R`.
fn called(asked: Asked) -> String {
    let letter = |side: u8| if side == 0 { "L" } else { "R" };
    match asked {
        Asked::Push { side, label, .. } => format!("push {} {label}", letter(side)),
        Asked::Pop { side } => format!("pop {}", letter(side)),
        _ => String::new(),
    }
}

impl Told {
    fn records(&mut self, records: &[Record]) -> Option<(&'static str, String)> {
        let old = |task: usize| self.records.get(task);
        let changed: Vec<String> = records
            .iter()
            .enumerate()
            .filter(|(task, record)| old(*task) != Some(record))
            .map(|(task, record)| record_json(task, record))
            .collect();
        self.records = records.to_vec();
        (!changed.is_empty()).then(|| ("records", array(changed)))
    }

    fn rows(&mut self, queue: &impl Machine) -> Option<(&'static str, String)> {
        let mut changed = Vec::new();
        for slot in 1..=queue.control().slots {
            let (left, right) = (queue.link(Side::Left, slot), queue.link(Side::Right, slot));
            let row = [
                u64::from(queue.label(slot)),
                link_slot(left),
                link_tag(left),
                link_slot(right),
                link_tag(right),
                u64::from(queue.is_taken(slot)),
                queue.next(slot),
            ];
            if self.rows.insert(slot, row) != Some(row) {
                changed.push(numbers(&[&[slot], &row[..]].concat()));
            }
        }
        (!changed.is_empty()).then(|| ("rows", array(changed)))
    }

    /// The labels waiting, each with whether the link to the next is made.
    fn queue(&mut self, row: &Row<'_>, queue: &impl Machine) -> Option<(&'static str, String)> {
        let told = match &row.waiting {
            Err(_) if row.records.is_empty() => array([]), // nothing is open
            Err(_) => text(&row.queue),
            Ok(entries) => array(entries.iter().enumerate().map(|(at, &(slot, label))| {
                let next = entries.get(at + 1);
                let made = next.is_none_or(|&(next, _)| linked(queue, slot, next));
                numbers(&[slot, label.into(), u64::from(made)])
            })),
        };
        let changed = self.queue.as_ref() != Some(&told);
        self.queue = Some(told.clone());
        changed.then_some(("queue", told))
    }
}

fn record_json(task: usize, record: &Record) -> String {
    let standing = text(&words::standing(record));
    let fields = [
        ("task", task as u64),
        ("place", record.place),
        ("kind", record.kind),
        ("side", record.side),
        ("own", record.own),
        ("label", record.label.into()),
        ("neighbour", record.neighbour),
        ("finishing", record.finishing),
        ("retries", record.retries),
    ];
    let mut fields: Vec<_> =
        fields.iter().map(|&(name, value)| (name, value.to_string())).collect();
    fields.push(("standing", standing));
    let seen = Anchor::of(record.seen);
    fields.push(("seen", numbers(&[seen.tag, seen.status, seen.left, seen.right])));
    fields.push(("link", numbers(&[link_slot(record.link), link_tag(record.link)])));
    object(&fields)
}
