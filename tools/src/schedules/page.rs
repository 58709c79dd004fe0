//! The outcomes as one page for a browser: a line an outcome, and below it the order chosen, as `view`
//! shows it.

use super::ending;
use super::outcome::{counted, Order, Outcome, Outcomes, Told};
use super::rest::Rest;
use crate::say::Stop;
use crate::view::{self, json};
use crate::words;
use std::collections::BTreeMap;
use std::io::Write;

/// Outcomes that a page holds at the most; a run has a few.
const MOST_OUTCOMES: usize = 100;

const PAGE: &str = include_str!("page.html");

pub fn write(rest: &Rest, outcomes: &Outcomes, out: &mut dyn Write) -> Result<(), Stop> {
    if outcomes.all.len() > MOST_OUTCOMES {
        return Err(Stop::failed(format!("--html shows at most {MOST_OUTCOMES} outcomes")));
    }
    let mut orders = BTreeMap::new();
    for outcome in &outcomes.all {
        for Order { number, schedule } in [&outcome.first, &outcome.shortest] {
            let text = rest.with(*number, schedule);
            orders.insert(*number, view::page(&format!("order {number}"), text)?);
        }
    }
    let fields: Vec<(String, String)> =
        orders.iter().map(|(number, page)| (number.to_string(), json::text(page))).collect();
    let fields: Vec<(&str, String)> =
        fields.iter().map(|(number, page)| (number.as_str(), page.clone())).collect();
    let rows: String = outcomes.all.iter().map(row).collect();
    let count = format!(
        "{}, {}",
        counted(outcomes.orders, "order"),
        counted(outcomes.all.len() as u64, "outcome")
    );
    let page = PAGE
        .replace("{{title}}", &view::escaped(&view::title(&rest.name)))
        .replace("{{count}}", &count)
        .replace("{{rows}}", &rows)
        .replace("{{orders}}", &json::object(&fields));
    Ok(out.write_all(page.as_bytes())?)
}

/// A line of the table.
fn row(outcome: &Outcome) -> String {
    let Told { answers, ending: end, .. } = &outcome.told;
    let answers = answers.map(|answer| answer.map_or("not answered".into(), words::answer));
    let waits = outcome.told.waits() + ending(*end);
    let cells: String = answers
        .into_iter()
        .chain([waits])
        .map(|text| format!("<td>{}</td>", view::escaped(&text)))
        .collect();
    let button = |what: &str, Order { number, schedule }: &Order| {
        let steps = counted(schedule.tasks.len() as u64, "step");
        format!(
            "<td><button type=\"button\" data-order=\"{number}\">{what}: order {number}, {steps}</button></td>"
        )
    };
    let looks = match outcome.first.number == outcome.shortest.number {
        true => button("the first", &outcome.first) + "<td></td>",
        false => button("the first", &outcome.first) + &button("the shortest", &outcome.shortest),
    };
    format!("<tr><td>{}</td>{cells}{looks}</tr>\n", outcome.orders)
}
