//! A run as one page for a browser, with all that it needs in it: it asks nobody for anything, and its
//! policy forbids it to.

pub mod json;
mod recorder;

use super::options::Options;
use crate::play::Play;
use crate::queue::Library;
use crate::run::Run;
use crate::say::Stop;
use crate::wrong::Wrong;
use json::{array, object, text};
use recorder::Recorder;
use std::io::{self, Write};

/// The touches that a page holds at the most.
pub const MOST_TOUCHES: u64 = 4_000;

const PAGE: &str = include_str!("html/page.html");
const STYLE: &str = include_str!("html/page.css");
const SCRIPTS: [&str; 4] = [
    include_str!("html/states.js"),
    include_str!("html/queue.js"),
    include_str!("html/timeline.js"),
    include_str!("html/page.js"),
];

/// Writes the page: whether the run was well-formed.
pub fn page(mut run: Run, options: &Options, out: &mut dyn Write) -> Result<bool, Stop> {
    let mut product = Recorder::of(Play::of(Library::default()), "The product".into(), true);
    let mut other = options.without.map(|(fault, said)| {
        let title = format!("Not the product: {said}");
        Recorder::of(Play::of(Wrong::with(fault)), title, false)
    });
    while let Some((at, operation)) = run.next()? {
        if !product.touch(at, operation, options) {
            break;
        }
        if let Some(other) = &mut other {
            other.touch(at, operation, options);
        }
        if product.shown() > MOST_TOUCHES {
            return Err(Stop::failed(format!(
                "--html shows at most {MOST_TOUCHES} touches; choose some by --from and --to"
            )));
        }
    }
    if product.shown() == 0 {
        return Err(Stop::failed("no touch is left to be shown"));
    }
    let mut machines = vec![product.json(options)];
    machines.extend(other.iter_mut().map(|other| other.json(options)));
    let names = (0..product.tasks()).map(|task| text(&options.names.the_task(task)));
    let data = object(&[
        ("name", text(&title(run.name()))),
        ("names", array(names)),
        ("machines", array(machines)),
    ]);
    write(&title(run.name()), &data, out)?;
    Ok(product.is_well_formed())
}

fn write(title: &str, data: &str, out: &mut dyn Write) -> io::Result<()> {
    let script = format!("(function () {{\n'use strict';\n{}}})();", SCRIPTS.concat());
    let page = PAGE
        .replace("{{title}}", &escaped(title))
        .replace("{{style}}", STYLE)
        .replace("{{script}}", &script)
        .replace("{{run}}", data);
    out.write_all(page.as_bytes())
}

/// The file's name without its folders and its ending.
pub fn title(name: &str) -> String {
    let file = name.rsplit('/').next().unwrap_or(name);
    file.strip_suffix(".txt").unwrap_or(file).replace('_', " ")
}

pub fn escaped(text: &str) -> String {
    text.replace('&', "&amp;").replace('<', "&lt;")
}
