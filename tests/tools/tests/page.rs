//! `view --html` in a real browser: every touch by key and by slider, and what is then shown against the rows
//! of `view --csv`, which the second program has been held against. Where no browser is on the machine
//! nothing is tried, and that is said.

use std::path::{Path, PathBuf};
use std::process::ExitCode;
use suite::{root, same, Checks, Said, Scratch, Verdict};
use toolsuite::browser::{program, Browser};
use toolsuite::csv::{self, field};
use toolsuite::{content, view};

/// What the page shows, read off what is drawn: a line a field.
const SHOWN: &str = include_str!("shown.js");

const ARROW_RIGHT: (&str, u32) = ("ArrowRight", 39);
const ARROW_LEFT: (&str, u32) = ("ArrowLeft", 37);

/// The fields that `SHOWN` tells, of a row of the spreadsheet.
fn expected(row: &[(String, String)], last: &str, tasks: usize) -> String {
    let standings: Vec<&str> = (8..8 + tasks).map(|at| row[at].1.as_str()).collect();
    let queue = field(row, "queue").trim_matches(['[', ']']).to_string();
    let written = if queue.is_empty() { "empty" } else { &queue };
    let end = |name| match field(row, name) {
        "0" => "null".to_string(),
        slot => format!("box {slot}"),
    };
    let (what, event) = (field(row, "what it did"), field(row, "event"));
    let anchor = format!("Anchor · tag {} · {}", field(row, "tag"), field(row, "status"));
    let lines = [
        format!("touch {event} of {last}"),
        what.to_string(),
        if field(row, "effect").is_empty() { "" } else { "takes effect" }.to_string(),
        anchor,
        format!("left end {}, right end {}", end("left end"), end("right end")),
        queue.clone(),
        standings.join(", "),
        [&[event, what], &standings[..], &[written]].concat().join(" / "),
        event.to_string(),
    ];
    lines.join("\n")
}

struct Trial {
    browser: Browser,
    rows: Vec<Vec<(String, String)>>,
    tasks: usize,
    page: PathBuf,
    _scratch: Scratch,
}

impl Trial {
    fn of(run: &Path, program: &Path, words: &str) -> Result<Trial, String> {
        let scratch = Scratch::make();
        let html = shown(view(&format!("--html {words} \"$RUN\""), run))?;
        let page = scratch.file("page.html", html.as_bytes());
        let rows = csv::rows(&shown(view("--csv \"$RUN\"", run))?);
        let tasks = rows[0].iter().filter(|(name, _)| name.starts_with("task ")).count();
        let mut browser = Browser::start(program)?;
        browser.load(&page)?;
        Ok(Trial { browser, rows, tasks, page, _scratch: scratch })
    }

    fn shows(&mut self, at: usize, how: &str) -> Verdict {
        let last = field(&self.rows[self.rows.len() - 1], "event").to_string();
        let wanted = expected(&self.rows[at], &last, self.tasks);
        let shown = self.browser.ask(SHOWN)?;
        match wanted == shown {
            true => Ok(()),
            false => Err(format!("  by {how}\n  expected {wanted:?}\n  shown    {shown:?}")),
        }
    }

    /// On by the arrow key to the end, back by the other, and every place of the slider.
    fn every_touch(&mut self) -> Verdict {
        let count = self.rows.len();
        self.shows(0, "loading")?;
        for at in 1..count {
            self.browser.press(ARROW_RIGHT.0, ARROW_RIGHT.1)?;
            self.shows(at, "the key to the right")?;
        }
        self.browser.press(ARROW_RIGHT.0, ARROW_RIGHT.1)?;
        self.shows(count - 1, "the key to the right at the end")?;
        for at in (0..count - 1).rev() {
            self.browser.press(ARROW_LEFT.0, ARROW_LEFT.1)?;
            self.shows(at, "the key to the left")?;
        }
        for at in (0..count).map(|at| (at * 7 + 3) % count) {
            let moved = format!(
                "(() => {{ const slider = document.getElementById('slider'); slider.value = {at}; \
                 slider.dispatchEvent(new Event('input')); return slider.value; }})()"
            );
            same(at.to_string(), self.browser.ask(&moved)?)?;
            self.shows(at, "the slider")?;
        }
        Ok(())
    }

    /// It asked for itself and for nothing else, and has nothing that could.
    fn asks_nobody(&self) -> Verdict {
        let own = format!("file://{}", self.page.display());
        let others: Vec<&String> = self
            .browser
            .requests
            .iter()
            .filter(|address| **address != own && !address.starts_with("data:"))
            .collect();
        same(Vec::<&String>::new(), others)
    }
}

/// What `view` wrote; it ends with status 1 where the run is malformed.
fn shown(said: Said) -> Result<String, String> {
    match (said.status, said.noise.as_str()) {
        (0 | 1, "") => String::from_utf8(said.out).map_err(|error| format!("  {error}")),
        (status, noise) => Err(format!("  status {status}, {noise}")),
    }
}

fn trial(run: &Path, program: &Path, words: &str) -> Verdict {
    let mut trial = Trial::of(run, program, words)?;
    trial.every_touch()?;
    trial.asks_nobody()
}

/// Runs that are no example: nothing opened, everything at its most, names of letters that a page could
/// take for its own.
const ODD: [(&str, &str, &str); 4] = [
    ("malformed at once", "pop 0 left\n", ""),
    ("an opening refused", "open 17 1 0\n", ""),
    ("malformed on the way", "open 1 1 0\npush 0 left 1 4294967295\nraw ff\n", ""),
    (
        "16 tasks and 1,023 slots",
        "open 16 1023 4294967262 pooled\npush 15 right 0\nstep 15*5\npop 0 left\nstep 0*3 16\n",
        "--names '3=<b>&\"x\"</script>'",
    ),
];

fn in_a_browser(checks: &mut Checks, program: PathBuf) {
    for (name, run) in suite::texts("examples") {
        let program = program.clone();
        checks.add(&format!("in a browser: {name}"), move || trial(&run, &program, ""));
    }
    for (name, text, words) in ODD {
        let program = program.clone();
        checks.add(&format!("in a browser: {name}"), move || {
            let scratch = Scratch::make();
            trial(&scratch.file("run.txt", text.as_bytes()), &program, words)
        });
    }
    checks.add("in a browser: a wrong queue beside it", move || {
        trial(&root().join("examples/without_8.txt"), &program, "--without 8")
    });
}

fn main() -> ExitCode {
    let mut checks = toolsuite::checks("page");
    match program() {
        None => println!("NOT TRIED: the page in a browser; there is no chromium on the PATH"),
        Some(program) => in_a_browser(&mut checks, program),
    }
    checks.add("nothing in it names another place", || {
        let run = root().join("examples/a_helping_hand.txt");
        let page = content(view("--html \"$RUN\"", &run))?;
        let outside = ["http://", "https://", "src=", "@import", "url(h"];
        let named = |word: &&str| page.replace("http://www.w3.org/2000/svg", "").contains(*word);
        same(Vec::new(), outside.into_iter().filter(named).collect::<Vec<_>>())
    });
    checks.main()
}
