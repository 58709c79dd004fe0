//! The program `verdict`: what it says of a text, its streams, the example histories, and runs of the
//! program `trace` written as histories by `tools/history`, which must pass.

use std::fs::{read, read_dir, read_to_string};
use std::path::{Path, PathBuf};
use std::process::ExitCode;
use suite::{root, same, shell, texts, Checks, Scratch, Verdict};

const PUSH: &str = "0 push right 700 pushed 1 3\n";
const THREE: &str =
    "0 push right 700 pushed 1 3\n0 pop left - empty 4 11\n1 pop right 700 popped 5 10\n";

/// What follows the three calls above, and the verdict.
const ORDERS: [(&str, &str); 7] = [
    ("order 1 3 2", "passes"),
    ("order 1 2 3", "fails at 2"),
    ("order 2 1 3", "fails at 1"),
    ("order 1 3 3", "no rearrangement"),
    ("order 1 3", "no rearrangement"),
    ("order 1 3 2 4", "no rearrangement"),
    ("order 1 3 0", "no rearrangement"),
];

/// Whole texts, and their verdict.
const TEXTS: [(&str, &str); 19] = [
    ("order", "passes"),
    ("order 1", "no rearrangement"),
    ("0 0 1 700 2 1 3\n0 1 0 5 3 4 11\n1 1 1 700 4 5 10\norder 1 3 2", "passes"),
    ("0 pop left 18446744073709551615 empty 0 18446744073709551615\norder 1", "passes"),
    ("0 pop left - empty 3 3\norder 1", "refused 40"),
    ("0 pop left - empty 4 3\norder 1", "refused 40"),
    ("0 pop left - empty 1 2\n1 pop left - empty 2 3\norder 1 2", "refused 40"),
    ("0 2 left - empty 1 2\norder 1", "refused 40"),
    ("0 pop 2 - empty 1 2\norder 1", "refused 40"),
    ("0 pop left 700 1 1 2\norder 1", "refused 40"),
    ("0 pop left 700 5 1 2\norder 1", "refused 40"),
    ("0 pop left - 3 1 2\norder 1", "passes"),
    ("0 push left - empty 1 2\norder 1", "fails at 1"),
    ("0 push left 1 empty 1 2\norder 1", "fails at 1"),
    ("0 pop left - empty 4 11\n1 pop right 5 empty 12 13\norder 1 2", "passes"),
    (
        "# 0 push right 700 pushed 1 3\n\t\r\n  0   push\tright 700 pushed 1 3 # a comment\r\n\n#\norder # here\n\n 1#\n",
        "passes",
    ),
    ("0 push right 700 pushed 1 3\norder 1", "passes"),
    ("0 pop left - empty 3 4\n0 pop left - empty 3 5\norder 1 2", "refused 40"),
    ("0 pop left - empty 3 5\n0 pop left - empty 4 5\norder 1 2", "refused 40"),
];

const MISSING: &str =
    "verdict: the order is missing; it is the last line, `order` and the calls' numbers";
const SEVEN: &str = "a call has seven words: task, kind, side, label, answer, start, end";
const KIND: &str = "`push` or `pop` is wanted";
const FIRST: &str = "a task's number or `order` is wanted";
const EVENT: &str = "an event's number is wanted";
const NUMBER: &str = "a call's number is wanted";
const ABOVE: &str = "a number is above 18446744073709551615";
const UNLABELLED: &str = "`-` stands for a label only with `empty`";

/// Texts that cannot be read, the line, and the message.
const UNREADABLE: [(&str, u32, &str); 29] = [
    ("task push right 700 pushed 1 3\norder 1", 1, FIRST),
    ("\n\n0 pushed right 700 pushed 1 3\norder 1", 3, KIND),
    (
        "0 push right 700 pushed 1 3\n0 pop up - empty 4 5\norder 1",
        2,
        "`left` or `right` is wanted",
    ),
    ("0 pop left none empty 4 5\norder 1", 1, "a label or `-` is wanted"),
    ("0 pop left - nothing 4 5\norder 1", 1, "`pushed`, `empty` or `popped` is wanted"),
    ("0 pop left - empty four 5\norder 1", 1, EVENT),
    ("0 pop left - empty 4 -5\norder 1", 1, EVENT),
    ("0 push right 700 pushed 1 3\norder 1 two", 2, NUMBER),
    ("0 push right 700 pushed 1 3\norder 1\n0 pop left - empty 4 5\n", 3, NUMBER),
    ("0 pop left - empty 4\norder 1", 1, SEVEN),
    ("0 pop left - empty 4 5 6\norder 1", 1, SEVEN),
    ("0 pop left - empty 4 5 order 1", 1, SEVEN),
    ("18446744073709551616 pop left - empty 4 5\norder 1", 1, ABOVE),
    ("0 pop left - empty 4 99999999999999999999\norder 1", 1, ABOVE),
    ("0 xxxxxxxxpush left 1 pushed 4 5\norder 1", 1, KIND),
    ("0 push\0 left 1 pushed 4 5\norder 1", 1, KIND),
    ("0 PUSH left 1 pushed 4 5\norder 1", 1, KIND),
    ("0 \0push left 1 pushed 4 5\norder 1", 1, KIND),
    ("0 push left 1 \0\0pushed 4 5\norder 1", 1, "`pushed`, `empty` or `popped` is wanted"),
    ("0 pushpush left 1 pushed 4 5\norder 1", 1, KIND),
    ("\0order 1", 1, FIRST),
    ("0 push right 700 pushed 1 3\norders 1", 2, FIRST),
    ("0 push left - pushed 1 2\norder 1", 1, UNLABELLED),
    ("0 push right 700 pushed 1 3\n0 pop left - popped 4 5\norder 1 2", 2, UNLABELLED),
    ("0 pop left - 4 1 2\norder 1", 1, UNLABELLED),
    ("0 pop left - 5 1 2\norder 1", 1, UNLABELLED),
    (
        "0 pop left - empty 4 11\n1 pop - 700 popped 5 10\norder 1 2",
        2,
        "`left` or `right` is wanted",
    ),
    ("0 pop left - empty 4 5\norder 1 18446744073709551616", 2, ABOVE),
    ("0 pop left - empty 4 5\norder -", 2, NUMBER),
];

/// Output and then noise of a line of shell, one line end left out.
fn words(line: &str, names: &[(&str, &Path)]) -> String {
    let said = shell(line, names);
    let all = String::from_utf8_lossy(&said.out) + said.noise.as_str();
    all.trim_end_matches('\n').to_string()
}

/// A text gets this verdict or message.
fn gets(text: &[u8], expected: &str) -> Verdict {
    let scratch = Scratch::make();
    let text = scratch.file("history", text);
    same(expected.to_string(), words(r#"timeout 20 "$VERDICT" < "$TEXT""#, &[("TEXT", &text)]))
}

/// So many pops of an empty queue, in their order; then `more` numbers too many.
fn pops(count: usize, more: usize) -> Vec<u8> {
    let mut text = String::new();
    (1..=count).for_each(|n| text += &format!("0 pop left - empty {} {}\n", 2 * n, 2 * n + 1));
    text += "order";
    (1..=count).chain(1..=more).for_each(|n| text += &format!(" {n}"));
    text.into_bytes()
}

fn tables(checks: &mut Checks) {
    let shown = |text: &str| text.escape_debug().to_string();
    for (order, expected) in ORDERS {
        checks.add(order, move || gets(format!("{THREE}{order}\n").as_bytes(), expected));
    }
    for (text, expected) in TEXTS {
        checks.add(&format!("text: {}", shown(text)), move || gets(text.as_bytes(), expected));
    }
    for (text, line, message) in UNREADABLE {
        checks.add(&format!("unreadable: {}", shown(text)), move || {
            gets(text.as_bytes(), &format!("verdict: line {line}: {message}"))
        });
    }
    for text in ["", PUSH, "# order 1\n"] {
        checks.add(&format!("no order: {}", shown(text)), move || gets(text.as_bytes(), MISSING));
    }
    let counts = [
        (64, 0, "passes"),
        (65, 0, "refused 40"),
        (1_000, 0, "refused 40"),
        (64, 1, "no rearrangement"),
        (64, 5_000, "no rearrangement"),
    ];
    for (count, more, expected) in counts {
        checks.add(&format!("{count} calls, {more} numbers too many"), move || {
            gets(&pops(count, more), expected)
        });
    }
    checks.add("65,536 bytes", || gets(&[b'#'; 65_536], "verdict: longer than 65535 bytes"));
    checks.add("65,535 bytes", || gets(&[b'#'; 65_535], MISSING));
}

fn streams(checks: &mut Checks) {
    let lines = [
        ("help", r#""$VERDICT" --help < /dev/null | head -1"#, "usage: verdict < HISTORY"),
        ("a folder as input", r#""$VERDICT" < /"#, "verdict: cannot read"),
        ("a full device", r#"echo order | "$VERDICT" > /dev/full"#, "verdict: cannot write"),
        (
            "a slow pipe",
            r#"for piece in '0 push ri' 'ght 700 pushed 1' $' 3\n0' ' pop left - empty 4 11' $'\n1 pop right 700 po' $'pped 5 10\nor' 'der 1' ' 3 2'; do
                   printf '%s' "$piece"; sleep 0.02; done | "$VERDICT""#,
            "passes",
        ),
    ];
    for (name, line, expected) in lines {
        checks.add(&format!("streams: {name}"), move || {
            same(expected.to_string(), words(&format!("{{ {line}; }} 2>&1"), &[]))
        });
    }
}

/// Example histories: the first line of each tells its verdict.
fn examples(checks: &mut Checks) {
    let folder = read_dir(root().join("examples")).expect("the examples");
    let paths = folder.map(|entry| entry.expect("an entry").path());
    let histories: Vec<PathBuf> =
        paths.filter(|path| path.extension().is_some_and(|end| end == "history")).collect();
    assert!(!histories.is_empty(), "no example histories");
    for path in histories {
        let name = path.file_name().unwrap_or_default().to_string_lossy().into_owned();
        checks.add(&format!("example {name}"), move || {
            let text = read_to_string(&path).map_err(|error| error.to_string())?;
            let verdict = text.lines().next().and_then(|line| line.strip_prefix("# "));
            gets(text.as_bytes(), verdict.ok_or("  its first line tells no verdict")?)
        });
    }
}

const HISTORY: &str = r#""$ROOT/tools/runfile" "$TEXT" 2> /dev/null | "$TRACE" 2> /dev/null | "$ROOT/tools/history" "$TEXT""#;

/// Whether there is a history; it passes. There is none of a run that is malformed or left unanswered.
fn passes(text: &Path) -> Result<bool, String> {
    let said = shell(HISTORY, &[("TEXT", text)]);
    let reasons = ["raw bytes", "malformed", "opening is refused", "is not answered"];
    match said.status {
        0 => gets(&said.out, "passes").map(|()| true),
        _ if reasons.iter().any(|reason| said.noise.contains(reason)) => Ok(false),
        _ => Err(format!("  no history, and no reason: {}", said.noise)),
    }
}

fn runs(checks: &mut Checks) {
    checks.tell("runs of examples/ and tests/cases/", || {
        let all = [texts("examples"), texts("tests/cases")].concat();
        let mut audited = 0;
        for (name, text) in &all {
            audited += u32::from(passes(text).map_err(|what| format!("  {name}\n{what}"))?);
        }
        match audited {
            20.. => Ok(format!("{audited} histories of {} runs pass", all.len())),
            _ => Err(format!("  only {audited} histories")),
        }
    });
    checks.add("a byte-order mark and carriage returns", || {
        let example = root().join("examples/two_hands_on_one_label.txt");
        let text = String::from_utf8_lossy(&read(&example).unwrap_or_default()).into_owned();
        let scratch = Scratch::make();
        let marked = scratch
            .file("marked.txt", format!("\u{feff}{}", text.replace('\n', "\r\n")).as_bytes());
        let history = words(HISTORY, &[("TEXT", &example)]);
        same(true, history.contains("order "))?;
        same(history, words(HISTORY, &[("TEXT", &marked)]))
    });
    checks.add("a trace of another run", || {
        let line = r#""$ROOT/tools/runfile" tests/cases/pop_on_empty.txt | "$TRACE" | "$ROOT/tools/history" examples/first_labels.txt"#;
        same("tools/history: event 2: the trace is of another run".to_string(), words(line, &[]))
    });
}

fn main() -> ExitCode {
    let mut checks = Checks::of("histories");
    runs(&mut checks);
    tables(&mut checks);
    streams(&mut checks);
    examples(&mut checks);
    checks.main()
}
