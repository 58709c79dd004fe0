//! The command line of `view`: its help, wrong words, wrong runs, and long ones.

use reference::dice::Dice;
use reference::scenario;
use std::path::Path;
use std::process::ExitCode;
use suite::{root, same, shell, Checks, Scratch, Verdict};
use toolsuite::{content, same_lines, view};

/// Words behind `view`, with `RUN` naming a good run: the status, and how its complaint begins.
const WRONG: [(&str, i32, &str); 16] = [
    ("--what", 2, "view: unknown option --what\nusage: tools/view"),
    ("-x \"$RUN\"", 2, "view: unknown option -x\nusage: tools/view"),
    ("\"$RUN\" \"$RUN\"", 2, "view: one run at a time, and "),
    ("--names", 2, "view: --names needs a value behind it\nusage:"),
    ("--names 0 \"$RUN\"", 2, "view: not TASK=NAME: 0\nusage:"),
    ("--names x=y \"$RUN\"", 2, "view: no number of a task: x\nusage:"),
    ("--names 0=a,0=b \"$RUN\"", 2, "view: task 0 has two names\nusage:"),
    ("--names 0= \"$RUN\"", 2, "view: no name for task 0: \"\"\nusage:"),
    ("--from one \"$RUN\"", 2, "view: --from takes a number, and not one\nusage:"),
    (
        "--without 7 \"$RUN\"",
        2,
        "view: --without takes one of 8, tags, marks, ends, once, and not 7\n",
    ),
    ("--without 8 --csv \"$RUN\"", 2, "view: --without has no form for a spreadsheet\nusage:"),
    ("/nowhere", 1, "view: cannot open /nowhere: "),
    ("/", 1, "view: cannot read /: "),
    ("--html --from 99 \"$RUN\"", 1, "view: no touch is left to be shown\n"),
    ("\"$ROOT/README.md\"", 1, "view: "),
    ("\"$RUN\" >/dev/full", 1, "view: cannot write: "),
];

/// Texts: the status, the complaint, and the last line of what was shown before it.
const TEXTS: [(&str, i32, &str, &str); 6] = [
    (
        "open 1 1 0\njump 0\n",
        1,
        "view: standard input:2: unknown operation: jump\n",
        "opens: tasks 1",
    ),
    (
        "open 1 1 0\npush 0 up 1 1\n",
        1,
        "view: standard input:2: side is not left, right or a number: up\n",
        "opens",
    ),
    ("open 1 1 0\nraw ff\n", 1, "", "no slot 0"),
    ("pop 0 left\n", 1, "", "no queue was opened"),
    ("", 1, "", "no queue was opened"),
    ("open 17 1 0\n", 0, "", "no queue was opened"),
];

fn with_text(text: &str, words: &str) -> suite::Said {
    let scratch = Scratch::make();
    let text = scratch.file("text", text.as_bytes());
    shell(&format!("\"$ROOT/tools/view\" --width 120 {words} < \"$TEXT\""), &[("TEXT", &text)])
}

fn wrong_words(checks: &mut Checks) {
    for (words, status, complaint) in WRONG {
        checks.add(&format!("wrong: {words}"), move || {
            let said = view(words, &root().join("tests/cases/worked_example.txt"));
            let begins = said.noise.starts_with(complaint);
            same((status, true), (said.status, begins)).map_err(|what| what + "\n" + &said.noise)
        });
    }
    for (text, status, complaint, last) in TEXTS {
        checks.add(&format!("text: {}", text.escape_debug()), move || {
            let said = with_text(text, "");
            let out = String::from_utf8_lossy(&said.out).into_owned();
            same((status, complaint, true), (said.status, &said.noise, out.contains(last)))
                .map_err(|what| what + "\n" + &out)
        });
    }
}

/// Lines that no run has.
const BAD: [&str; 24] = [
    "open 1 1",
    "open 1 1 0 named",
    "open 256 1 0",
    "open 1 65536 0",
    "open 1 1 4294967296",
    "push 0 left",
    "push 0 left 1 1 1",
    "push 0 256 1",
    "push 0 left 65536 1",
    "push 0 left -1",
    "pop 0",
    "pop 1 \x07",
    "step 0*2*2",
    "step *3",
    "step 1 0*",
    "step *",
    "step 0*x",
    "step 256",
    "step 0*1000001",
    "raw",
    "raw 123",
    "raw xy",
    " \x1b[2Jst\u{e9}p\\ 1",
    "jump 1",
];

/// What `tools/runfile` says of a bad line, `view` says too.
fn alike(checks: &mut Checks) {
    checks.add("a bad line is told as tools/runfile tells it", || {
        BAD.iter().try_for_each(|line| {
            let scratch = Scratch::make();
            let text = scratch.file("text", format!("{line}\n").as_bytes());
            let command = |tool: &str| format!("\"$ROOT/tools/{tool}\" < \"$TEXT\" > /dev/null");
            let ours = shell(&command("view"), &[("TEXT", &text)]);
            let theirs = shell(&command("runfile"), &[("TEXT", &text)]);
            same((1, format!("view: {}", theirs.noise)), (ours.status, ours.noise))
        })
    });
    checks.add("a bad line in a pipe", || {
        let line = r#"printf 'open 1 1 0\njump\n' | "$ROOT/tools/runfile" 2>/dev/null | "$ROOT/tools/view""#;
        let said = shell(line, &[]);
        let told = String::from_utf8_lossy(&said.out).contains("the run file is malformed");
        same((1, true), (said.status, told))
    });
}

fn marks_and_widths(checks: &mut Checks) {
    checks.add("a byte-order mark and carriage returns", || {
        let plain = "open 1 1 0\n# here\npop 0 left\nstep 0\n";
        let other = format!("\u{feff}{}", plain.replace('\n', "\r\n"));
        same_lines(&content(with_text(plain, ""))?, &content(with_text(&other, ""))?)
    });
    for width in [40, 60, 80, 100, 200] {
        checks.add(&format!("16 tasks in {width} columns"), move || {
            let text = content(with_text(
                "open 16 3 0\npush 9 left 1 700\nstep 9*2\n",
                &format!("--width {width}"),
            ))?;
            let widest = text.lines().map(|line| line.chars().count()).max();
            same((true, true), (widest <= Some(width), text.contains("700")))
        });
    }
    checks.add("no colours where there is no terminal", || {
        let text = content(with_text("open 1 1 0\nstep 0\n", ""))?;
        same(false, text.contains('\x1b'))
    });
    checks.add("colours on a terminal, as wide as it is", || {
        let line = r#"command -v script >/dev/null || exit 9; script -qec 'stty cols 70; "$ROOT/tools/view" "$ROOT/examples/first_labels.txt"' /dev/null"#;
        let said = shell(line, &[]);
        let text = String::from_utf8_lossy(&said.out).into_owned();
        let bare = plain(&text);
        let widest = bare.lines().map(|line| line.trim_end().chars().count()).max();
        same((0, true, true), (said.status, text.contains("\x1b[1m"), widest <= Some(70)))
    });
}

/// A text without its colours.
fn plain(text: &str) -> String {
    let mut parts = text.split("\x1b[");
    let first = parts.next().unwrap_or_default().to_string();
    parts.fold(first, |sum, part| sum + part.split_once('m').map_or("", |(_, rest)| rest))
}

/// A million touches, written as a text while they are read: memory does not grow with them.
fn long_runs(checks: &mut Checks) {
    let lines = r#"(set +o pipefail; echo open 1 1 0; yes $'push 0 right 1 7\nstep 0*2\npop 0 left\nstep 0*3' | head -n 572000)"#;
    let program = r#""${CARGO_TARGET_DIR:-$ROOT/target/cargo}/debug/view""#;
    for (words, last) in [
        ("", "All labels are accounted for: pushed 143000 = popped 143000 +"),
        ("--csv", "1001001,"),
    ] {
        checks.add(&format!("a million touches in 32 MB {words}"), move || {
            let said = shell(
                &format!(
                    "set -o pipefail; {lines} | (ulimit -v 32768; {program} {words}) | tail -n 1"
                ),
                &[],
            );
            let text = String::from_utf8_lossy(&said.out).into_owned();
            same((0, "", true), (said.status, &said.noise, text.starts_with(last)))
        });
    }
    checks.add("a page of too many touches is refused", || -> Verdict {
        let scratch = Scratch::make();
        let run = scratch.file("run", &scenario::load(&mut Dice::new(1), 10_000));
        let said = view("--html \"$RUN\"", &run);
        let words = "view: --html shows at most 4000 touches; choose some by --from and --to\n";
        same((1, 0, words), (said.status, said.out.len(), &said.noise))?;
        content(view("--html --from 5000 --to 6000 \"$RUN\"", &run)).map(drop)
    });
}

fn main() -> ExitCode {
    let mut checks = toolsuite::checks("commands");
    for words in ["--help", "-h", "--csv --help"] {
        checks.add(&format!("help: {words}"), move || {
            let said = view(words, Path::new("/"));
            same(
                (0, true, ""),
                (said.status, said.out.starts_with(b"usage: tools/view"), &said.noise),
            )
        });
    }
    wrong_words(&mut checks);
    alike(&mut checks);
    marks_and_widths(&mut checks);
    long_runs(&mut checks);
    checks.main()
}
