//! The program at its standard streams: what it says when one fails or it is given arguments, a slow
//! pipe, a long run in little memory, the longest steps field.

use reference::dice::Dice;
use reference::run::{run, Nobody};
use reference::scenario;
use std::fs::read;
use std::io::{self, Read, Write};
use std::path::Path;
use std::process::{Command, ExitCode, Stdio};
use std::thread::sleep;
use std::time::Duration;
use suite::{root, same, shell, trace, Checks, Said, Scratch, Verdict};

const USAGE: &str =
    "usage: trace < RUNFILE > TRACE\nprints the trace of a run file; tools/runfile makes one\n";

fn text(bytes: &[u8]) -> String {
    String::from_utf8_lossy(bytes).into_owned()
}

/// The trace that the second program prints.
fn expected(file: &[u8]) -> Vec<u8> {
    let mut out = Vec::new();
    assert!(run(file, &mut out, &mut Nobody).is_ok());
    out
}

fn load(steps: usize) -> Vec<u8> {
    scenario::load(&mut Dice::new(1), steps)
}

/// A line of shell in which `RUN` is a run file of 2,000 steps and `FOLDER` a folder.
fn with_run(line: &str) -> Said {
    let scratch = Scratch::make();
    let run = scratch.file("run", &load(2_000));
    shell(line, &[("RUN", &run), ("FOLDER", &scratch.path(""))])
}

/// Where the program complains any status will do (a Rattle program has none), but it must not be
/// stopped: 124 is a program that hangs, above 128 one that crashed.
fn complains(said: &Said, words: &str) -> Verdict {
    same((true, words), (said.status < 124, said.noise.as_str()))
}

/// Help is asked for on standard output, any other argument is refused on standard error;
/// `tools/trace` gives a status to what the program complains of.
fn arguments(checks: &mut Checks) {
    checks.add("arguments: --help", || {
        let said = shell(r#""$TRACE" --help"#, &[]);
        same((0, USAGE, ""), (said.status, &text(&said.out), &said.noise))
    });
    for words in ["-h", "--helper", "'' --help", "--help --help", "run.txt"] {
        checks.add(&format!("arguments: {words}"), move || {
            let said = shell(&format!(r#""$TRACE" {words}"#), &[]);
            same(("", USAGE), (&text(&said.out), &said.noise))
        });
    }
    let lines = [
        ("status: a run", r#""$ROOT/tools/trace" < "$RUN" > /dev/null"#, 0, ""),
        ("status: --help", r#""$ROOT/tools/trace" --help > /dev/null"#, 0, ""),
        ("status: an unknown argument", r#""$ROOT/tools/trace" run.txt"#, 1, USAGE),
        (
            "status: a full device",
            r#""$ROOT/tools/trace" < "$RUN" > /dev/full"#,
            1,
            "trace: cannot write\n",
        ),
        (
            "status: a run in its text form",
            r#""$ROOT/tools/trace" < "$ROOT/examples/first_labels.txt""#,
            1,
            "tools/trace: this is no run file but a run in its text form: tools/runfile RUN | tools/trace\n",
        ),
        (
            "status: a bad line before it in a pipe",
            r#"printf 'open 1 1 0\njump\n' | "$ROOT/tools/runfile" | "$ROOT/tools/trace" > /dev/null"#,
            1,
            "standard input:2: unknown operation: jump\n\
             tools/trace: the run ends at a line that tools/runfile could not read\n",
        ),
        (
            "status: a folder as input",
            r#""$ROOT/tools/trace" < "$FOLDER""#,
            1,
            "trace: cannot read\n",
        ),
    ];
    for (name, line, status, noise) in lines {
        checks.add(name, move || {
            let said = with_run(line);
            same((status, noise), (said.status, &said.noise))
        });
    }
}

/// `examples/show` shows the file that is named, wherever it lies, and else the example of that name.
fn shown(checks: &mut Checks) {
    let lines = [
        ("a path", "cp \"$ROOT/tests/cases/worked_example.txt\" mine.txt; \"$ROOT/examples/show\" ./mine.txt", 0, "got:1:700"),
        ("a name that is a file here", "echo 'open 1 1 7' > first_labels; \"$ROOT/examples/show\" first_labels", 0, "1 - open ok 0000000700000000"),
        ("an example", "\"$ROOT/examples/show\" first_labels", 0, "40 0 step empty"),
        ("an example's file name", "\"$ROOT/examples/show\" first_labels.txt", 0, "40 0 step empty"),
        ("a path that leads nowhere", "\"$ROOT/examples/show\" no/first_labels.txt 2>&1", 1, "no file no/first_labels.txt"),
        ("no example", "\"$ROOT/examples/show\" nothing 2>&1", 1, "no example nothing"),
        ("a bad line", "echo jump > bad.txt; \"$ROOT/examples/show\" bad.txt 2>&1", 1, "bad.txt:1: unknown operation: jump"),
        ("help", "\"$ROOT/examples/show\" --help", 0, "usage: examples/show"),
    ];
    for (name, line, status, words) in lines {
        checks.add(&format!("status: show {name}"), move || {
            let scratch = Scratch::make();
            let said =
                shell(&format!("cd \"$FOLDER\" && {line}"), &[("FOLDER", &scratch.path(""))]);
            let out = text(&said.out);
            same((status, true), (said.status, out.contains(words))).map_err(|what| what + &out)
        });
    }
}

/// `tools/progress` counts the crates that a command proves, says that it is still at work, and keeps the
/// command's status, with the end of what it said.
fn progress(checks: &mut Checks) {
    let rt = "printf 'rt: %s\\n' 'word proved (unchanged since it was last proved)' 'model proved (12 s)'; \
              sleep 1.5; echo 'rt: sound proved (3 s)'; echo wrong; exit $STATUS";
    for (status, noise) in [(0, ""), (3, "wrong\n")] {
        checks.add(&format!("status: progress of a command that ends with {status}"), move || {
            let line = format!(
                "STATUS={status} QUIET=1 \"$ROOT/tools/progress\" proved sound -- bash -c \"{rt}\""
            );
            let said = shell(&line.replace("$STATUS", "\\$STATUS"), &[]);
            let out = text(&said.out);
            let (waits, told): (Vec<&str>, Vec<&str>) =
                out.lines().partition(|line| line.contains(" so far, after "));
            let lines = [
                "  2 of 3: model proved (12 s)",
                "  3 of 3: sound proved (3 s)",
                "  3 of 3 crates proved, 1 of them before",
            ];
            same((status, lines.to_vec(), true), (said.status, told, said.noise.ends_with(noise)))?;
            same(true, waits.iter().any(|line| line.starts_with("  2 of 3 so far, after ")))
        });
    }
}

/// A failed read or write is told on standard error and ends the run at once.
fn failures(checks: &mut Checks) {
    // The pipe is held open by its reader: a program that goes on reading does not end in time.
    let writes = [
        ("failures: a full device", r#""$TRACE" < "$RUN" > /dev/full"#),
        ("failures: a closed output", r#""$TRACE" < "$RUN" >&-"#),
        (
            "failures: a full device while the input waits",
            r#"mkfifo "$FOLDER/pipe"; timeout 60 "$TRACE" <> "$FOLDER/pipe" > /dev/full"#,
        ),
    ];
    for (name, line) in writes {
        checks.add(name, move || complains(&with_run(line), "trace: cannot write\n"));
    }
    // The first 8 KB find room. SIGXFSZ would end the program before it can say anything.
    checks.add("failures: an output that fills up on the way", || {
        let line = r#"trap '' XFSZ; (ulimit -f 8; "$TRACE" < "$RUN" > "$FOLDER/trace"); cat "$FOLDER/trace""#;
        let said = with_run(line);
        complains(&said, "trace: cannot write\n")?;
        same(text(&expected(&load(2_000))[..8_192]), text(&said.out))
    });
    // A read that failed is no end of the run: no event is told, and no malformed file.
    let reads = [
        ("failures: a folder as input", r#""$TRACE" < "$FOLDER""#),
        ("failures: a closed input", r#""$TRACE" <&-"#),
    ];
    for (name, line) in reads {
        checks.add(name, move || {
            let said = with_run(line);
            complains(&said, "trace: cannot read\n")?;
            same("event task call answer anchor\n".to_string(), text(&said.out))
        });
    }
}

/// The program reads what is there: nearly every piece before the next is written.
fn in_pieces(seed: u64) -> Verdict {
    let file = scenario::of_seed(seed).1;
    let scratch = Scratch::make();
    let out = scratch.path("trace");
    let mut child = Command::new("timeout")
        .args(["600".as_ref(), trace().as_os_str()])
        .stdin(Stdio::piped())
        .stdout(std::fs::File::create(&out).map_err(|error| error.to_string())?)
        .spawn()
        .map_err(|error| error.to_string())?;
    let mut pipe = child.stdin.take().ok_or("no pipe")?;
    let (mut rest, mut dice) = (file.as_slice(), Dice::new(seed));
    while !rest.is_empty() {
        let (piece, later) = rest.split_at(rest.len().min(dice.between(1, 40) as usize));
        pipe.write_all(piece).map_err(|error| error.to_string())?;
        sleep(Duration::from_micros(300));
        rest = later;
    }
    drop(pipe);
    let status = child.wait().map_err(|error| error.to_string())?;
    let found = read(&out).map_err(|error| error.to_string())?;
    same((Some(0), true), (status.code(), found == expected(&file)))
}

/// Compares what is written to it with what a reader has.
struct Compared<R: Read>(R);

impl<R: Read> Write for Compared<R> {
    fn write(&mut self, bytes: &[u8]) -> io::Result<usize> {
        let mut other = vec![0; bytes.len()];
        self.0.read_exact(&mut other)?;
        match other == bytes {
            true => Ok(bytes.len()),
            false => Err(io::Error::new(io::ErrorKind::InvalidData, "the traces differ")),
        }
    }

    fn flush(&mut self) -> io::Result<()> {
        Ok(())
    }
}

/// The file alone is longer than the memory, and the trace, which never lies anywhere whole, is some
/// thirty times as long.
fn little_memory() -> Verdict {
    let file = load(14_500_000);
    same(true, file.len() > 20_000_000)?;
    let scratch = Scratch::make();
    let run_file = scratch.file("run", &file);
    let mut child = Command::new("bash")
        .args(["-c", r#"ulimit -v 16384; exec timeout 600 "$TRACE" < "$RUN""#])
        .env("TRACE", trace())
        .env("RUN", &run_file)
        .stdout(Stdio::piped())
        .spawn()
        .map_err(|error| error.to_string())?;
    let mut pipe = child.stdout.take().ok_or("no pipe")?;
    let alike = run(&file, Compared(&mut pipe), &mut Nobody).is_ok();
    let ended = io::copy(&mut pipe, &mut io::sink()).map_err(|error| error.to_string())? == 0;
    let status = child.wait().map_err(|error| error.to_string())?;
    same((true, true, Some(0)), (alike, ended, status.code()))
}

/// A steps field of 4096 bytes is carried out, one of 4097 is malformed and ends the run.
fn lengths(checks: &mut Checks) {
    const NONE: &str = "0000000000000000";
    let carried_out = |text_of_run: String| {
        let scratch = Scratch::make();
        let run = scratch.file("run.txt", text_of_run.as_bytes());
        suite::run_text(Path::new(&run)).map(|trace| text(&trace))
    };
    checks.add("lengths: 4096 steps", move || {
        let mut lines = format!("event task call answer anchor\n1 - open ok {NONE}\n");
        (2..=4097).for_each(|event| lines += &format!("{event} 0 step no31 {NONE}\n"));
        lines += &format!("4098 0 pop ok {NONE}\n4099 0 step empty {NONE}\n");
        same(lines, carried_out("open 1 1 0\nstep 0*4096\npop 0 left\nstep 0\n".to_string())?)
    });
    checks.add("lengths: 4097 steps", move || {
        let lines =
            format!("event task call answer anchor\n1 - open ok {NONE}\n2 - file no16 {NONE}\n");
        let zeros = "00".repeat(4097);
        same(lines, carried_out(format!("open 1 1 0\nraw 041001 {zeros}\npop 0 left\n"))?)
    });
}

fn main() -> ExitCode {
    let mut checks = Checks::of("streams");
    assert!(root().join("tools/trace").is_file());
    arguments(&mut checks);
    shown(&mut checks);
    progress(&mut checks);
    failures(&mut checks);
    for seed in [8, 9] {
        // Tags used up and random numbers: short runs with many starts and refusals.
        checks.add(&format!("pieces: seed {seed}"), move || in_pieces(seed));
    }
    checks.add("memory: 20 MB in 16 MB", little_memory);
    lengths(&mut checks);
    checks.main()
}
