//! Named checks, and a main that runs those asked for, as many at a time as there are processors.

use std::fmt::Debug;
use std::panic::{catch_unwind, AssertUnwindSafe};
use std::process::ExitCode;
use std::sync::atomic::{AtomicUsize, Ordering};
use std::thread;
use std::time::Instant;

/// Nothing to say, or what is wrong.
pub type Verdict = Result<(), String>;

/// What is told beside the name of a check that passes, or what is wrong.
pub type Told = Result<String, String>;

struct Check {
    name: String,
    long: bool,
    run: Box<dyn Fn() -> Told + Send + Sync>,
}

/// The checks of one test target. They begin in the order in which they were added: long ones first.
pub struct Checks {
    target: &'static str,
    checks: Vec<Check>,
}

/// What the command line asks for.
#[derive(Default)]
struct Asked {
    names: Vec<String>,
    skipped: Vec<String>,
    exact: bool,
    list: bool,
    quiet: bool,
    long: bool,
    short: bool,
    threads: Option<usize>,
}

impl Checks {
    pub fn of(target: &'static str) -> Checks {
        Checks { target, checks: Vec::new() }
    }

    /// A check named `TARGET::name`.
    pub fn add(&mut self, name: &str, check: impl Fn() -> Verdict + Send + Sync + 'static) {
        self.tell(name, move || check().map(|()| String::new()));
    }

    /// A check that has something to tell where it passes.
    pub fn tell(&mut self, name: &str, check: impl Fn() -> Told + Send + Sync + 'static) {
        self.put(name, false, Box::new(check));
    }

    /// A check that is run only where `--ignored` or `--include-ignored` asks for it.
    pub fn long(&mut self, name: &str, check: impl Fn() -> Told + Send + Sync + 'static) {
        self.put(name, true, Box::new(check));
    }

    fn put(&mut self, name: &str, long: bool, run: Box<dyn Fn() -> Told + Send + Sync>) {
        let name = format!("{}::{name}", self.target);
        assert!(self.checks.iter().all(|other| other.name != name), "{name} is there twice");
        self.checks.push(Check { name, long, run });
    }

    /// Runs what the command line asks for and counts it.
    pub fn main(self) -> ExitCode {
        let asked = match Asked::of(std::env::args().skip(1)) {
            Ok(asked) => asked,
            Err(word) => {
                eprintln!("unknown option {word}; there are NAME.. --exact --skip NAME --list --quiet --ignored --include-ignored --test-threads N");
                return ExitCode::from(2);
            }
        };
        let (named, left_out): (Vec<_>, Vec<_>) =
            self.checks.into_iter().partition(|check| asked.wants(&check.name));
        let (chosen, ignored): (Vec<_>, Vec<_>) =
            named.into_iter().partition(|check| asked.wants_length(check.long));
        if asked.list {
            chosen.iter().chain(&ignored).for_each(|check| println!("{}: test", check.name));
            return ExitCode::SUCCESS;
        }
        println!("\nrunning {} tests", chosen.len());
        let begun = Instant::now();
        let failed = failures(&chosen, &asked);
        let word = if failed == 0 { "ok" } else { "FAILED" };
        println!(
            "\ntest result: {word}. {} passed; {failed} failed; {} ignored; {} filtered out; finished in {:.2}s\n",
            chosen.len() - failed,
            ignored.len(),
            left_out.len(),
            begun.elapsed().as_secs_f64()
        );
        ExitCode::from(if failed == 0 { 0 } else { 101 })
    }
}

/// Runs the checks and counts those that fail.
fn failures(checks: &[Check], asked: &Asked) -> usize {
    let processors = thread::available_parallelism().map_or(1, usize::from);
    let (next, failed) = (AtomicUsize::new(0), AtomicUsize::new(0));
    thread::scope(|scope| {
        for _ in 0..asked.threads.unwrap_or(processors).clamp(1, checks.len().max(1)) {
            scope.spawn(|| {
                while let Some(check) = checks.get(next.fetch_add(1, Ordering::Relaxed)) {
                    if !passes(check, asked.quiet) {
                        failed.fetch_add(1, Ordering::Relaxed);
                    }
                }
            });
        }
    });
    failed.into_inner()
}

/// One check; a name and what is said of it are printed in one piece.
fn passes(check: &Check, quiet: bool) -> bool {
    let begun = Instant::now();
    let told =
        catch_unwind(AssertUnwindSafe(&check.run)).unwrap_or(Err("  it panicked".to_string()));
    let time = match begun.elapsed().as_secs() {
        0 => String::new(),
        seconds => format!(" ({seconds} s)"),
    };
    let name = &check.name;
    match &told {
        Ok(note) if note.is_empty() && quiet => {}
        Ok(note) if note.is_empty() => println!("test {name} ... ok{time}"),
        Ok(note) => {
            println!("test {name} ... ok{time}\n    {}", note.trim_end().replace('\n', "\n    "))
        }
        Err(what) => println!("test {name} ... FAILED{time}\n{what}"),
    }
    told.is_ok()
}

impl Asked {
    fn of(mut words: impl Iterator<Item = String>) -> Result<Asked, String> {
        let mut asked = Asked { short: true, ..Asked::default() };
        while let Some(word) = words.next() {
            match word.as_str() {
                "--exact" => asked.exact = true,
                "--list" => asked.list = true,
                "--quiet" | "-q" => asked.quiet = true,
                "--skip" => asked.skipped.extend(words.next()),
                "--ignored" => (asked.long, asked.short) = (true, false),
                "--include-ignored" => asked.long = true,
                "--test-threads" => asked.threads = words.next().and_then(|word| word.parse().ok()),
                "--nocapture" | "--show-output" => {}
                _ if word.starts_with('-') => return Err(word),
                _ => asked.names.push(word),
            }
        }
        Ok(asked)
    }

    fn wants(&self, name: &str) -> bool {
        let fits =
            |word: &String| if self.exact { name == word } else { name.contains(word.as_str()) };
        (self.names.is_empty() || self.names.iter().any(fits)) && !self.skipped.iter().any(fits)
    }

    fn wants_length(&self, long: bool) -> bool {
        if long {
            self.long
        } else {
            self.short
        }
    }
}

/// Equal, or both as they are.
pub fn same<T: PartialEq + Debug>(expected: T, found: T) -> Verdict {
    match expected == found {
        true => Ok(()),
        false => Err(format!("  expected {expected:?}\n  found    {found:?}")),
    }
}
