//! `differential PROGRAM`: random and malformed run files through a program and through
//! the reference, whose every event is judged; the two traces must be the same bytes.
//! One more run is too long to be judged, and only compared.

use reference::check::Judge;
use reference::coverage::Coverage;
use reference::dice::Dice;
use reference::malformed::{self, Broken};
use reference::run::{run, Event, Failure, Nobody, Watcher};
use reference::scenario;
use reference::tables::Tables;
use std::fs::{self, File};
use std::io::{self, Write};
use std::ops::Range;
use std::path::PathBuf;
use std::process::{Command, ExitCode, Output, Stdio};
use std::sync::atomic::{AtomicBool, AtomicUsize, Ordering};
use std::thread;

const HELP: &str = "\
usage: differential PROGRAM [--seeds A..B] [--quick]

Runs PROGRAM on generated run files and compares its traces with the reference's;
it must end with status 0 and say nothing on standard error.
  --seeds A..B  these seeds, A included and B not, in place of the fixed ones;
                what they reach is printed but nothing is demanded of it
  --quick       a tenth of the fixed seeds
The first failing run file is kept in target/differential.
";

const FIXED: Range<u64> = 0..1_760;
const QUICK: Range<u64> = 0..176;

/// The run that takes event numbers to seven digits: its name and its steps.
const LONG: &str = "long load";
const LONG_STEPS: usize = 1_200_000;

/// So many failures are told one by one, the rest only counted.
const MOST_TOLD: u64 = 20;

struct Order {
    program: PathBuf,
    seeds: Range<u64>,
    demanding: bool,
}

fn main() -> ExitCode {
    let arguments: Vec<String> = std::env::args().skip(1).collect();
    let Some(order) = read_order(&arguments) else {
        eprint!("{HELP}");
        return ExitCode::from(2);
    };
    match Bench::set_up(&order.program).and_then(|mut bench| bench.test(&order)) {
        Ok(true) => ExitCode::SUCCESS,
        Ok(false) => ExitCode::FAILURE,
        Err(error) => {
            eprintln!("differential: {}: {error}", order.program.display());
            ExitCode::from(2)
        }
    }
}

fn read_order(arguments: &[String]) -> Option<Order> {
    let (program, options) = arguments.split_first()?;
    let mut order = Order { program: program.into(), seeds: FIXED, demanding: true };
    let mut options = options.iter().map(String::as_str);
    while let Some(option) = options.next() {
        match option {
            "--quick" => order.seeds = QUICK,
            "--seeds" => {
                let (from, to) = options.next()?.split_once("..")?;
                order.seeds = from.parse().ok()?..to.parse().ok()?;
                order.demanding = false;
            }
            _ => return None,
        }
    }
    Some(order)
}

/// The program under test, the folder of the runs, and one worker's tally.
struct Bench {
    program: PathBuf,
    folder: PathBuf,
    coverage: Coverage,
    passed: u64,
    failed: u64,
}

/// A run file to be compared: one of the malformed, that of a seed, the long one.
enum Job {
    Broken(usize, Broken),
    Seed(u64),
    Long,
}

/// Whether a failing run was kept already.
static KEPT: AtomicBool = AtomicBool::new(false);

/// The reference's judge and the coverage look on together.
struct Both<'a>(Judge, &'a mut Coverage);

impl Watcher for Both<'_> {
    fn before(&mut self, tables: &Tables, task: Option<u8>) {
        self.0.before(tables, task);
        self.1.before(tables, task);
    }

    fn after(&mut self, tables: &Tables, event: &Event) -> Result<(), String> {
        self.0.after(tables, event)?;
        self.1.after(tables, event)
    }
}

impl Bench {
    fn set_up(program: &PathBuf) -> io::Result<Bench> {
        let program = fs::canonicalize(program)?;
        let folder = PathBuf::from("target/differential");
        fs::create_dir_all(&folder)?;
        let coverage = Coverage::new(scenario::names().chain(malformed::KINDS).chain([LONG]));
        Ok(Bench { program, folder, coverage, passed: 0, failed: 0 })
    }

    /// Runs everything, on all processors; whether all passed and, if demanded, all was reached.
    fn test(&mut self, order: &Order) -> io::Result<bool> {
        let broken = malformed::all().into_iter().enumerate();
        let mut jobs = vec![Job::Long];
        jobs.extend(broken.map(|(number, broken)| Job::Broken(number, broken)));
        jobs.extend(order.seeds.clone().map(Job::Seed));
        let next = AtomicUsize::new(0);
        let workers: io::Result<Vec<Bench>> = thread::scope(|scope| {
            let work = || Bench::set_up(&order.program)?.work(&jobs, &next);
            let count = thread::available_parallelism().map_or(1, usize::from);
            let working: Vec<_> = (0..count).map(|_| scope.spawn(work)).collect();
            working.into_iter().map(|worker| worker.join().expect("a worker")).collect()
        });
        for worker in workers? {
            self.coverage.add(&worker.coverage);
            self.passed += worker.passed;
            self.failed += worker.failed;
        }
        print!("{}", self.coverage);
        if order.demanding {
            for name in self.coverage.missing() {
                println!("FAILED never reached: {name}");
                self.failed += 1;
            }
        }
        println!("{} passed, {} failed", self.passed, self.failed);
        Ok(self.failed == 0 && self.passed > 0)
    }

    /// Takes job after job, until there is none.
    fn work(mut self, jobs: &[Job], next: &AtomicUsize) -> io::Result<Bench> {
        while let Some(job) = jobs.get(next.fetch_add(1, Ordering::Relaxed)) {
            match job {
                Job::Broken(number, broken) => {
                    self.compare(broken.kind, &format!("malformed file {number}"), &broken.file)?
                }
                Job::Seed(seed) => {
                    let (scenario, file) = scenario::of_seed(*seed);
                    self.compare(scenario, &format!("seed {seed}"), &file)?;
                }
                Job::Long => self.compare_long()?,
            }
        }
        Ok(self)
    }

    fn compare(&mut self, kind: &'static str, name: &str, file: &[u8]) -> io::Result<()> {
        self.coverage.file(kind);
        let mut expected = Vec::new();
        let judged = run(file, &mut expected, &mut Both(Judge::default(), &mut self.coverage));
        let complaint = match judged {
            Err(Failure::Violation(event, what)) => {
                Some(format!("reference: event {event}: {what}"))
            }
            Err(Failure::Output(error)) => return Err(error),
            Ok(()) => complaint(&expected, &self.print_in_pieces(file)?),
        };
        self.count(&format!("{name} ({kind})"), file, &expected, complaint)
    }

    /// Nobody judges this run: that would take as long as a quarter of all the others.
    fn compare_long(&mut self) -> io::Result<()> {
        self.coverage.file(LONG);
        let file = scenario::load(&mut Dice::new(1), LONG_STEPS);
        let mut expected = Vec::new();
        match run(&file, &mut expected, &mut Nobody) {
            Err(Failure::Output(error)) => return Err(error),
            Err(Failure::Violation(..)) => unreachable!("nobody objects"),
            Ok(()) => {}
        }
        let complaint = complaint(&expected, &self.print_in_pieces(&file)?);
        self.count(LONG, &file, &expected, complaint)
    }

    fn count(
        &mut self,
        name: &str,
        file: &[u8],
        expected: &[u8],
        complaint: Option<String>,
    ) -> io::Result<()> {
        match complaint {
            None => self.passed += 1,
            Some(complaint) => {
                if self.failed < MOST_TOLD {
                    println!("FAILED {name}: {complaint}");
                }
                self.keep(file, expected)?;
                self.failed += 1;
            }
        }
        Ok(())
    }

    /// What the program prints when it reads the file from a pipe, piece by piece.
    fn print_in_pieces(&self, file: &[u8]) -> io::Result<Output> {
        let mut command = Command::new(&self.program);
        command.stdin(Stdio::piped()).stdout(Stdio::piped()).stderr(Stdio::piped());
        let mut child = command.spawn()?;
        let pipe = child.stdin.take();
        thread::scope(|scope| {
            scope.spawn(|| pipe.map(|pipe| drip(file, pipe)));
            child.wait_with_output()
        })
    }

    /// Keeps the first failing run and its expected trace, and says how to replay it.
    fn keep(&self, file: &[u8], expected: &[u8]) -> io::Result<()> {
        if KEPT.swap(true, Ordering::Relaxed) {
            return Ok(());
        }
        let (run, trace) = (self.folder.join("failing.run"), self.folder.join("failing.trace"));
        fs::write(&run, file)?;
        fs::write(&trace, expected)?;
        let program = self.program.display();
        println!("  replay: {program} < {} | diff {} -", run.display(), trace.display());
        let whole = Command::new(&self.program).stdin(File::open(&run)?).output()?;
        if complaint(expected, &whole).is_none() {
            println!("  but all is right when the file comes in one piece");
        }
        Ok(())
    }
}

/// Writes the file in pieces of many sizes. A program may end the run before the file does.
fn drip(mut file: &[u8], mut pipe: impl Write) {
    let mut dice = Dice::new(file.len() as u64);
    while !file.is_empty() {
        let size = dice.pick(&[1, 2, 3, 9, 100, 4_095, 4_096, 65_536]).min(file.len());
        let (piece, rest) = file.split_at(size);
        if pipe.write_all(piece).is_err() {
            return;
        }
        file = rest;
    }
}

/// What is wrong with what a program did: noise on standard error, its status, its trace.
fn complaint(expected: &[u8], output: &Output) -> Option<String> {
    if let Some(line) = String::from_utf8_lossy(&output.stderr).lines().next() {
        return Some(format!("{}, on standard error: {line}", output.status));
    }
    match output.status.success() {
        true => first_difference(expected, &output.stdout),
        false => Some(output.status.to_string()),
    }
}

fn first_difference(expected: &[u8], printed: &[u8]) -> Option<String> {
    if expected == printed {
        return None;
    }
    let is_newline = |byte: &u8| *byte == b'\n';
    let (wanted, got) = (expected.split(is_newline), printed.split(is_newline));
    let differing = wanted.zip(got).find(|(wanted, got)| wanted != got);
    let text = |line: &[u8]| String::from_utf8_lossy(line).into_owned();
    Some(match differing {
        Some((wanted, got)) => format!("expected \"{}\", printed \"{}\"", text(wanted), text(got)),
        None => format!("expected {} bytes, printed {}", expected.len(), printed.len()),
    })
}
