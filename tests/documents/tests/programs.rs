//! README's first programs are the examples, and print what README shows; its picture is what the tools draw. They need
//! the library that `make` writes.

use documents::{content, root};
use std::path::{Path, PathBuf};
use std::process::{Command, Output};

/// The block of README.md behind its opening line.
fn block(opening: &str) -> String {
    let text = content("README.md");
    let after = text.split_once(&format!("{opening}\n")).expect(opening).1;
    after.split_once("```\n").expect("the end of the block").0.to_string()
}

fn library() -> PathBuf {
    let folder =
        std::env::var_os("ZEPPOLECAPE_LIB_DIR").map_or(root().join("target/lib"), PathBuf::from);
    let archive = folder.join("libzeppolecape.a");
    assert!(archive.is_file(), "there is no {}; build it with: make", archive.display());
    archive
}

fn run(command: &mut Command) -> Output {
    command.current_dir(root()).output().expect("a program that can be run")
}

/// A program of examples/c, built as its comment says, and what it prints.
fn printed(name: &str) -> String {
    let program = Path::new(env!("CARGO_TARGET_TMPDIR")).join(name);
    let source = format!("examples/c/{name}.c");
    let built = run(Command::new("cc")
        .args(["-Wall", "-Wextra", "-Werror", "-Iinclude", &source])
        .arg(library())
        .arg("-o")
        .arg(&program));
    assert!(built.status.success(), "{}", String::from_utf8_lossy(&built.stderr));
    let said = run(&mut Command::new(&program));
    assert!(said.status.success(), "{name} ended with {}", said.status);
    String::from_utf8(said.stdout).expect("text")
}

#[test]
fn readme_shows_the_examples() {
    assert_eq!(block("```c"), content("examples/c/first.c"));
    assert_eq!(block("```rust"), content("examples/rust/first.rs"));
}

#[test]
fn readme_shows_what_the_first_program_prints() {
    let shown =
        block("$ cc -Iinclude examples/c/first.c target/lib/libzeppolecape.a -o first && ./first");
    let shown: Vec<&str> = shown.lines().filter(|line| !line.starts_with('$')).collect();
    assert_eq!(printed("first").lines().collect::<Vec<_>>(), shown);
}

/// The numbers are those of the papers: 5 steps for a push on empty with its slot drawn, 12 beside another label, places
/// from the left, rule 2 before 1 broken, both labels popped once, the history true in one order alone, a second step
/// after an answer refused 31.
#[test]
fn every_question_is_answered() {
    let expected = "push of 700: code 2 after 5 steps\npush of 701: code 2 after 12 steps\n701 waits at 2\n999 waits at 0\n\
        700 waits at 1\nbroken pair: 2 before 1; word 1 is 1\n4920 orders\ntask 1 popped 700\ntask 0 popped 701\n\
        claimed order: 0\nother order: 1 at position 1\n3 served: 1 3 31\n";
    assert_eq!(printed("questions"), expected);
}

#[test]
fn the_picture_is_the_tools() {
    if run(Command::new("sh").args(["-c", "command -v node"])).stdout.is_empty() {
        println!("NOT TRIED: there is no node to draw the picture with");
        return;
    }
    library();
    let said = run(Command::new("tools/picture").args(["--docs", "--check"]));
    assert!(said.status.success(), "{}", String::from_utf8_lossy(&said.stderr));
}
