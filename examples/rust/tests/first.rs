//! The first program in Rust prints what README.md shows.

use std::process::Command;

#[test]
fn prints_what_readme_shows() {
    let text = include_str!("../../../README.md");
    let shown: Vec<&str> = text.lines().filter(|line| line.starts_with("task ")).collect();
    let said = Command::new(env!("CARGO_BIN_EXE_first")).output().expect("the program");
    assert!(said.status.success());
    let printed = String::from_utf8(said.stdout).expect("text");
    assert_eq!(printed.lines().collect::<Vec<_>>(), shown);
}
