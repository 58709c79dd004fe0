//! Header, crate and changelog have one version.

use std::fs::read_to_string;

fn text(path: &str) -> String {
    let path = format!("{}/../../{path}", env!("CARGO_MANIFEST_DIR"));
    read_to_string(&path).unwrap_or_else(|error| panic!("{path}: {error}"))
}

/// The number that the header defines `name` to be.
fn defined(header: &str, name: &str) -> String {
    let line = header.lines().find_map(|line| line.strip_prefix(&format!("#define {name} ")));
    line.unwrap_or_else(|| panic!("the header has no {name}")).trim().to_string()
}

#[test]
fn versions_agree() {
    let header = text("include/zeppolecape.h");
    let parts =
        ["MAJOR", "MINOR", "PATCH"].map(|part| defined(&header, &format!("ZC_VERSION_{part}")));
    assert_eq!(parts.join("."), zeppolecape::VERSION, "header and crate");
    let changelog = text("CHANGELOG.md");
    let topmost = changelog
        .lines()
        .filter_map(|line| line.strip_prefix("## "))
        .find(|heading| heading.starts_with(|first: char| first.is_ascii_digit()));
    assert_eq!(topmost, Some(zeppolecape::VERSION), "changelog and crate");
}
