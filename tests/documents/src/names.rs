//! What the repository has: its paths, and the names that its sources define.

use std::collections::{HashMap, HashSet};

/// Folders that a path of the repository begins with, for words in commands.
pub const TOPS: [&str; 11] = [
    "bench/",
    "bindings/",
    "crates/",
    "docs/",
    "examples/",
    "include/",
    "packaging/",
    "tests/",
    "tools/",
    ".ci/",
    ".cargo/",
];
const ENDINGS: [&str; 15] = [
    ".md", ".c", ".h", ".cc", ".rs", ".rt", ".antt", ".txt", ".sh", ".svg", ".js", ".toml",
    ".edit", ".view", ".history",
];

/// Lists of names that may be gone.
const NOT_SOURCES: [&str; 2] = ["tests/documents/allowed.txt", "tools/respelled.txt"];

#[derive(Default)]
pub struct Names {
    /// Files and folders, and files without their endings; and what each ends in, part by part.
    paths: HashSet<String>,
    /// Names that stand where something is defined, with the files that have them.
    defined: HashMap<String, Vec<usize>>,
    files: Vec<String>,
    /// All words of all sources.
    words: HashSet<String>,
    options: HashSet<String>,
}

impl Names {
    pub fn of(files: &[String], content: impl Fn(&str) -> String) -> Names {
        let mut names = Names { files: files.to_vec(), ..Names::default() };
        for (at, path) in files.iter().enumerate() {
            names.path(path);
            if !super::is_document(path) && !NOT_SOURCES.contains(&path.as_str()) {
                names.source(at, path, &content(path));
            }
        }
        names
    }

    fn path(&mut self, path: &str) {
        let mut whole = path;
        while self.endings(whole) {
            let name = whole.rsplit('/').next().unwrap_or(whole);
            if let Some(stem) = name.rfind('.').filter(|&dot| dot > 0) {
                self.endings(&whole[..whole.len() - name.len() + stem]);
            }
            match whole.rsplit_once('/') {
                Some((folder, _)) => whole = folder,
                None => return,
            }
        }
    }

    /// Keeps a path and what it ends in: whether it is new.
    fn endings(&mut self, path: &str) -> bool {
        let new = self.paths.insert(path.to_string());
        let rests = path.match_indices('/').map(|(at, _)| path[at + 1..].to_string());
        self.paths.extend(rests);
        new
    }

    fn source(&mut self, at: usize, path: &str, text: &str) {
        for line in text.lines() {
            for word in line.split(|letter: char| !is_of_name(letter) && letter != '-') {
                let word = word.trim_matches('-');
                self.words
                    .extend(word.split('-').filter(|part| !part.is_empty()).map(String::from));
                self.words.insert(word.to_string());
            }
            let options = line.split(|letter: char| !is_of_name(letter) && letter != '-');
            self.options.extend(options.filter(|word| word.starts_with('-')).map(String::from));
            for name in defined(path, line) {
                let files = self.defined.entry(name.to_string()).or_default();
                if files.last() != Some(&at) {
                    files.push(at);
                }
            }
        }
    }

    /// Why what stands in backticks is not there; nothing where it is.
    pub fn misses(&self, span: &str) -> Option<String> {
        let span = span.trim_end_matches(" ..").trim_end_matches("..").trim_end_matches(':');
        if !span.chars().any(|letter| letter.is_ascii_alphabetic()) {
            return None;
        }
        if span.contains(char::is_whitespace) {
            return self.misses_phrase(span);
        }
        if span.starts_with('-') {
            let option = span.split('=').next().unwrap_or(span);
            return (!self.options.contains(option))
                .then(|| format!("no program has the option {option}"));
        }
        // A variable of the caller's, perhaps with a value: some source has its name.
        let variable = span.split('=').next().unwrap_or(span);
        if !variable.starts_with("ZC_")
            && variable.chars().all(|l| l.is_ascii_uppercase() || l == '_')
        {
            let known = self.words.contains(variable);
            return (!known).then(|| format!("no source has the word {variable}"));
        }
        if span.contains('/') || ENDINGS.iter().any(|ending| span.ends_with(ending)) {
            return (!self.has_path(span)).then(|| "no such file or folder".to_string());
        }
        let name = span.split(['(', '=', '[']).next().unwrap_or(span);
        if name.contains("::") {
            return self.misses_member(name);
        }
        let parts: Vec<&str> = name
            .split('.')
            .filter(|part| part.chars().any(|letter| letter.is_ascii_alphabetic()))
            .collect();
        let missing = parts.iter().find(|part| !self.has_name(part))?;
        Some(format!("nothing is called {missing}"))
    }

    /// A command, or a piece of code: its paths are there, and every word of it is one of the sources'.
    fn misses_phrase(&self, span: &str) -> Option<String> {
        for word in span.split_whitespace() {
            if TOPS.iter().any(|top| word.starts_with(top)) {
                if !self.has_path(word) {
                    return Some(format!("no such file or folder: {word}"));
                }
                continue;
            }
            let pieces = word.split(|letter: char| !is_of_name(letter) && letter != '-');
            let names = pieces
                .map(|piece| piece.trim_matches('-'))
                .filter(|piece| piece.chars().any(|l| l.is_ascii_alphabetic()));
            for piece in names {
                if !self.words.contains(piece) && !self.has_name(piece) {
                    return Some(format!("no source has the word {piece}"));
                }
            }
        }
        None
    }

    /// `a::b`: b is defined in a file of a, or where a is.
    fn misses_member(&self, name: &str) -> Option<String> {
        let parts: Vec<&str> = name.split("::").collect();
        let (last, of) = (parts[parts.len() - 1], parts[parts.len() - 2]);
        let none = Vec::new();
        let (files, owners) =
            (self.defined.get(last).unwrap_or(&none), self.defined.get(of).unwrap_or(&none));
        let belongs = |at: &usize| {
            let path = &self.files[*at];
            let stems = path.split('/').map(|part| part.split('.').next().unwrap_or(part));
            owners.contains(at) || stems.into_iter().any(|stem| stem == of)
        };
        let bound = |at: &usize| self.files[*at].starts_with("bindings/rust");
        let there = files.iter().any(|at| {
            belongs(at) || (bound(at) && (of == "zeppolecape" || owners.iter().any(bound)))
        });
        (!there).then(|| format!("{of} has no {last}"))
    }

    fn has_name(&self, name: &str) -> bool {
        self.defined.contains_key(name) || self.has_path(name)
    }

    /// Whether some path ends so; a star, or NAME, stands for one part or a piece of one. What is
    /// built or lies outside is not looked for.
    pub fn has_path(&self, path: &str) -> bool {
        let wanted = path.trim_start_matches("./").trim_end_matches('/').replace("NAME", "*");
        let wanted = wanted.as_str();
        let outside = ["target/", "/opt/rattle", "/dev/"];
        let built = wanted.starts_with("crates/") && wanted.split('/').nth(2) == Some("out");
        if wanted == "target" || built || outside.iter().any(|top| wanted.starts_with(top)) {
            return true;
        }
        let Some((before, behind)) = wanted.split_once('*') else {
            return self.paths.contains(wanted);
        };
        self.paths.iter().any(|path| {
            let part = path.strip_prefix(before).and_then(|rest| rest.strip_suffix(behind));
            part.is_some_and(|part| !part.contains('/'))
        })
    }
}

fn is_of_name(letter: char) -> bool {
    letter.is_ascii_alphanumeric() || letter == '_' || letter == '\''
}

/// Words before the name in a line that defines it.
const BEFORE: [&str; 20] = [
    "pub",
    "abbrev",
    "record",
    "data",
    "rec",
    "irreducible",
    "opaque",
    "private",
    "instance",
    "mod",
    "crate",
    "static",
    "inline",
    "const",
    "export",
    "uint64_t",
    "uint32_t",
    "size_t",
    "int",
    "struct",
];
const KEYWORDS: [&str; 13] = [
    "fn", "struct", "enum", "const", "static", "mod", "type", "trait", "union", "define",
    "function", "let", "class",
];
/// Files of which every word is taken for a name.
const LISTS: [&str; 4] = [".h", "Makefile", "crates.txt", ".toml"];

/// The names that a line of a source defines, or may.
fn defined<'a>(path: &str, line: &'a str) -> Vec<&'a str> {
    let code = line.trim_start();
    if path.ends_with(".antt") {
        let other = code.starts_with("--") || line.starts_with("use ");
        return if other { Vec::new() } else { first_name(words(line, true)) };
    }
    if LISTS.iter().any(|ending| path.ends_with(ending)) {
        return words(line, true);
    }
    let comment = code.starts_with("//") || code.starts_with('*');
    if comment || code.starts_with('#') && !code.starts_with("#define") {
        return Vec::new();
    }
    let all = words(line, false);
    let behind = all.windows(2).filter(|pair| KEYWORDS.contains(&pair[0])).map(|pair| pair[1]);
    let mut found: Vec<&str> = behind.collect();
    // A function of C or of a shell: the word before its parameters.
    if path.ends_with(".c") || path.ends_with(".sh") {
        found.extend(code.split('(').next().and_then(|before| before.rsplit([' ', '*']).next()));
    }
    // A field, a variant or a variable: the name that the line begins with.
    found.extend(first_name(all));
    found
}

fn words(line: &str, hyphens: bool) -> Vec<&str> {
    let apart = |letter: char| !is_of_name(letter) && !(hyphens && letter == '-');
    line.split(apart).filter(|word| !word.is_empty()).collect()
}

fn first_name(words: Vec<&str>) -> Vec<&str> {
    words.into_iter().find(|word| !BEFORE.contains(word)).into_iter().collect()
}
