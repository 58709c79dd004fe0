//! Every path, name and command that a document has in backticks is there; sentences and notes are short.

use documents::{
    allowed, code_lines, content, files, is_document, layers, sentences, spans, Names, TOPS,
};
use std::sync::OnceLock;

const LONGEST_SENTENCE: usize = 300;
const LONGEST_NOTE: usize = 300;

/// Figures of speech that are not to come back.
const BANNED: [&str; 13] = [
    "house",
    "lesson",
    "lessons",
    "sceptic",
    "sceptics",
    "nothing tells",
    "dearest",
    "for free",
    "honest",
    "hostile",
    "nonsense",
    "sleeper",
    "sleepers",
];

fn documents() -> Vec<String> {
    files().into_iter().filter(|path| is_document(path)).collect()
}

/// Read once for all tests.
fn names() -> &'static Names {
    static NAMES: OnceLock<Names> = OnceLock::new();
    NAMES.get_or_init(|| Names::of(&files(), content))
}

fn none(found: Vec<String>) {
    assert!(found.is_empty(), "\n{}\n{} in all", found.join("\n"), found.len());
}

#[test]
fn what_stands_in_backticks_is_there() {
    let names = names();
    let allowed: Vec<String> = allowed().into_iter().map(|(words, _)| words).collect();
    let mut found = Vec::new();
    for path in documents() {
        for (line, span) in spans(&content(&path)) {
            if allowed.contains(&span) {
                continue;
            }
            if let Some(why) = names.misses(&span) {
                found.push(format!("{path}:{line}: `{span}`: {why}"));
            }
        }
    }
    none(found);
}

#[test]
fn paths_in_commands_are_there() {
    let names = names();
    let mut found = Vec::new();
    for path in documents() {
        for (number, line) in code_lines(&content(&path)) {
            let words =
                line.split(|letter: char| letter.is_whitespace() || "'\"`;(),=".contains(letter));
            for word in words.filter(|word| TOPS.iter().any(|top| word.starts_with(top))) {
                if !names.has_path(word.trim_end_matches(['.', ':'])) {
                    found.push(format!("{path}:{number}: no such file or folder: {word}"));
                }
            }
        }
    }
    none(found);
}

#[test]
fn links_lead_somewhere() {
    let mut found = Vec::new();
    for path in documents() {
        let folder =
            path.rsplit_once('/').map_or(String::new(), |(folder, _)| format!("{folder}/"));
        for link in
            content(&path).split("](").skip(1).filter_map(|rest| rest.split([')', '#']).next())
        {
            let there = documents::root().join(format!("{folder}{link}")).exists();
            if !link.contains("://") && !link.is_empty() && !there {
                found.push(format!("{path}: no file {link}"));
            }
        }
    }
    none(found);
}

/// README's table of calls: each call of a row is made by one of the programs that the row names.
#[test]
fn calls_are_shown_by_their_examples() {
    let (mut rows, mut found) = (0, Vec::new());
    for line in content("README.md").lines().filter(|line| line.starts_with("| `zc_")) {
        let (first, rest) = line[2..].split_once(" | ").expect("a row");
        let programs: String = spans(rest.rsplit_once(" | ").expect("a row").1)
            .iter()
            .map(|(_, path)| content(path))
            .collect();
        let words: Vec<&str> =
            programs.split(|letter: char| !letter.is_alphanumeric() && letter != '_').collect();
        rows += 1;
        for (_, call) in spans(first) {
            let wrapped = call.replacen("zc_", "zc_queue_", 1);
            if !words.contains(&call.as_str()) && !words.contains(&wrapped.as_str()) {
                found.push(format!("{call}: no program of its row makes it"));
            }
        }
    }
    assert!(rows > 10, "README.md has no table of calls");
    none(found);
}

#[test]
fn every_allowed_word_has_a_reason_and_is_needed() {
    let names = names();
    let spans: Vec<String> =
        documents().iter().flat_map(|path| spans(&content(path))).map(|(_, span)| span).collect();
    let mut found = Vec::new();
    for (words, reason) in allowed() {
        if reason.is_empty() {
            found.push(format!("{words}: no reason"));
        } else if !spans.contains(&words) {
            found.push(format!("{words}: in no document"));
        } else if names.misses(&words).is_none() {
            found.push(format!("{words}: it is there, and needs no leave"));
        }
    }
    none(found);
}

#[test]
fn sentences_are_short() {
    let mut found = Vec::new();
    for path in documents() {
        for (line, sentence) in sentences(&content(&path)) {
            let length = sentence.chars().count();
            if length > LONGEST_SENTENCE {
                let begin: String = sentence.chars().take(80).collect();
                found.push(format!("{path}:{line}: {length} characters: {begin}.."));
            }
        }
    }
    none(found);
}

#[test]
fn notes_of_requests_are_short() {
    let notes = files().into_iter().filter(|path| path.starts_with("docs/changes/1"));
    let counted = notes.map(|path| (content(&path).split_whitespace().count(), path));
    none(
        counted
            .filter(|(words, _)| *words >= LONGEST_NOTE)
            .map(|(words, path)| format!("{path}: {words} words"))
            .collect(),
    );
}

/// An entry of the decisions is a paragraph that begins with its title in bold.
#[test]
fn every_decision_names_what_was_rejected() {
    let text = content("docs/DECISIONS.md");
    let entries: Vec<&str> = text.split("\n\n").filter(|entry| entry.starts_with("**")).collect();
    assert!(entries.len() > 50, "docs/DECISIONS.md has no entries");
    let without = entries.iter().filter(|entry| !entry.contains("Rejected: "));
    none(without.map(|entry| entry.chars().take(80).collect()).collect());
}

/// Where a text first names a request, as #108.
fn first_request(text: &str) -> Option<usize> {
    let names = |rest: &str| rest.chars().take_while(char::is_ascii_digit).count() == 3;
    text.match_indices("#1").map(|(at, _)| at).find(|&at| names(&text[at + 1..]))
}

/// A document that has a word of the papers says what it is in the same line or before. Of the notes their index does.
#[test]
fn words_of_the_papers_are_explained() {
    let mut found = Vec::new();
    let whole = documents().into_iter().filter(|path| !path.starts_with("docs/changes/"));
    for path in whole.chain(["docs/changes/README.md".to_string()]) {
        let text = content(&path).to_lowercase();
        let words = [
            ("document 01", text.find("document 01"), "scope paper"),
            ("document 02", text.find("document 02"), "change requests"),
            ("demand 3", text.find("demand 3"), "linearizab"),
            ("a request's number", first_request(&text), "request"),
        ];
        for (word, at, meaning) in words {
            let line = at.map(|at| at + text[at..].find('\n').unwrap_or(text.len() - at));
            if line.is_some_and(|end| !text[..end].contains(meaning)) {
                found.push(format!("{path}: {word} is not explained where it first stands"));
            }
        }
    }
    none(found);
}

#[test]
fn plain_words() {
    let mut found = Vec::new();
    for path in files().iter().filter(|path| !path.starts_with("tests/documents/")) {
        for (at, line) in content(path).lines().enumerate() {
            let words: Vec<String> =
                line.split(|letter: char| !letter.is_alphabetic()).map(str::to_lowercase).collect();
            let line = format!(" {} ", words.join(" "));
            for banned in BANNED.iter().filter(|banned| line.contains(&format!(" {banned} "))) {
                found.push(format!("{path}:{}: {banned}", at + 1));
            }
        }
    }
    none(found);
}

/// `docs/ARCHITECTURE.md` has each crate of `crates.txt` once, with the same direct dependencies, above all that it uses.
#[test]
fn the_layers_are_those_of_the_list_of_crates() {
    let described = layers::described();
    let mut found = Vec::new();
    for (name, needs) in layers::listed() {
        let rows: Vec<_> = described.iter().filter(|one| one.name == name).collect();
        let [row] = rows.as_slice() else {
            found.push(format!("{name} stands in {} rows", rows.len()));
            continue;
        };
        if row.needs != needs {
            found.push(format!("{name} uses {needs:?}, its row has {:?}", row.needs));
        }
        let above =
            described.iter().filter(|one| one.layer > row.layer && needs.contains(&one.name));
        found.extend(
            above.map(|one| format!("{name} uses {}, which is of a layer above", one.name)),
        );
    }
    let listed: Vec<String> = layers::listed().into_iter().map(|(name, _)| name).collect();
    let strangers = described.iter().filter(|one| !listed.contains(&one.name));
    found.extend(strangers.map(|one| format!("{} is not in crates.txt", one.name)));
    none(found);
}

#[test]
fn the_picture_of_the_layers_is_up_to_date() {
    let kept = content("docs/layers.svg");
    assert!(
        kept == layers::picture(),
        "`cargo run --release -p documents --bin layers` writes docs/layers.svg anew"
    );
}

/// Crates that are not named, but whose types a crate hands on by value; rt must know them.
const HANDED_ON: [(&str, &str); 2] = [("capi", "word"), ("trace_pages", "model")];

/// A crate of `crates.txt` names each of its dependencies somewhere in its own files.
#[test]
fn dependencies_are_direct() {
    let files = files();
    let mut found = Vec::new();
    for (name, needs) in layers::listed() {
        let folder = format!("crates/{name}/");
        let own = files.iter().filter(|path| path.starts_with(&folder));
        let text: String =
            own.filter(|path| !path.contains("/must-fail/")).map(|path| content(path)).collect();
        for need in needs {
            let forms = [format!("{need}::"), format!("Rattle.{need}.")];
            let named = forms.iter().any(|form| text.contains(form.as_str()));
            if named == HANDED_ON.contains(&(&name, &need)) {
                found.push(format!("{name} names {need}: {named}"));
            }
        }
    }
    none(found);
}

/// The outside calls in the Rattle sources of a crate: their names, and all from there to their bodies, each word apart.
fn outside_calls(folder: &str) -> Vec<(String, String)> {
    let sources: Vec<String> =
        files().into_iter().filter(|path| path.starts_with(folder) && path.ends_with(".rt")).collect();
    let mut found = Vec::new();
    for path in sources {
        for after in content(&path).split("fn zc_").skip(1) {
            let head = after.split("\n{\n").next().unwrap_or(after);
            let words: Vec<&str> = head.split_whitespace().collect();
            let name = head.split('(').next().unwrap_or(head);
            found.push((format!("zc_{name}"), words.join(" ")));
        }
    }
    found
}

#[test]
fn what_is_exported_has_the_contract_of_its_library() {
    let exporting: Vec<String> = content("crates.txt")
        .lines()
        .filter_map(|line| line.split_once(" staticlib:"))
        .map(|(name, _)| name.to_string())
        .collect();
    let made = content("Makefile");
    let made = made.lines().find_map(|line| line.strip_prefix("EXPORTS = ")).expect("EXPORTS");
    assert_eq!(made.split(' ').collect::<Vec<_>>(), exporting);
    let mut wrong = Vec::new();
    for (exports, library) in exporting.iter().filter_map(|name| Some((name, name.strip_suffix("_c")?))) {
        let proved = outside_calls(&format!("crates/{library}/src/"));
        let exported = outside_calls(&format!("crates/{exports}/src/"));
        if proved.len() != exported.len() {
            wrong.push(format!("{library} has {} calls, {exports} {}", proved.len(), exported.len()));
        }
        for (name, contract) in exported {
            if !proved.contains(&(name.clone(), contract)) {
                wrong.push(format!("{name} has another contract in {exports} than in {library}"));
            }
        }
    }
    none(wrong);
}
