//! Every example's view: `view examples/NAME.txt` must print `tests/views/NAME.view`, and where the example
//! is about a wrong queue, `view --without` must print `NAME.beside`.

use std::fs::{read_dir, read_to_string};
use std::path::Path;
use std::process::ExitCode;
use suite::{root, same, shell, texts, Verdict};
use toolsuite::{content, same_lines, view};

fn stored(name: &str, ending: &str, words: &str, run: &Path) -> Verdict {
    let path = root().join(format!("tests/views/{name}.{ending}"));
    let expected = read_to_string(&path).map_err(|error| format!("  no view: {error}"))?;
    same_lines(&expected, &content(view(words, run))?)
}

/// The view that docs/TOOLS.md shows: the lines below its command, up to the sums.
fn documented() -> Verdict {
    let text =
        read_to_string(root().join("docs/TOOLS.md")).map_err(|error| format!("  {error}"))?;
    let mut lines = text.lines().skip_while(|line| !line.starts_with("$ tools/view "));
    let command = lines.next().ok_or("  docs/TOOLS.md has no view")?;
    let shown: Vec<&str> = lines.take_while(|line| *line != "```").collect();
    let found = content(shell(&format!("cd \"$ROOT\" && {}", &command[2..]), &[]))?;
    let rows: Vec<&str> = found.lines().take_while(|line| !line.is_empty()).collect();
    same_lines(&shown.join("\n"), &rows.join("\n"))
}

fn main() -> ExitCode {
    let mut checks = toolsuite::checks("views");
    let mut files = 0;
    for (name, run) in texts("examples") {
        files += 1;
        let (title, text) = (name.clone(), run.clone());
        checks.add(&name, move || stored(&title, "view", "--width 120 \"$RUN\"", &text));
        if let Some(fault) = name.strip_prefix("without_") {
            files += 1;
            let words = format!("--width 140 --without {fault} \"$RUN\"");
            let title = name.clone();
            checks.add(&format!("{name} beside"), move || stored(&title, "beside", &words, &run));
        }
    }
    checks.add("the view in docs/TOOLS.md", documented);
    checks.add("no view without its example", move || {
        same(files, read_dir(root().join("tests/views")).expect("the stored views").count())
    });
    checks.main()
}
