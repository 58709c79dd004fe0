//! A test built and run on a file with a fault in it, which it must see: it ends with a failure.

use std::path::{Path, PathBuf};
use suite::{plain_shell, root, Scratch, Told};

/// The calls by hand, which stand for the library.
const BY_HAND: &str =
    "reference audit_reference sheet schedules join_reference serve shelf_reference touch_reference";

/// What is compiled once.
pub struct Workshop {
    folder: Scratch,
}

// Lines of shell: `$FILE` is the file with the fault, `$NAME` the repository's name for it, `$MADE` the
// workshop's folder, `$WORK` one of its own.

/// The faulty calls by hand, compiled; `$others` are those that are as they should be.
const OBJECT: &str = r#"
    cc -std=c11 -O1 -w -fPIC -DAS_LIBRARY -Iinclude -Ibench -c "$FILE" -o "$WORK/fault.o"
    others=$(ls "$MADE"/by_hand/*.o | grep -v "/$(basename "$NAME" .c).o$" || true)
"#;

/// A part of the differential test, with a shared object in the library's place.
fn part(name: &str) -> String {
    let program = env!("CARGO_BIN_EXE_library-differential");
    format!(
        r#"{OBJECT}
           cc -shared "$WORK/fault.o" $others -o "$WORK/fault.so"
           set +e; ZC_OBJECT=$WORK/fault.so limited {program} {name} 1 1"#
    )
}

/// `tests/library/NAME.c` beside the right calls by hand, with the faulty ones in the library's place.
fn beside(name: &str) -> String {
    format!(
        r#"{OBJECT}
           cc "$MADE/{name}.o" "$MADE/right/reference.o" "$MADE/right/{name}_reference.o" "$WORK/fault.o" -o "$WORK/program"
           set +e; limited "$WORK/program" 20000"#
    )
}

/// `tests/library/NAME.c` alone, likewise.
fn program(name: &str) -> Option<String> {
    let source = format!("tests/library/{name}.c");
    root().join(&source).is_file().then(|| {
        format!(
            r#"{OBJECT}
               cc -std=c11 -O1 -w -Iinclude -Ibench {source} "$WORK/fault.o" $others -o "$WORK/program"
               set +e; limited "$WORK/program""#
        )
    })
}

/// A program of `tests/threads`, with the faulty header in the other's place.
fn atomic(compiler: &str, sources: &str, program: &str) -> String {
    format!(
        r#"cp "$FILE" "$WORK/zeppolecape_atomic.h"
           {compiler} -O1 -w -I"$WORK" -Iinclude -Ibench -Itests/library {sources} "$MADE/by_hand.a" -pthread -o "$WORK/{program}"
        "#
    )
}

/// `tests/threads/touches.c` beside the right calls by hand, with the faulty ones in the library's place.
fn touch_calls(sources: &str) -> String {
    format!(
        r#"{OBJECT}
           cc -std=gnu11 -O1 -w -Iinclude -Ibench -Itests/library {sources} "$WORK/fault.o" $others -o "$WORK/touches"
           set +e; limited "$WORK/touches" 200000"#
    )
}

/// Accounts or rounds see it, by one of the seeds.
fn threads() -> String {
    let accounts = atomic("cxx", "tests/threads/accounts.cc", "accounts");
    let rounds = atomic("cxx", "tests/threads/rounds.cc", "rounds");
    format!(
        r#"{accounts}{rounds}
           for seed in $SEEDS; do for program in accounts rounds; do
               limited "$WORK/$program" 1 $seed || exit 1
           done; done"#
    )
}

/// How a test is made and run, if there is one of this name.
fn recipe(test: &str) -> Option<String> {
    let touches = "tests/threads/touches.c bench/touch_reference.c";
    match test {
        "calls" | "sheet" | "join" | "serve" | "shelf" | "audit" | "schedules" => Some(part(test)),
        "joinings" => Some(beside("join")),
        "shelves" => Some(beside("shelf")),
        "touches" => Some(
            atomic("cc -std=gnu11", touches, "touches")
                + r#"set +e; limited "$WORK/touches" 200000"#,
        ),
        "touch_calls" => Some(touch_calls(touches)),
        "tsan" => {
            let built = atomic("cxx -fsanitize=thread", "tests/threads/accounts.cc", "accounts");
            Some(built + r#"set +e; limited "$WORK/accounts" 2"#)
        }
        "threads" => Some(threads()),
        name => program(name),
    }
}

/// A program that hangs is stopped by the processor's time that it takes, so that no busy machine is taken
/// for it. What can't be built ends with 99, so that it is not taken for a fault that is seen.
const PRELUDE: &str = r#"set -eu -o pipefail
    cc() { gcc "$@" || exit 99; }
    cxx() { g++ -std=c++17 "$@" || exit 99; }
    limited() { (ulimit -t 60 && TSAN_OPTIONS=halt_on_error=1 exec "$@"); }
"#;

impl Workshop {
    /// Compiles the calls by hand: as the library, and beside it.
    pub fn set_up() -> Result<Workshop, String> {
        let folder = Scratch::make();
        let lines = format!(
            r#"set -eu
               mkdir "$MADE/by_hand" "$MADE/right"
               for name in {BY_HAND}; do
                   gcc -std=c11 -O2 -w -fPIC -DAS_LIBRARY -Iinclude -Ibench -c bench/$name.c -o "$MADE/by_hand/$name.o" &
               done
               for name in reference join_reference shelf_reference; do
                   gcc -std=c11 -O2 -w -Iinclude -Ibench -c bench/$name.c -o "$MADE/right/$name.o" &
               done
               for name in join shelf; do
                   gcc -std=c11 -O2 -w -Iinclude -Ibench -c tests/library/$name.c -o "$MADE/$name.o" &
               done
               wait
               ar rcs "$MADE/by_hand.a" "$MADE"/by_hand/*.o"#
        );
        plain_shell(&lines, &[("MADE", &folder.path(""))]).content()?;
        Ok(Workshop { folder })
    }

    /// The status with which a test ends on this text in the file's place, and what it said.
    fn run(
        &self,
        test: &str,
        seeds: &str,
        file: &str,
        text: &str,
    ) -> Result<(i32, String), String> {
        let recipe = recipe(test).ok_or(format!("  there is no test {test}"))?;
        let work = Scratch::make();
        let name = PathBuf::from(file);
        let end = name.extension().unwrap_or_default().to_string_lossy().into_owned();
        let planted = work.file(&format!("planted.{end}"), text.as_bytes());
        let names = [
            ("MADE", &*self.folder.path("")),
            ("WORK", &*work.path("")),
            ("FILE", &*planted),
            ("NAME", &*name),
            ("SEEDS", Path::new(seeds)),
        ];
        let said = plain_shell(&format!("{PRELUDE}{recipe}"), &names);
        let all = String::from_utf8_lossy(&said.out) + said.noise.as_str();
        match said.status {
            2 | 3 | 99 | 124 | 126 | 127 => {
                Err(format!("  the test could not be made ({}):\n{all}", said.status))
            }
            status => Ok((status, all.into_owned())),
        }
    }

    /// Without a fault the test passes.
    pub fn passes(&self, test: &str, file: &str) -> Told {
        let text = std::fs::read_to_string(root().join(file)).map_err(|error| error.to_string())?;
        match self.run(test, "1", file, &text)? {
            (0, _) => Ok(String::new()),
            (status, said) => Err(format!("  status {status} without any fault\n{said}")),
        }
    }

    /// With the fault it fails: the line that says so.
    pub fn sees(&self, test: &str, file: &str, text: &str) -> Told {
        let (status, said) = self.run(test, "1 2 3 4", file, text)?;
        if status == 0 {
            return Err(format!("  NOT SEEN by {test}"));
        }
        let telling = ["FAILED", "MISMATCH", "WARNING: ", "round "];
        let line = said.lines().find(|line| telling.iter().any(|word| line.contains(word)));
        let line = line.map_or(format!("it stopped with status {status}"), str::to_string);
        Ok(format!("{test}: {}", line.chars().take(150).collect::<String>()))
    }
}
