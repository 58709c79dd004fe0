//! `tools/runfile`: the bytes of each operation, errors that name their line, its command line.

use std::path::Path;
use std::process::ExitCode;
use suite::{root, same, shell, Checks, Said, Scratch};

/// Document 01 prints these bytes for its worked example.
const WORKED_EXAMPLE: &str =
    "01000702000300000000 02000800010001000002bc 0400020000 0300020100 040003010101";

/// Texts and the bytes that they become.
const BECOMES: [(&str, &str); 15] = [
    ("# nothing at all", ""),
    ("open 16 1023 4294967295", "0100071003ffffffffff"),
    ("  push 255 left 65535 4294967295 # all at their most", "020008ff00ffffffffffff"),
    ("push 1 right 258 16909060", "0200080101010201020304"),
    ("open 2 3 258 pooled", "05000702000300000102"),
    ("open 16 1023 4294967295 pooled", "0500071003ffffffffff"),
    ("push 1 right 16909060", "060006010101020304"),
    ("push 255 255 4294967295", "060006ffffffffffff"),
    ("pop 3 right", "0300020301"),
    ("pop 3 200", "03000203c8"),
    ("step", "040000"),
    ("step 1 2*3 0*0 255", "04000501020202ff"),
    ("raw 00 FFfe 10", "00fffe10"),
    ("\u{feff}pop 3 right\r\nstep 3\r", "0300020301 04000103"),
    ("\u{feff}# a comment alone\r", ""),
];

/// What stands behind the lines before a bad one: a field of an unknown tag, ff, that says "bad line".
const BAD_LINE: &str = "ff0008626164206c696e65";

/// Texts that are refused, the message, and the bytes of the lines before.
const REFUSES: [(&str, &str, &str); 31] = [
    ("open 1 1", "1: open takes 3 or 4 words, found 2", ""),
    ("open 1 1 0 pooled 0", "1: open takes 3 or 4 words, found 5", ""),
    ("open 1 1 0 named", "1: not pooled: named", ""),
    ("open 1 65536 0 pooled", "1: slots is above 65535: 65536", ""),
    ("open 256 1 0", "1: tasks is above 255: 256", ""),
    ("open 1 65536 0", "1: slots is above 65535: 65536", ""),
    ("open 1 1 4294967296", "1: first tag is above 4294967295: 4294967296", ""),
    (
        "open 1 1 0\n\n# here\npush 0 up 1 1",
        "4: side is not left, right or a number: up",
        "01000701000100000000",
    ),
    ("push 0 left", "1: push takes 3 or 4 words, found 2", ""),
    ("push 0 left 1 1 1", "1: push takes 3 or 4 words, found 5", ""),
    ("push 256 left 1", "1: task is above 255: 256", ""),
    ("push 0 up 1", "1: side is not left, right or a number: up", ""),
    ("push 0 left 4294967296", "1: label is above 4294967295: 4294967296", ""),
    ("push 0 256 1 1", "1: side is above 255: 256", ""),
    ("push 0 left 65536 1", "1: slot is above 65535: 65536", ""),
    ("push 0 left 1 -1", "1: label is not a number: -1", ""),
    ("pop 0", "1: pop takes 2 words, found 1", ""),
    ("step 0\nstep 0*2*2", "2: not TASK or TASK*COUNT: 0*2*2", "04000100"),
    ("step *3", "1: task is missing before *: *3", ""),
    ("step 1 0*", "1: count is missing after *: 0*", ""),
    ("step *", "1: task is missing before *: *", ""),
    ("step 0*x", "1: count is not a number: x", ""),
    ("step 256", "1: task is above 255: 256", ""),
    ("step 7*4097 256", "1: task is above 255: 256", ""),
    ("raw 123", "1: not whole hexadecimal bytes: 123", ""),
    ("raw xy", "1: not whole hexadecimal bytes: xy", ""),
    ("raw 00 1", "1: not whole hexadecimal bytes: 1", ""),
    ("raw", "1: raw takes hexadecimal bytes", ""),
    ("jump 1", "1: unknown operation: jump", ""),
    ("\x1b[2Jst\u{e9}p\\ 1", "1: unknown operation: \\033[2Jst\\303\\251p\\134", ""),
    ("pop 1 \x07", "1: side is not left, right or a number: \\007", ""),
];

fn hex(bytes: &[u8]) -> String {
    bytes.iter().map(|byte| format!("{byte:02x}")).collect()
}

/// What the tool makes of a text on standard input, with this argument if any.
fn made_of(text: &str, argument: Option<&Path>) -> Said {
    let scratch = Scratch::make();
    let text = scratch.file("text", format!("{text}\n").as_bytes());
    match argument {
        Some(word) => {
            shell(r#""$ROOT/tools/runfile" "$WORD" < "$TEXT""#, &[("TEXT", &text), ("WORD", word)])
        }
        None => shell(r#""$ROOT/tools/runfile" < "$TEXT""#, &[("TEXT", &text)]),
    }
}

fn tables(checks: &mut Checks) {
    for (text, bytes) in BECOMES {
        checks.add(&format!("becomes: {}", text.escape_debug()), move || {
            let said = made_of(text, None);
            let bytes = bytes.replace(' ', "");
            same((0, bytes, String::new()), (said.status, hex(&said.out), said.noise))
        });
    }
    for (text, message, before) in REFUSES {
        checks.add(&format!("refuses: {}", text.escape_debug()), move || {
            let said = made_of(text, None);
            let expected =
                (1, format!("{before}{BAD_LINE}"), format!("standard input:{message}\n"));
            same(expected, (said.status, hex(&said.out), said.noise))
        });
    }
}

/// The longest steps fields.
fn long_steps(checks: &mut Checks) {
    let whole = || format!("041000{}", "07".repeat(4096));
    checks.add("becomes: 4096 steps by name", move || {
        same(whole(), hex(&made_of(&format!("step{}", " 7".repeat(4096)), None).out))
    });
    checks.add("becomes: 4097 steps by count", move || {
        same(format!("{}04000107", whole()), hex(&made_of("step 7*4097", None).out))
    });
    checks.add("becomes: the worked example", || {
        let case = root().join("tests/cases/worked_example.txt");
        same(WORKED_EXAMPLE.replace(' ', ""), hex(&made_of("", Some(&case)).out))
    });
}

/// An argument, with the text "pop 1 left" on standard input: status, message, bytes.
fn arguments(checks: &mut Checks) {
    let mut called = |name: &str, word: &str, status: i32, message: &str, bytes: &'static str| {
        let (word, message) = (word.to_string(), message.to_string());
        checks.add(&format!("called with {name}"), move || {
            let said = made_of("pop 1 left", Some(Path::new(&word)));
            same(
                (status, message.clone(), bytes.to_string()),
                (said.status, said.noise, hex(&said.out)),
            )
        });
    };
    let cannot = |name: &str| format!("tools/runfile: cannot open {name}\n");
    called("a dash", "-", 0, "", "0300020100");
    called("no such file", "/nowhere", 1, &cannot("/nowhere"), "");
    called("a folder", "/", 1, &cannot("/"), "");
    called("an empty name", "", 1, &cannot(""), "");
    called("an unprintable name", "\x1b[1mname", 1, &cannot("\\033[1mname"), "");
    checks.add("called with a file in error", || {
        let scratch = Scratch::make();
        let bad = scratch.file("bad.txt", b"jump\n");
        let said = made_of("", Some(&bad));
        same(
            (1, format!("{}:1: unknown operation: jump\n", bad.display())),
            (said.status, said.noise),
        )
    });
    checks.add("called with an unknown option", || {
        same(2, made_of("", Some(Path::new("-x"))).status)
    });
    checks.add("called with --help", || {
        let said = made_of("", Some(Path::new("--help")));
        same((0, true), (said.status, said.out.starts_with(b"usage: tools/runfile")))
    });
}

fn streaming(checks: &mut Checks) {
    checks.add("half a million lines in 10 MB of memory", || {
        let line = r#"set -o pipefail; seq 500000 | sed 's/.*/pop 1 left/' | (ulimit -v 10240; "$ROOT/tools/runfile") | wc -c"#;
        let said = shell(line, &[]);
        same((0, "2500000\n", ""), (said.status, &String::from_utf8_lossy(&said.out), &said.noise))
    });
    checks.add("a full device as output", || {
        let said = shell(
            r#""$ROOT/tools/runfile" "$ROOT/tests/cases/worked_example.txt" > /dev/full"#,
            &[],
        );
        same((true, true), (said.status != 0, !said.noise.is_empty()))
    });
}

fn main() -> ExitCode {
    let mut checks = Checks::of("runfile");
    tables(&mut checks);
    long_steps(&mut checks);
    arguments(&mut checks);
    streaming(&mut checks);
    checks.main()
}
