//! The tools that judge: `verdict` on histories, `sheet` on order sheets, `schedules` on two half-done calls.
//! What they must say was worked out from document 02 (#103, #107, #111).

use std::process::ExitCode;
use suite::{root, same, shell, Checks, Scratch};

const PUSH: &str = "0 push right 700 pushed 1 3\n";
const EMPTY: &str = "0 pop left - empty 4 11\n";
const POPPED: &str = "1 pop right 700 popped 5 10\n";

/// What follows the calls above, or a whole text: status, output, complaint.
const HISTORIES: [(&str, i32, &str, &str); 15] = [
    ("C order 1 3 2", 0, "passes\n", ""),
    ("C order 1 2 3", 1, "fails at 2\nposition 2, call 2, line 2: told empty, but 700 waited\n", ""),
    ("C order 2 1 3", 1, "fails at 1\nposition 1, call 2, line 2: started at event 4, and stands before call 1, line 1, answered at 3\n", ""),
    ("C order 1 3", 1, "no rearrangement: the order names 2 calls, and there are 3\n", ""),
    ("C order 1 3 3", 1, "no rearrangement: positions 2 and 3 both name call 3\n", ""),
    ("C order 1 3 0", 1, "no rearrangement: position 3 names call 0, and there are 3\n", ""),
    ("C order 1 4 2", 1, "no rearrangement: position 2 names call 4, and there are 3\n", ""),
    ("C", 2, "", "verdict: the order is missing; it is the last line, `order` and the calls' numbers\n"),
    ("0 pop left 7 popped 1 2\norder 1", 1, "fails at 1\nposition 1, call 1, line 1: told popped 7, but nothing waited\n", ""),
    ("0 push left 1 empty 1 2\norder 1", 1, "fails at 1\nposition 1, call 1, line 1: told empty, and it is a push\n", ""),
    ("0 2 left - empty 1 2\norder 1", 2, "", "verdict: refused 40: call 1, line 1: kind 2 is neither push (0) nor pop (1)\n"),
    ("0 pop left - 5 1 2\norder 1", 2, "", "verdict: standard input:1: `-` stands for a label only with `empty`\n"),
    ("0 pop left - empty 3 3\norder 1", 2, "", "verdict: refused 40: call 1, line 1: answered at event 3, not after its start at 3\n"),
    ("0 pop left - empty 1 2\n\n1 pop left - empty 2 3\norder 1 2", 2, "", "verdict: refused 40: event 2 is the answer of call 1, line 1 and the start of call 2, line 3\n"),
    ("0 push up 1 pushed 1 2\norder 1", 2, "", "verdict: standard input:1: `left` or `right` is wanted, and not up\n"),
];

fn text_of(history: &str) -> String {
    match history.strip_prefix('C') {
        Some(rest) => format!("{PUSH}{EMPTY}{POPPED}{}\n", rest.trim_start()),
        None => format!("{history}\n"),
    }
}

/// A tool's words on a text, which `TEXT` names.
fn says(line: &str, text: &str) -> (i32, String, String) {
    let scratch = Scratch::make();
    let text = scratch.file("text", text.as_bytes());
    let said = shell(line, &[("TEXT", &text)]);
    (said.status, String::from_utf8_lossy(&said.out).into_owned(), said.noise)
}

fn told(status: i32, out: &str, noise: &str) -> (i32, String, String) {
    (status, out.to_string(), noise.to_string())
}

fn histories(checks: &mut Checks) {
    for (history, status, out, noise) in HISTORIES {
        checks.add(&format!("verdict: {}", history.escape_debug()), move || {
            let found = says("\"$ROOT/tools/verdict\" < \"$TEXT\"", &text_of(history));
            same(told(status, out, noise), found)
        });
    }
    checks.add("verdict: a byte-order mark, CRLF", || {
        let text = format!("\u{feff}{}", text_of("C order 1 3 2").replace('\n', "\r\n"));
        same(told(0, "passes\n", ""), says("\"$ROOT/tools/verdict\" \"$TEXT\"", &text))
    });
    checks.add("verdict: 65 calls", || {
        let calls: String =
            (0..65).map(|n| format!("0 pop left - empty {} {}\n", 2 * n, 2 * n + 1)).collect();
        let noise = "verdict: refused 40: 65 calls, and at most 64 are judged\n";
        same(told(2, "", noise), says("\"$ROOT/tools/verdict\" < \"$TEXT\"", &(calls + "order 1")))
    });
    let find = |history: &str| says("\"$ROOT/tools/verdict\" --find \"$TEXT\"", &text_of(history));
    checks.add("find: the claimed order is not asked", move || {
        same(told(0, "order 1 3 2\n", ""), find("C order 3 2 1"))
    });
    checks
        .add("find: an order is not needed", move || same(told(0, "order 1 3 2\n", ""), find("C")));
    checks.add("find: there is none", move || {
        let lost = "0 push right 700 pushed 1 3\n0 pop left - empty 4 11\n";
        same(told(1, "no order passes\n", ""), find(lost))
    });
    // 32 pushes at the right and 32 pops at the left, all at once, of labels that come out in this order.
    let at_once = |first: u64, taken: fn(u64) -> u64| -> String {
        let push = |n| format!("{n} push right {} pushed {n} {}\n", first + n, 1000 + n);
        let pop = |n| format!("{n} pop left {} popped {n} {}\n", taken(n), 1000 + n);
        (0..32).map(push).chain((32..64).map(pop)).collect()
    };
    checks.add("find: 64 calls, all at once", move || {
        let (status, out, noise) = find(&at_once(0, |n| 63 - n));
        same((0, true, ""), (status, out.starts_with("order "), &noise))
    });
    checks.add("find: it says when it gives up", move || {
        let noise = "verdict: gave up after 500000 states of the queue\n";
        same(told(2, "", noise), find(&at_once(100, |n| 63 - n)))
    });
}

/// Sheets on examples/the_carton.txt, in which 702 700 701 wait: status, output, complaint.
const SHEETS: [(&str, i32, &str, &str); 10] = [
    ("", 0, "kept\n", ""),
    ("702 before 700\n700 before 701\n", 0, "kept\n", ""),
    ("label 1\n1 before 1\n", 0, "kept\n", ""),
    ("700 before 702\n", 1, "broken: 700 must print before 702\n  700 waits at 2\n  702 waits at 1\n  line 1: 700 before 702\n", ""),
    ("701 before 9\n# through a label that does not wait\n9 before 702\n", 1, "broken: 701 must print before 702\n  701 waits at 3\n  702 waits at 1\n  line 1: 701 before 9\n  line 3: 9 before 702\n", ""),
    ("label 701 wedge\nwedge before wedge\n", 1, "broken: wedge (701) must print before itself\n  wedge (701) waits at 3\n  line 2: wedge (701) before wedge (701)\n", ""),
    ("lid before 700\n", 2, "", "sheet: TEXT:1: no label is called lid\n"),
    ("label 700 a\nlabel 701 a\n", 2, "", "sheet: TEXT:2: two labels are called a\n"),
    ("label 700 7up\n", 2, "", "sheet: TEXT:1: not a name: 7up\n"),
    ("700 > 701\n", 2, "", "sheet: TEXT:1: `label NUMBER [NAME]` or `LABEL before LABEL` is wanted\n"),
];

fn sheets(checks: &mut Checks) {
    let on_carton = |sheet: &str| {
        let line = "\"$ROOT/tools/sheet\" \"$ROOT/examples/the_carton.txt\" \"$TEXT\" 2>&1 >&3 3>&- | sed \"s#$TEXT#TEXT#\" >&2; exit ${PIPESTATUS[0]}";
        says(&format!("{{ {line}; }} 3>&1"), sheet)
    };
    for (sheet, status, out, noise) in SHEETS {
        checks.add(&format!("sheet: {}", sheet.escape_debug()), move || {
            same(told(status, out, noise), on_carton(sheet))
        });
    }
    let many = |count: u32| (1..=count).map(|label| format!("label {label}\n")).collect::<String>();
    checks.add("sheet: 32 labels", move || same(told(0, "kept\n", ""), on_carton(&many(32))));
    checks.add("sheet: 33 labels", move || {
        let (status, out, noise) = on_carton(&many(33));
        same((2, "", true), (status, &out, noise.ends_with(": 33 labels, of at most 32\n")))
    });
    checks.add("sheet: 129 rules", move || {
        let (status, out, noise) = on_carton(&"1 before 2\n".repeat(129));
        same((2, "", true), (status, &out, noise.ends_with(": 129 rules, of at most 128\n")))
    });
    checks.add("sheet: the example", || {
        let path = root().join("examples/the_carton.sheet");
        let sheet = std::fs::read_to_string(path).map_err(|error| error.to_string())?;
        let first = sheet.lines().next().unwrap_or_default().trim_start_matches("# ").to_string();
        let line = "\"$ROOT/tools/sheet\" \"$ROOT/examples/the_carton.txt\" \"$ROOT/examples/the_carton.sheet\"";
        let said = shell(line, &[]);
        let out = String::from_utf8_lossy(&said.out).into_owned();
        same((1, first), (said.status, out.lines().next().unwrap_or_default().to_string()))
    });
}

/// Two pops of one label, task 0's at the left and task 1's at the right: with #106 a task alone pops in
/// three steps, and the other one answers *empty* at its first reading or at its failed change.
const TWO_POPS: &str = "open 2 2 0\npush 0 right 1 700\nstep 0*2\npop 0 left\npop 1 right\n";

/// Every order of the two pops, by hand. Each reads, changes Anchor and takes the label; who changes it first
/// wins. The other is told *empty* at its first step, if that comes later, or else at its second.
const ORDERS: [&str; 12] = [
    "0001", "0010", "01001", "01010", "01101", "01110", "10001", "10010", "10101", "10110", "1101",
    "1110",
];

fn schedules(checks: &mut Checks) {
    checks.add("schedules: every order and its answers", || {
        let lines = ORDERS.map(|order| match order {
            "0001" | "0010" | "01001" | "01010" | "10001" | "10010" => {
                format!("{order}  0 popped 1 700  1 empty\n")
            }
            _ => format!("{order}  0 empty  1 popped 1 700\n"),
        });
        let wanted = lines.concat() + "12 schedules: 12 answered, 0 cut, 0 refused\n";
        same(told(0, &wanted, ""), says("\"$ROOT/tools/schedules\" \"$TEXT\"", TWO_POPS))
    });
    checks.add("schedules: --summary counts both winners alike", || {
        let (status, out, _) = says("\"$ROOT/tools/schedules\" --summary \"$TEXT\"", TWO_POPS);
        let lines: Vec<&str> = out.lines().collect();
        let begins =
            |at: usize, words: &str| lines.get(at).is_some_and(|line| line.starts_with(words));
        same(
            (0, 3, true, true, Some(&"12 orders, 2 outcomes")),
            (
                status,
                lines.len(),
                begins(
                    0,
                    "6 orders: task 0 popped 700 from slot 1, task 1 empty; waiting nothing. ",
                ),
                begins(
                    1,
                    "6 orders: task 0 empty, task 1 popped 700 from slot 1; waiting nothing. ",
                ),
                lines.last(),
            ),
        )
    });
    checks.add("schedules: an order as a run", || {
        let line = "\"$ROOT/tools/schedules\" --run 1 \"$TEXT\"";
        let wanted = format!("{TWO_POPS}# order 1\nstep 0*3 1\n");
        same(told(0, &wanted, ""), says(line, TWO_POPS))
    });
    checks.add("schedules: no such order", || {
        let noise = "schedules: there is no order 13; there are 12\n";
        same(told(1, "", noise), says("\"$ROOT/tools/schedules\" --run 13 \"$TEXT\"", TWO_POPS))
    });
    checks.add("schedules: not two half-done calls", || {
        let (status, out, noise) = says("\"$ROOT/tools/schedules\" < \"$TEXT\"", "open 2 2 0\n");
        same((1, "", true), (status, &out, noise.starts_with("schedules: refused 42: ")))
    });
    checks.add("schedules: a run file is taken too", || {
        let line = "\"$ROOT/tools/runfile\" \"$TEXT\" | \"$ROOT/tools/schedules\" | tail -n 1";
        same(told(0, "12 schedules: 12 answered, 0 cut, 0 refused\n", ""), says(line, TWO_POPS))
    });
    checks.add("schedules: one page, which asks nobody for anything", || {
        let (status, out, _) = says("\"$ROOT/tools/schedules\" --html \"$TEXT\"", TWO_POPS);
        let alone = out.contains("content=\"default-src 'none'; style-src 'unsafe-inline'; script-src 'unsafe-inline'; img-src data:\"");
        same((0, true, true), (status, out.contains("12 orders, 2 outcomes"), alone))
    });
}

fn main() -> ExitCode {
    let mut checks = toolsuite::checks("judges");
    for tool in ["verdict", "sheet", "schedules"] {
        checks.add(&format!("{tool} --help"), move || {
            let said = shell(&format!("\"$ROOT/tools/{tool}\" --help"), &[]);
            let usage = said.out.starts_with(format!("usage: tools/{tool}").as_bytes());
            same((0, true, ""), (said.status, usage, &said.noise))
        });
        checks.add(&format!("{tool} with an unknown option"), move || {
            let said = shell(&format!("\"$ROOT/tools/{tool}\" --what"), &[]);
            let begins = format!("{tool}: unknown option --what\nusage: tools/{tool}");
            same((2, true), (said.status, said.noise.starts_with(&begins)))
        });
    }
    histories(&mut checks);
    sheets(&mut checks);
    schedules(&mut checks);
    checks.main()
}
