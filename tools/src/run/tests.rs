use super::*;

fn read(bytes: &[u8]) -> Result<Vec<(Place, Operation)>, String> {
    let bytes = io::Cursor::new(bytes.to_vec());
    let mut run = Run::of("it", Box::new(bytes)).map_err(|stop| format!("{stop:?}"))?;
    let mut found = Vec::new();
    loop {
        match run.next() {
            Ok(Some(operation)) => found.push(operation),
            Ok(None) => return Ok(found),
            Err(Stop::Failed(what)) => return Err(what),
            Err(other) => return Err(format!("{other:?}")),
        }
    }
}

const OPENING: Operation = Operation::Open { pooled: false, tasks: 2, slots: 3, first_tag: 0 };

/// Document 01's worked example, in both forms.
#[test]
fn worked_example() {
    let text = "open 2 3 0\npush 0 right 1 700\nstep 0 0\npop 1 left\nstep 1*3\n";
    let file = b"\x01\0\x07\x02\0\x03\0\0\0\0\x02\0\x08\0\x01\0\x01\0\0\x02\xbc\x04\0\x02\0\0\
        \x03\0\x02\x01\0\x04\0\x03\x01\x01\x01";
    let (text, file) = (read(text.as_bytes()).unwrap(), read(file).unwrap());
    let of = |run: &[(Place, Operation)]| run.iter().map(|&(_, one)| one).collect::<Vec<_>>();
    assert_eq!(of(&text), of(&file));
    assert_eq!(text[0], (Place::Line(1), OPENING));
    assert_eq!(text[7], (Place::Line(5), Operation::Step { task: 1 }));
    assert_eq!(file[7], (Place::Byte(31), Operation::Step { task: 1 }));
}

#[test]
fn marks_and_line_ends_of_other_systems() {
    let plain = read(b"open 2 3 0\nstep 1\n").unwrap();
    assert_eq!(read(b"\xef\xbb\xbfopen 2 3 0\r\nstep 1\r\n").unwrap(), plain);
    assert_eq!(read(b"\xef\xbb\xbf# a\r\n").unwrap(), [(Place::Line(1), Operation::Malformed)]);
}

#[test]
fn a_bad_line_is_named() {
    let bad = |text: &str| read(text.as_bytes()).unwrap_err();
    assert_eq!(bad("open 2 3 0\n\njump"), "it:3: unknown operation: jump");
    assert_eq!(bad("step 0*x"), "it:1: count is not a number: x");
    assert_eq!(bad("push 0 up 1"), "it:1: side is not left, right or a number: up");
}

/// Document 01: a wrong length, unknown tag, cut field, any field before 01, a second 01 or a file with
/// no field.
#[test]
fn malformed() {
    let ends = |bytes: &[u8]| *read(bytes).unwrap().last().unwrap();
    let open = b"\x01\0\x07\x02\0\x03\0\0\0\0";
    let after = |rest: &[u8]| ends(&[open, rest].concat());
    assert_eq!(ends(b""), (Place::Line(1), Operation::Malformed));
    assert_eq!(ends(b"\x04\0\0"), (Place::Byte(0), Operation::Malformed));
    assert_eq!(ends(&open[..9]), (Place::Byte(0), Operation::Malformed));
    for rest in [&b"\x03\0\x01\x01"[..], b"\x07\0\0", b"\x03\0", b"\x04\x10\x01", open] {
        assert_eq!(after(rest), (Place::Byte(10), Operation::Malformed));
    }
    assert_eq!(after(b""), (Place::Byte(0), OPENING));
}

/// What raw bytes begin, later lines may end.
#[test]
fn raw_bytes() {
    let run = read(b"open 2 3 0\nraw 0400\nraw 0201\nraw 00 040001\nraw 01\npop 1 left\n").unwrap();
    let step = |line, task| (Place::Line(line), Operation::Step { task });
    assert_eq!(run[1..4], [step(2, 1), step(2, 0), step(4, 1)]);
    assert_eq!(run[4], (Place::Line(6), Operation::Pop { task: 1, side: 0 }));
}
