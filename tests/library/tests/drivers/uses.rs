//! The examples of `examples/`, by the commands that its README names, and projects on an installed library.

use suite::{made, Checks, Told};

/// Examples in C, and a line that each must print.
const EXAMPLES: [(&str, &str); 6] = [
    ("interrupt", "no label lost"),
    ("threads", "no label lost"),
    ("renew", "no label lost"),
    ("changeover", "cheese: 301 302 303"),
    ("lanes", "prints 101 102 103 104 105 106 107"),
    ("sheet", "a wedge behind the pallet's label: broken, 7105 must print before 9000"),
];

/// The executives in C and Rust say the same for the same seed, and lose nothing.
const EXECUTIVES: &str = r#"
    cargo build --quiet --offline --locked -p executive
    built=${CARGO_TARGET_DIR:-target/cargo}/debug
    gcc $STRICT -Iinclude examples/c/executive.c "$ARCHIVE" -o "$WORK/executive"
    for seed in 1 2 3 4 5 6 7 8 9 10 18446744073709551615; do
        "$WORK/executive" $seed > "$WORK/c"
        grep -qx 'no label lost' "$WORK/c"
        "$built/executive" $seed > "$WORK/rust"
        cmp "$WORK/c" "$WORK/rust"
    done
    "$built/threads"
"#;

/// What the build of the Rust crate says where the archive is missing; in a folder of its own, so that
/// nothing that was built is built again.
fn says(folder: &str, words: &str) -> Told {
    made(&format!(
        r#"! ZEPPOLECAPE_LIB_DIR={folder} cargo check --quiet --offline --locked --target-dir "$WORK/cargo" -p zeppolecape > "$WORK/said" 2>&1
           grep -qF '{words}' "$WORK/said" || {{ cat "$WORK/said"; exit 1; }}"#
    ))
}

pub fn examples(checks: &mut Checks) {
    checks.add("example: the executives in C and Rust", || made(EXECUTIVES).map(|_| ()));
    for (name, line) in EXAMPLES {
        checks.tell(&format!("example: {name}"), move || {
            let line = line.replace('\'', r#"'\''"#);
            made(&format!(
                r#"gcc $STRICT -Iinclude examples/c/{name}.c "$ARCHIVE" -pthread -o "$WORK/program"
                   "$WORK/program" > "$WORK/said" || {{ cat "$WORK/said"; exit 1; }}
                   grep -qxF '{line}' "$WORK/said" || {{ cat "$WORK/said"; exit 1; }}"#
            ))
        });
    }
    checks.add("example: every order of the last label", || {
        let orders = made("tools/schedules examples/the_last_label.txt | tail -n 1")?;
        suite::same("18644 schedules: 18644 answered, 0 cut, 0 refused\n", &orders)
    });
}

/// Installed in a folder of its own, found there by both example projects, and gone again.
const INSTALLED: &str = r#"
    prefix=$WORK/prefix
    make install PREFIX="$prefix" LIBRARY="$ARCHIVE"
    export PKG_CONFIG_PATH=$prefix/lib/pkgconfig
    cp -r examples/project-pkgconfig "$WORK/project-pkgconfig"
    make -B -C "$WORK/project-pkgconfig" CFLAGS=-Werror
    "$WORK/project-pkgconfig/printer"
    gcc $STRICT examples/c/threads.c -pthread -o "$WORK/threads" $(pkg-config --cflags --libs zeppolecape)
    cmake -S examples/project-cmake -B "$WORK/project-cmake" -DCMAKE_PREFIX_PATH="$prefix"
    cmake --build "$WORK/project-cmake"
    "$WORK/project-cmake/printer"
    make uninstall PREFIX="$prefix"
    test -z "$(find "$prefix" -type f)"
"#;

pub fn projects(checks: &mut Checks) {
    checks
        .add("project: installed, used by make and CMake, removed", || made(INSTALLED).map(|_| ()));
    checks
        .tell("project: no archive", || says("/nowhere", "there is no /nowhere/libzeppolecape.a"));
    checks.tell("project: no absolute path", || {
        says("target", r#"ZEPPOLECAPE_LIB_DIR is not an absolute path: "target""#)
    });
}
