//! The headers alone: each standard by each compiler that is here, two files of one program, the core
//! alone, and storage of a wrong size.

use suite::{made, plain_shell, same, Checks};

const ALONE: &str = r#"#include "zeppolecape.h"
ZC_QUEUE_STORAGE(queue, 2, 3);
ZC_NAMED_STORAGE(named, 2, 3);
ZC_SHELF_STORAGE(shelves, 2, 3);
ZC_NAMED_SHELF_STORAGE(few, 2, 3);
uint64_t used(void);
uint64_t used(void) { return zc_queue_free_slot(&queue) + zc_queue_free_slot(&named) + shelves.left_count + few.next_count; }
"#;

const ATOMIC: &str = r#"#include "zeppolecape_atomic.h"
zc_reply used(const zc_shared *, zc_record *);
zc_reply used(const zc_shared *all, zc_record *own) { return zc_atomic_pop(all, own, ZC_LEFT); }
"#;

/// Compilers with the words that name their language; of clang's those that are here.
fn compilers() -> Vec<(&'static str, &'static str, [&'static str; 2])> {
    let all = [
        ("gcc", "-x c", ["c11", "c17"]),
        ("clang", "-x c", ["c11", "c17"]),
        ("g++", "-Wold-style-cast -x c++", ["c++11", "c++17"]),
        ("clang++", "-Wold-style-cast -x c++", ["c++11", "c++17"]),
    ];
    let here = |name: &str| plain_shell(&format!("command -v {name}"), &[]).status == 0;
    all.into_iter().filter(|(name, ..)| name.starts_with('g') || here(name)).collect()
}

pub fn headers(checks: &mut Checks) {
    for (compiler, words, standards) in compilers() {
        for standard in standards {
            for (name, text) in [("zeppolecape.h", ALONE), ("zeppolecape_atomic.h", ATOMIC)] {
                checks.tell(&format!("header: {name} as {standard} by {compiler}"), move || {
                    made(&format!(
                        "{compiler} -std={standard} $STRICT -Wconversion {words} -Iinclude -fsyntax-only - <<'END'\n{text}END"
                    ))
                });
            }
        }
    }
    checks.tell("header: twice, and from two files of a C++ program", || {
        made(
            r#"printf '#include "zeppolecape.h"\n#include "zeppolecape.h"\nint other(void) { return zc_refused(zc_reply{34, 0, 0}); }\n' > "$WORK/two.cc"
               printf '#include "zeppolecape.h"\nint other(void);\nint main() { return !other(); }\n' > "$WORK/one.cc"
               g++ -std=c++11 $STRICT -Iinclude "$WORK/one.cc" "$WORK/two.cc" "$ARCHIVE" -o "$WORK/two"
               "$WORK/two""#,
        )
    });
    // Unused wrappers may be kept by a compiler: they ask for no call but the core's.
    checks.add("header: the core alone", || {
        let calls = made(
            r#"printf '#define ZC_CORE_ONLY\n#include "zeppolecape.h"\n' > "$WORK/core.c"
               gcc -fkeep-inline-functions -Iinclude -c "$WORK/core.c" -o "$WORK/core.o"
               nm -u "$WORK/core.o" | tr -d ' U' | sort | tr '\n' ' '"#,
        )?;
        same("zc_open zc_open_pooled zc_pop zc_push zc_push_pooled zc_report zc_step ", &calls)
    });
    for storage in ["QUEUE", "NAMED", "SHELF", "NAMED_SHELF"] {
        for sizes in ["0, 3", "17, 3", "2, 0", "2, 1024"] {
            checks.add(&format!("header: no ZC_{storage}_STORAGE for {sizes}"), move || {
                let text =
                    format!("#include \"zeppolecape.h\"\nZC_{storage}_STORAGE(queue, {sizes});\n");
                let line = format!("gcc -Iinclude -x c -fsyntax-only - <<'END'\n{text}END");
                let said = plain_shell(&line, &[]);
                same((1, true), (said.status, said.noise.contains("error:")))
            });
        }
    }
}
