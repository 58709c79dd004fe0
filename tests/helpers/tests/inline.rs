//! The inline functions by each compiler and in each language, under sanitizers, and under valgrind.

use helpers::{counted, done, Program, SANITIZED};
use std::process::Command;

/// A test for each compiler, standard and set of options; ROUNDS is how much of it.
macro_rules! compiled {
    ($($(#[$needs:meta])? $name:ident: $compiler:literal, $standard:literal, $options:expr, $rounds:literal;)*) => {
        $(
            #[test]
            $(#[$needs])?
            fn $name() {
                Program::built($compiler, $standard, $options).holds($rounds, "1");
            }
        )*
    };
}

compiled! {
    gcc_c11: "gcc", "c11", &["-O2"], "400";
    gcc_c17: "gcc", "c17", &[], "100";
    gcc_cxx11: "g++", "c++11", &[], "100";
    gcc_cxx14: "g++", "c++14", &[], "100";
    gcc_cxx17: "g++", "c++17", &["-O2"], "100";
    gcc_cxx20: "g++", "c++20", &[], "100";
    #[cfg_attr(not(clang), ignore = "NOT TRIED: no clang")]
    clang_c11: "clang", "c11", &["-O2"], "400";
    #[cfg_attr(not(clang), ignore = "NOT TRIED: no clang")]
    clang_c17: "clang", "c17", &[], "100";
    #[cfg_attr(not(clang), ignore = "NOT TRIED: no clang")]
    clang_cxx11: "clang++", "c++11", &[], "100";
    #[cfg_attr(not(clang), ignore = "NOT TRIED: no clang")]
    clang_cxx14: "clang++", "c++14", &[], "100";
    #[cfg_attr(not(clang), ignore = "NOT TRIED: no clang")]
    clang_cxx17: "clang++", "c++17", &[], "100";
    #[cfg_attr(not(clang), ignore = "NOT TRIED: no clang")]
    clang_cxx20: "clang++", "c++20", &["-O2"], "100";
    sanitized_gcc_c11: "gcc", "c11", &SANITIZED, "400";
    #[cfg_attr(not(clang), ignore = "NOT TRIED: no clang")]
    sanitized_clang_cxx17: "clang++", "c++17", &SANITIZED, "400";
}

/// What lies behind the calls is looked at too: valgrind sees the library's own reads and writes.
#[test]
#[cfg_attr(not(valgrind), ignore = "NOT TRIED: no valgrind")]
fn valgrind_c11() {
    let program = Program::built("gcc", "c11", &["-O1", "-g"]);
    let mut command = Command::new("valgrind");
    command.args(["--quiet", "--error-exitcode=9", "--leak-check=full"]).arg(program.path());
    counted(&done(command.args(["100", "1"])));
}

/// C and Rust have the same numbers for the refusals, and the same words.
#[test]
fn refusals_in_c_and_rust() {
    let said = Program::built("gcc", "c11", &["-O1"]).run(&["texts"]);
    let texts: Vec<&str> = said.lines().collect();
    assert_eq!(texts.len(), 100);
    for (number, text) in (0..).zip(texts) {
        let words =
            zeppolecape::Refusal::numbered(number).map_or("not a refusal", |known| known.words());
        assert_eq!(text, format!("{number} {words}"));
    }
}
