//! Which tools there are: tests that need another one are reported as ignored, with the reason.

use std::process::{Command, Stdio};

fn main() {
    println!("cargo:rerun-if-env-changed=PATH");
    for tool in ["clang", "valgrind"] {
        println!("cargo:rustc-check-cfg=cfg({tool})");
        let mut version = Command::new(tool);
        version.arg("--version").stdout(Stdio::null()).stderr(Stdio::null());
        if version.status().is_ok_and(|status| status.success()) {
            println!("cargo:rustc-cfg={tool}");
        }
    }
}
