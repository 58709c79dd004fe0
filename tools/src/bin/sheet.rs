//! `sheet`: whether the labels waiting keep an order sheet.

use std::process::ExitCode;

fn main() -> ExitCode {
    tools::say::main("sheet", tools::sheet::USAGE, tools::sheet::work)
}
