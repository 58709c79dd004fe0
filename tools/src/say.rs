//! One style for all tools: `--help` on standard output with status 0; a wrong command line is told
//! with the usage, status 2; anything else that stops a tool is one line, `NAME: what`, status 1.

use std::ffi::OsString;
use std::fmt;
use std::io;
use std::process::ExitCode;

/// Why a tool ends before its work is done.
#[derive(Debug)]
pub enum Stop {
    /// The command line asks for help.
    Help,
    /// The command line is wrong.
    Usage(String),
    /// The work cannot be done.
    Failed(String),
    /// The reader of the output has closed it, which is no fault.
    Enough,
}

impl Stop {
    pub fn failed(what: impl fmt::Display) -> Stop {
        Stop::Failed(what.to_string())
    }

    pub fn usage(what: impl fmt::Display) -> Stop {
        Stop::Usage(what.to_string())
    }
}

/// An error of the output: every tool writes to standard output only.
impl From<io::Error> for Stop {
    fn from(error: io::Error) -> Stop {
        match error.kind() {
            io::ErrorKind::BrokenPipe => Stop::Enough,
            _ => Stop::Failed(format!("cannot write: {error}")),
        }
    }
}

/// The words of the command line, each shown as text.
pub fn words(arguments: impl Iterator<Item = OsString>) -> Vec<String> {
    arguments.map(|word| word.to_string_lossy().into_owned()).collect()
}

/// Runs a tool: its status is what `work` answers where it is done.
pub fn main(
    name: &str,
    usage: &str,
    work: impl FnOnce(Vec<String>) -> Result<u8, Stop>,
) -> ExitCode {
    let status = match work(words(std::env::args_os().skip(1))) {
        Ok(status) => status,
        Err(Stop::Enough) => 0,
        Err(Stop::Help) => {
            println!("{}", usage.trim_end());
            0
        }
        Err(Stop::Usage(what)) => {
            eprintln!("{name}: {what}\n{}", usage.trim_end());
            2
        }
        Err(Stop::Failed(what)) => {
            eprintln!("{name}: {what}");
            1
        }
    };
    ExitCode::from(status)
}

/// Bytes as text, those that cannot be printed, and the backslash, in octal: none of them reaches the
/// terminal as a command.
pub fn printable(bytes: &[u8]) -> String {
    let shown = |&byte: &u8| match byte {
        b'\\' => "\\134".to_string(),
        b' '..=b'~' => char::from(byte).to_string(),
        _ => format!("\\{byte:03o}"),
    };
    bytes.iter().map(shown).collect()
}
