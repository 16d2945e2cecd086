//! The tool `forecast`: see the library beside it, and `forecast --help`.

use std::env;
use std::ffi::OsString;
use std::fs::File;
use std::io::{self, IsTerminal, Read, Write};
use std::os::fd::AsFd;
use std::process::ExitCode;

use forecast::{answer, Surroundings};

fn main() -> ExitCode {
    let arguments: Vec<OsString> = env::args_os().skip(1).collect();
    let terminal = io::stderr().is_terminal();
    let answer = answer(
        &arguments,
        &mut Surroundings {
            input: &mut Input,
            progress: &mut io::stderr().lock(),
            terminal,
        },
    );
    let told = tell(answer.out.as_bytes());
    let _ = io::stderr().write_all(answer.notes.as_bytes());
    let _ = io::stderr().write_all(answer.trouble.as_bytes());
    match told {
        Ok(()) => ExitCode::from(answer.status),
        Err(error) => {
            let _ = writeln!(io::stderr(), "forecast: standard output: {error}");
            ExitCode::from(2)
        }
    }
}

/// Writes to standard output. A reader that has gone away has what it wanted; any
/// other error is told, and no result is claimed.
fn tell(out: &[u8]) -> io::Result<()> {
    // Not by `io::stdout`, which takes a descriptor that cannot be written for one that
    // takes everything.
    let to = io::stdout().as_fd().try_clone_to_owned().map(File::from);
    match to.and_then(|mut to| to.write_all(out)) {
        Err(error) if error.kind() != io::ErrorKind::BrokenPipe => Err(error),
        _ => Ok(()),
    }
}

/// Standard input. Not by `io::stdin`, which takes a descriptor that cannot be read for
/// one that is at its end.
struct Input;

impl Read for Input {
    fn read(&mut self, bytes: &mut [u8]) -> io::Result<usize> {
        let from = io::stdin().as_fd().try_clone_to_owned()?;
        File::from(from).read(bytes)
    }
}
