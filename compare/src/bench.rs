//! The two bench programs: one run as a program, one called here.

use std::io::{ErrorKind, Read, Write};
use std::path::PathBuf;
use std::process::{Child, ChildStdin, Command, Stdio};

use second::{script, Fault};

/// Something that takes a script and prints an outcome.
pub trait Bench {
    /// The output for this script, or why it could not be had.
    fn run(&mut self, script: &[u8]) -> Result<Vec<u8>, String>;
}

/// The second bench program, called here, with a fault planted or none.
pub struct Own {
    pub fault: Fault,
}

impl Bench for Own {
    fn run(&mut self, script: &[u8]) -> Result<Vec<u8>, String> {
        Ok(script::run(script, self.fault))
    }
}

/// A bench program at a path.
pub struct Program {
    pub path: PathBuf,
}

/// Up to here a script fits a pipe whole, and no second thread is needed.
const FITS_A_PIPE: usize = 4096;

impl Bench for Program {
    fn run(&mut self, script: &[u8]) -> Result<Vec<u8>, String> {
        let mut child = Command::new(&self.path)
            .stdin(Stdio::piped())
            .stdout(Stdio::piped())
            .spawn()
            .map_err(|error| format!("cannot run {}: {error}", self.path.display()))?;
        talk(&mut child, script).map_err(|error| format!("cannot talk to the bench: {error}"))
    }
}

/// Hands the script over, takes all output, and waits for the end.
fn talk(child: &mut Child, script: &[u8]) -> std::io::Result<Vec<u8>> {
    let (Some(stdin), Some(mut stdout)) = (child.stdin.take(), child.stdout.take()) else {
        return Err(std::io::Error::other("no pipes"));
    };
    let mut output = Vec::new();
    if script.len() <= FITS_A_PIPE {
        hand_over(stdin, script)?;
        stdout.read_to_end(&mut output)?;
    } else {
        std::thread::scope(|scope| {
            let writer = scope.spawn(move || hand_over(stdin, script));
            let read = stdout.read_to_end(&mut output);
            let written = writer.join().unwrap_or_else(|_| Err(std::io::Error::other("stopped")));
            read.and(written)
        })?;
    }
    let status = child.wait()?;
    if status.code().is_none() {
        output.extend_from_slice(format!("(the program was stopped: {status})\n").as_bytes());
    }
    Ok(output)
}

/// Writes the script and closes. A program may stop reading early, which is
/// no error here: its output decides.
fn hand_over(mut stdin: ChildStdin, script: &[u8]) -> std::io::Result<()> {
    match stdin.write_all(script) {
        Err(error) if error.kind() != ErrorKind::BrokenPipe => Err(error),
        _ => Ok(()),
    }
}
