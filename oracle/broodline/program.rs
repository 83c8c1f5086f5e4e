//! The program as a process.

use std::io::{ErrorKind, Read, Write};
use std::path::PathBuf;
use std::process::{Command, ExitStatus, Stdio};
use std::thread;

/// No output is near as long. A program that prints on and on is ended here.
const MOST: usize = 1 << 20;

pub struct Program(PathBuf);

/// What became of a run.
#[derive(Debug)]
pub struct Ran {
    pub output: Vec<u8>,
    pub status: ExitStatus,
}

impl Program {
    /// An error if there is no such file.
    pub fn at(path: &str) -> Result<Program, String> {
        match PathBuf::from(path) {
            path if path.is_file() => Ok(Program(path)),
            _ => Err(format!(
                "broodline: the program {path} is missing; rt check broodline makes it"
            )),
        }
    }

    pub fn command(&self) -> Command {
        Command::new(&self.0)
    }

    /// Hands the input over through a pipe, so many bytes at a time, and reads all that is printed.
    pub fn run(&self, input: &[u8], piece: usize) -> std::io::Result<Ran> {
        let mut child = self.command().stdin(Stdio::piped()).stdout(Stdio::piped()).spawn()?;
        let (mut to, from) = (child.stdin.take(), child.stdout.take());
        let mut output = Vec::new();
        let read = thread::scope(|scope| {
            scope.spawn(|| {
                let mut to = to.take().expect("a pipe was asked for");
                for part in input.chunks(piece) {
                    match to.write_all(part) {
                        Ok(()) => (),
                        // It ended before all was read, which it may.
                        Err(error) if error.kind() == ErrorKind::BrokenPipe => return,
                        Err(error) => panic!("the input of broodline: {error}"),
                    }
                }
            });
            let from = from.expect("a pipe was asked for");
            let read = from.take(MOST as u64).read_to_end(&mut output);
            if output.len() == MOST || read.is_err() {
                // Only this process, which was started here.
                child.kill()?;
            }
            read
        });
        read?;
        Ok(Ran { output, status: child.wait()? })
    }
}
