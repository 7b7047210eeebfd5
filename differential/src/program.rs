//! The built program, run as a process.

use std::env;
use std::io::{self, Write};
use std::path::{Path, PathBuf};
use std::process::{ChildStdin, Command, Stdio};
use std::thread;
use std::time::Duration;

use netkat_reference::random::Random;

/// How long the second write waits, so that the program has read the first.
const PAUSE: Duration = Duration::from_millis(2);

/// The program that NETKAT_PROGRAM names, by default the repository's target/bin/netkat.
pub struct Program(PathBuf);

impl Program {
    /// Fails if there is no such file.
    pub fn find() -> io::Result<Program> {
        let default = || Path::new(env!("CARGO_MANIFEST_DIR")).join("../target/bin/netkat");
        let path = env::var_os("NETKAT_PROGRAM").map_or_else(default, PathBuf::from);
        match path.canonicalize() {
            Ok(path) => Ok(Program(path)),
            Err(error) => Err(io::Error::new(
                error.kind(),
                format!("{}: {error}", path.display()),
            )),
        }
    }

    /// The program's output for an input, which is fed in one write or in two, as the input decides. Fails if the program
    /// cannot be run, writes to standard error or does not end well.
    pub fn run(&self, input: &[u8]) -> io::Result<Vec<u8>> {
        let mut process = Command::new(&self.0)
            .stdin(Stdio::piped())
            .stdout(Stdio::piped())
            .stderr(Stdio::piped())
            .spawn()?;
        // the program reads to the end before it writes, so neither waits for the other
        let fed = process.stdin.take().map_or(Ok(()), |to| feed(to, input));
        let ended = process.wait_with_output()?;
        fed?;
        if !ended.status.success() || !ended.stderr.is_empty() {
            let said = String::from_utf8_lossy(&ended.stderr).into_owned();
            return Err(io::Error::new(
                io::ErrorKind::Other,
                format!("{}, {said}", ended.status),
            ));
        }
        Ok(ended.stdout)
    }
}

fn feed(mut to: ChildStdin, input: &[u8]) -> io::Result<()> {
    let mut random = Random::new(input.iter().map(|&byte| u64::from(byte)).sum());
    if random.one_in(4) {
        let (first, second) = input.split_at(random.below(input.len() + 1));
        to.write_all(first)?;
        thread::sleep(PAUSE);
        to.write_all(second)
    } else {
        to.write_all(input)
    }
}
