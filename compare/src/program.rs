//! The program under test as a process of its own: an input goes in, and what it writes comes out.

use std::io::{BufRead, BufReader, Read, Write};
use std::path::{Path, PathBuf};
use std::process::{Child, ChildStdin, ChildStdout, Command, Stdio};
use std::sync::mpsc::{self, Receiver};
use std::thread;
use std::time::Duration;

/// A program that says nothing for so long is taken to hang.
const PATIENCE: Duration = Duration::from_secs(30);

pub struct Program {
    path: PathBuf,
}

impl Program {
    pub fn new(path: &Path) -> Result<Program, String> {
        match path.canonicalize() {
            Ok(path) if path.is_file() => Ok(Program { path }),
            _ => Err(format!("there is no program {}", path.display())),
        }
    }

    fn start(&self) -> Result<(Child, ChildStdin, ChildStdout), String> {
        let mut child = Command::new(&self.path)
            .stdin(Stdio::piped())
            .stdout(Stdio::piped())
            .spawn()
            .map_err(|error| format!("{} does not start: {error}", self.path.display()))?;
        let stdin = child.stdin.take().ok_or("no standard input")?;
        let stdout = child.stdout.take().ok_or("no standard output")?;
        Ok((child, stdin, stdout))
    }

    /// What the program writes for an input. It must end with status 0.
    pub fn output(&self, input: &[u8]) -> Result<Vec<u8>, String> {
        let (mut child, mut stdin, mut stdout) = self.start()?;
        let input = input.to_vec();
        // a program need not read what does not count, so a pipe that closes early is no fault
        thread::spawn(move || drop(stdin.write_all(&input)));
        let (done, result) = mpsc::channel();
        thread::spawn(move || {
            let mut output = Vec::new();
            let read = stdout.read_to_end(&mut output).map(|_| output);
            drop(done.send(read));
        });
        let Ok(output) = result.recv_timeout(PATIENCE) else {
            drop(child.kill());
            drop(child.wait());
            return Err("it does not end".to_string());
        };
        let status = child.wait().map_err(|error| error.to_string())?;
        if !status.success() {
            return Err(format!("it ended with {status}"));
        }
        output.map_err(|error| error.to_string())
    }

    /// What the program writes for lines of which each is sent when the one before it was answered.
    pub fn conversation(&self, lines: &[&str]) -> Result<Vec<u8>, String> {
        let (mut child, mut stdin, stdout) = self.start()?;
        let answers = spoken(stdout);
        let mut output = Ok(Vec::new());
        for line in lines {
            output = output.and_then(|said: Vec<u8>| {
                writeln!(stdin, "{line}").map_err(|error| error.to_string())?;
                let answer = answers.recv_timeout(PATIENCE / 3).map_err(|_| format!("no answer to {line:?} while the input is open"))?;
                Ok([said, answer.into_bytes(), b"\n".to_vec()].concat())
            });
        }
        drop(stdin);
        if output.is_err() {
            drop(child.kill());
        }
        drop(child.wait());
        output
    }
}

/// The lines that a program writes, as they come.
fn spoken(stdout: ChildStdout) -> Receiver<String> {
    let (said, heard) = mpsc::channel();
    thread::spawn(move || {
        for line in BufReader::new(stdout).lines().map_while(Result::ok) {
            drop(said.send(line));
        }
    });
    heard
}
