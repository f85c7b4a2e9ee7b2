//! Holds the program `talk` to a second, plain implementation of docs/REFERENCE.md and docs/SCRIPT.md.
//!
//!     compare [TALK] [--scripts N] [--seed S]   run it; TALK is the program's path, or the environment variable TALK has it
//!     compare --print NUMBER [--seed S]         print a script, by the number that a failure names
//!     compare --interpret                       answer the script on standard input, as the program should
//!
//! The last line is `N passed, M failed`, and the status is 1 where anything failed.

mod accesses;
mod device;
mod edges;
mod generate;
mod keys;
mod memory;
mod program;
mod random;
mod ring;
mod rows;
mod run;
mod script;
mod text;
mod worked;

use std::io::{self, BufRead, Read, Write};
use std::path::PathBuf;
use std::process::ExitCode;

use program::Program;
use script::{Session, INPUT_BYTES};

const DEFAULT_SCRIPTS: u64 = 2_000;
const DEFAULT_SEED: u64 = 1;

enum Mode {
    Compare,
    Print(usize),
    Interpret,
}

struct Options {
    mode: Mode,
    talk: Option<PathBuf>,
    scripts: u64,
    seed: u64,
}

fn main() -> ExitCode {
    match options(std::env::args().skip(1)).and_then(act) {
        Ok(status) => status,
        Err(message) => {
            eprintln!("compare: {message}");
            ExitCode::from(2)
        }
    }
}

fn options(mut words: impl Iterator<Item = String>) -> Result<Options, String> {
    let talk = std::env::var_os("TALK").map(PathBuf::from);
    let mut options = Options { mode: Mode::Compare, talk, scripts: DEFAULT_SCRIPTS, seed: DEFAULT_SEED };
    while let Some(word) = words.next() {
        let mut number = || words.next().and_then(|text| text.parse().ok()).ok_or(format!("{word} wants a number"));
        match &word[..] {
            "--interpret" => options.mode = Mode::Interpret,
            "--print" => options.mode = Mode::Print(number()? as usize),
            "--scripts" => options.scripts = number()?,
            "--seed" => options.seed = number()?,
            path if !path.starts_with('-') => options.talk = Some(PathBuf::from(path)),
            _ => return Err(format!("no such option: {word}")),
        }
    }
    Ok(options)
}

fn act(options: Options) -> Result<ExitCode, String> {
    match options.mode {
        Mode::Interpret => interpret().map_err(|error| error.to_string())?,
        Mode::Print(wanted) => print(&options, wanted)?,
        Mode::Compare => {
            let talk = options.talk.ok_or("the program's path is wanted, as an argument or in TALK")?;
            let tally = run::run(&Program::new(&talk)?, options.seed, options.scripts);
            println!("{} passed, {} failed", tally.passed, tally.failed);
            return Ok(if tally.failed == 0 { ExitCode::SUCCESS } else { ExitCode::FAILURE });
        }
    }
    Ok(ExitCode::SUCCESS)
}

/// Answers line by line, as each comes.
fn interpret() -> io::Result<()> {
    let mut input = io::stdin().lock().take(INPUT_BYTES as u64);
    let mut output = io::stdout().lock();
    let mut session = Session::new();
    let mut line = Vec::new();
    while input.read_until(b'\n', &mut line)? > 0 {
        if line.ends_with(b"\n") {
            line.pop();
        }
        writeln!(output, "{}", session.reply(&line).text())?;
        line.clear();
    }
    Ok(())
}

fn print(options: &Options, wanted: usize) -> Result<(), String> {
    let mut scripts = run::cases(options.seed, options.scripts).flat_map(|case| case.scripts);
    let script = scripts.nth(wanted).ok_or("there is no such script")?;
    io::stdout().write_all(&script).map_err(|error| error.to_string())
}
