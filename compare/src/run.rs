//! Runs the program on all scripts and holds what it prints, line by line, to what the second implementation predicts.

use std::collections::BTreeMap;
use std::fmt::Display;

use crate::edges::edges;
use crate::generate;
use crate::program::Program;
use crate::random::Random;
use crate::script::{lines, Reply, Session};
use crate::worked;

/// Of the random cases one in so many is a pair of scripts.
const PAIR_EVERY: u64 = 4;
/// The refusals that a script can meet: each of them must have come up.
const REFUSALS: [u32; 11] = [1, 3, 6, 7, 8, 9, 10, 11, 12, 20, 21];
/// The lines that can be granted: each of them must have been.
const GRANTS: &[u8] = b"PGTLSWH";
/// A program that hangs would else take hours.
const ENOUGH_FAILURES: u64 = 10;
const CONVERSATION: [&str; 7] = ["P 7 3 1 3", "G 0 00000008", "G 6 00000058", "S", "T 0", "X", "H"];

/// One script, or two that may not be told apart by what they hear.
pub struct Case {
    label: String,
    pub scripts: Vec<Vec<u8>>,
}

/// All cases: those at the edges, then the random ones.
pub fn cases(seed: u64, random_cases: u64) -> impl Iterator<Item = Case> {
    let edges = edges().into_iter().map(|(label, script)| Case { label, scripts: vec![script] });
    let random = (0..random_cases).map(move |number| {
        let mut random = Random::for_script(seed, number);
        if number % PAIR_EVERY == 0 {
            Case { label: "a pair".to_string(), scripts: generate::pair(&mut random).to_vec() }
        } else {
            Case { label: "a random script".to_string(), scripts: vec![generate::script(&mut random)] }
        }
    });
    edges.chain(random)
}

/// What passed and failed so far, and how often each refusal came up, and a grant of each letter.
#[derive(Default)]
pub struct Tally {
    pub passed: u64,
    pub failed: u64,
    refusals: BTreeMap<u32, u64>,
    grants: BTreeMap<char, u64>,
}

impl Tally {
    fn count(&mut self, label: &str, result: Result<(), String>) {
        match result {
            Ok(()) => self.passed += 1,
            Err(message) => {
                self.failed += 1;
                println!("FAILED {label}: {message}");
            }
        }
    }

    fn note(&mut self, script: &[u8], seen: &Seen) {
        for (line, &verdict) in lines(script).into_iter().zip(&seen.verdicts) {
            if verdict != 0 {
                *self.refusals.entry(verdict).or_default() += 1;
            } else if let Some(&letter) = line.first() {
                *self.grants.entry(char::from(letter)).or_default() += 1;
            }
        }
    }

    fn all_refusals_met(&self) -> Result<(), String> {
        println!("refusals met ({})", counted(&self.refusals));
        let missing: Vec<u32> = REFUSALS.into_iter().filter(|number| !self.refusals.contains_key(number)).collect();
        if missing.is_empty() {
            Ok(())
        } else {
            Err(format!("none by {missing:?}"))
        }
    }

    fn all_grants_met(&self) -> Result<(), String> {
        println!("grants met ({})", counted(&self.grants));
        match GRANTS.iter().find(|&&letter| !self.grants.contains_key(&char::from(letter))) {
            Some(&letter) => Err(format!("none of {}", char::from(letter))),
            None => Ok(()),
        }
    }
}

fn counted<K: Display>(times: &BTreeMap<K, u64>) -> String {
    let met: Vec<String> = times.iter().map(|(what, times)| format!("{what}: {times}")).collect();
    met.join(", ")
}

/// Runs everything, or as much as it takes to see that the program fails.
pub fn run(program: &Program, seed: u64, random_cases: u64) -> Tally {
    let mut tally = Tally::default();
    for (label, holds) in worked::checks() {
        tally.count(label, if holds { Ok(()) } else { Err("the second implementation is wrong".to_string()) });
    }
    tally.count("a conversation", converse(program));
    let mut first = 0;
    for case in cases(seed, random_cases) {
        if tally.failed >= ENOUGH_FAILURES {
            println!("the rest is not run");
            return tally;
        }
        let label = format!("{}, script {first}", case.label);
        let result = judge(program, &case, &mut tally);
        tally.count(&label, result);
        first += case.scripts.len();
    }
    tally.count("refusals met", tally.all_refusals_met());
    tally.count("grants met", tally.all_grants_met());
    tally
}

/// Each line must be answered before the next is there to be read.
fn converse(program: &Program) -> Result<(), String> {
    let output = program.conversation(&CONVERSATION)?;
    compare(CONVERSATION.join("\n").as_bytes(), &output).map(drop)
}

fn judge(program: &Program, case: &Case, tally: &mut Tally) -> Result<(), String> {
    let mut runs = Vec::new();
    for (i, script) in case.scripts.iter().enumerate() {
        let seen = program.output(script).and_then(|output| compare(script, &output));
        let seen = seen.map_err(|message| if i == 0 { message } else { format!("{message} (in the second script)") })?;
        tally.note(script, &seen);
        runs.push(seen);
    }
    runs.windows(2).try_for_each(|pair| alike(&pair[0], &pair[1]))
}

/// What a script's run showed: the verdict of each line, and the numbers heard.
#[derive(Default)]
pub struct Seen {
    pub verdicts: Vec<u32>,
    pub heard: Vec<(usize, u32)>,
}

/// Holds an output to the prediction, line by line.
pub fn compare(input: &[u8], output: &[u8]) -> Result<Seen, String> {
    let printed = printed_lines(output)?;
    let mut session = Session::new();
    let mut seen = Seen::default();
    for (i, line) in lines(input).into_iter().enumerate() {
        let told = |what: String| format!("line {} ({:?}): {what}", i + 1, shown(line));
        let answer = *printed.get(i).ok_or_else(|| told("nothing is printed".to_string()))?;
        agree(&mut session, line, answer).map_err(told)?;
        seen.verdicts.push(verdict(answer));
        if line == b"H" {
            seen.heard.extend(number(answer).map(|number| (i + 1, number)));
        }
    }
    match printed.get(seen.verdicts.len()) {
        Some(more) => Err(format!("printed past the last line: {:?}", shown(more))),
        None => Ok(seen),
    }
}

/// Two runs that may not be told apart must have the same verdicts and hear the same numbers.
pub fn alike(first: &Seen, second: &Seen) -> Result<(), String> {
    if first.verdicts != second.verdicts {
        return Err("the pair does not agree in its verdicts".to_string());
    }
    match first.heard.iter().zip(&second.heard).find(|(one, other)| one != other) {
        Some(((line, one), (_, other))) => Err(format!("line {line} hears {one} in the first script and {other} in the second")),
        None => Ok(()),
    }
}

fn agree(session: &mut Session, line: &[u8], answer: &[u8]) -> Result<(), String> {
    match session.reply(line) {
        Reply::Text(text) if text.as_bytes() == answer => Ok(()),
        Reply::Text(text) => Err(format!("expected {text:?}, printed {:?}", shown(answer))),
        Reply::Heard(_) => {
            let number = number(answer).ok_or_else(|| format!("expected ok and a number, printed {:?}", shown(answer)))?;
            session.heard(number);
            Ok(())
        }
    }
}

fn printed_lines(output: &[u8]) -> Result<Vec<&[u8]>, String> {
    let mut printed: Vec<&[u8]> = output.split(|&byte| byte == b'\n').collect();
    match printed.pop() {
        None | Some(b"") => Ok(printed),
        Some(rest) => Err(format!("the last line has no line feed: {:?}", shown(rest))),
    }
}

/// The number of an answer `ok NUMBER`, as a number is printed: in decimal, with no leading zero.
fn number(answer: &[u8]) -> Option<u32> {
    let text = std::str::from_utf8(answer).ok()?.strip_prefix("ok ")?;
    let number: u32 = text.parse().ok()?;
    (number.to_string() == text).then_some(number)
}

/// The number of a refusal, and 0 for a grant.
fn verdict(answer: &[u8]) -> u32 {
    let mut parts = answer.split(|&byte| byte == b' ');
    match (parts.next(), parts.next()) {
        (Some(b"no"), Some(number)) => String::from_utf8_lossy(number).parse().unwrap_or(0),
        _ => 0,
    }
}

/// Bytes for a message, cut where they are many.
fn shown(bytes: &[u8]) -> String {
    bytes.iter().take(130).map(|&byte| char::from(byte)).collect()
}
