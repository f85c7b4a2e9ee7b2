//! The script program as docs/SCRIPT.md tells it: input to lines, a line to a call, an answer to the line that is printed.
//! It predicts every line; only the number heard after a call whose accesses are the program's own is not known beforehand.

use crate::device::{Fault, KeyBox, Profile};
use crate::memory::{Memory, Scrambler, Tape, Window};

pub const INPUT_BYTES: usize = 65_536;
pub const LINE_BYTES: usize = 120;

/// The lines of the bytes that count. A line feed ends a line, so none follows the last of them.
pub fn lines(input: &[u8]) -> Vec<&[u8]> {
    let counted = &input[..input.len().min(INPUT_BYTES)];
    let mut lines: Vec<&[u8]> = counted.split(|&byte| byte == b'\n').collect();
    if lines.last() == Some(&&b""[..]) {
        lines.pop();
    }
    lines
}

pub enum Line {
    Profile(Vec<u32>),
    Call(Call),
}

pub enum Call {
    Give(u32, u32),
    Take(u32),
    Load,
    Seal,
    Wipe,
    Hear,
}

impl Line {
    /// What a line says, or nothing where it is malformed wherever it stands.
    pub fn read(bytes: &[u8]) -> Option<Line> {
        if bytes.len() > LINE_BYTES {
            return None;
        }
        let parts: Vec<&[u8]> = bytes.split(|&byte| byte == b' ').collect();
        match parts[..] {
            [b"P", ref numbers @ ..] if numbers.len() >= 3 => {
                let numbers: Option<Vec<u32>> = numbers.iter().map(|part| number(part)).collect();
                Some(Line::Profile(numbers?))
            }
            [b"G", place, given] => Some(Line::Call(Call::Give(number(place)?, word(given)?))),
            [b"T", place] => Some(Line::Call(Call::Take(number(place)?))),
            [b"L"] => Some(Line::Call(Call::Load)),
            [b"S"] => Some(Line::Call(Call::Seal)),
            [b"W"] => Some(Line::Call(Call::Wipe)),
            [b"H"] => Some(Line::Call(Call::Hear)),
            _ => None,
        }
    }
}

/// A number in 1 to 10 decimal digits, below 2^32.
fn number(part: &[u8]) -> Option<u32> {
    if !(1..=10).contains(&part.len()) || !part.iter().all(u8::is_ascii_digit) {
        return None;
    }
    let value = part.iter().fold(0u64, |value, digit| 10 * value + u64::from(digit - b'0'));
    u32::try_from(value).ok()
}

/// A word in eight hexadecimal digits, the letters small.
fn word(part: &[u8]) -> Option<u32> {
    if part.len() != 8 {
        return None;
    }
    part.iter().try_fold(0u32, |value, &byte| {
        let digit = match byte {
            b'0'..=b'9' => byte - b'0',
            b'a'..=b'f' => byte - b'a' + 10,
            _ => return None,
        };
        Some(value << 4 | u32::from(digit))
    })
}

/// What is printed for a line.
#[derive(Clone, Debug, PartialEq, Eq)]
pub enum Reply {
    /// This text.
    Text(String),
    /// `ok` and a number that the reference leaves to the program; this is our own.
    Heard(u32),
}

impl Reply {
    pub fn text(&self) -> String {
        match self {
            Reply::Text(text) => text.clone(),
            Reply::Heard(number) => format!("ok {number}"),
        }
    }
}

type TalkMemory = Window<Scrambler<Tape>>;

fn talk_memory() -> TalkMemory {
    Window::new(Scrambler::new(Tape::new(), 305_419_896), 64, 8_128)
}

/// A run of the program over the lines so far.
pub struct Session {
    lines: u32,
    opened: Option<KeyBox<TalkMemory>>,
    /// Whether the reference tells all accesses so far, or the number was heard since.
    foreseen: bool,
}

fn line_fault(number: u32) -> Fault {
    Fault { number, layer: "line", place: 0 }
}

impl Session {
    pub fn new() -> Session {
        Session { lines: 0, opened: None, foreseen: true }
    }

    /// What is printed for the next line.
    pub fn reply(&mut self, bytes: &[u8]) -> Reply {
        self.lines += 1;
        match self.answer(bytes) {
            Ok(reply) => reply,
            Err(Fault { number, layer, place }) => Reply::Text(format!("no {number} {layer} {place} {}", self.lines)),
        }
    }

    /// Takes over the number that the program told, so that the next ones are foreseen.
    pub fn heard(&mut self, number: u32) {
        if let Some(opened) = &mut self.opened {
            opened.memory().resume(number);
            self.foreseen = true;
        }
    }

    fn answer(&mut self, bytes: &[u8]) -> Result<Reply, Fault> {
        match Line::read(bytes).ok_or(line_fault(20))? {
            Line::Profile(numbers) => self.set_profile(&numbers),
            Line::Call(call) => self.answer_call(call),
        }
    }

    fn set_profile(&mut self, numbers: &[u32]) -> Result<Reply, Fault> {
        if self.lines != 1 {
            return Err(line_fault(20));
        }
        self.opened = Some(KeyBox::open(Profile::set(numbers)?, talk_memory()));
        Ok(Reply::Text("ok".to_string()))
    }

    fn answer_call(&mut self, call: Call) -> Result<Reply, Fault> {
        let opened = self.opened.as_mut().ok_or(line_fault(21))?;
        if matches!(call, Call::Seal | Call::Wipe) {
            self.foreseen = false;
        }
        let text = match call {
            Call::Give(place, word) => opened.give(place, word).map(|()| "ok".to_string())?,
            Call::Take(place) => opened.take(place).map(|word| format!("ok {word:08x}"))?,
            Call::Load => opened.load().map(|rotations| format!("ok {rotations}"))?,
            Call::Seal => opened.seal().map(|rotations| format!("ok {rotations}"))?,
            Call::Wipe => opened.wipe().map(|()| "ok".to_string())?,
            Call::Hear => match opened.memory().hear() {
                number if self.foreseen => format!("ok {number}"),
                number => return Ok(Reply::Heard(number)),
            },
        };
        Ok(Reply::Text(text))
    }
}
