//! Random scripts, and pairs of scripts that agree in all but the words given.
//! Most of a script is lawful, so that it gets far; faults come singly and together, so that the order of the checks shows.

use crate::device::Profile;
use crate::edges::MALFORMED;
use crate::keys;
use crate::random::Random;
use crate::text::{Given, Script};

/// Scripts stop growing here, so that what is added last still counts.
const ENOUGH_BYTES: usize = 45_000;

fn profile(random: &mut Random) -> Profile {
    let r = match random.between(1, 100) {
        1..=60 => random.between(3, 100),
        61..=85 => *random.pick(&[3, 4, 31, 32, 33, 63, 64, 65, 95, 96, 97, 127, 128, 129]),
        86..=97 => random.between(100, 2_000),
        98..=99 => 4_801,
        _ => random.between(14_000, 16_000),
    };
    let d = edged(random, 63.min(r));
    let t = edged(random, 255.min(2 * r));
    Profile { r, d, t }
}

/// A number from 1 to `high`, often one of the two.
fn edged(random: &mut Random, high: u32) -> u32 {
    match random.between(1, 10) {
        1 => 1,
        2 => high,
        3..=7 => random.between(1, high.min(12)),
        _ => random.between(1, high),
    }
}

fn profile_line(random: &mut Random, profile: &Profile) -> String {
    let mut line = format!("P {} {} {}", profile.r, profile.d, profile.t);
    for _ in 0..random.between(1, 16) {
        line += &format!(" {}", random.between(1, profile.d));
    }
    line
}

/// The call that reads what is given.
#[derive(Clone, Copy, PartialEq, Eq)]
enum Reader {
    Load,
    Seal,
}

impl Reader {
    fn letter(self) -> &'static str {
        match self {
            Reader::Load => "L",
            Reader::Seal => "S",
        }
    }

    /// Positions are below this.
    fn limit(self, profile: &Profile) -> u32 {
        match self {
            Reader::Load => profile.r,
            Reader::Seal => 2 * profile.r,
        }
    }

    /// How many lists of positions are read, and how long each is. No position stands twice in one of them.
    fn lists(self, profile: &Profile) -> (u32, u32) {
        match self {
            Reader::Load => (2, profile.d),
            Reader::Seal => (1, profile.t),
        }
    }

    /// Something that is granted. There may be no key.
    fn lawful(self, random: &mut Random, profile: &Profile) -> Option<Given> {
        match self {
            Reader::Load => keys::key(random, profile),
            Reader::Seal => Some(Given { positions: errors(random, profile), row: row(random, profile) }),
        }
    }
}

/// Positions for a seal, the ends of the halves among them more often than chance would have it.
fn errors(random: &mut Random, profile: &Profile) -> Vec<u32> {
    let r = profile.r;
    random.distinct(profile.t, 2 * r, &[0, r - 1, r, 2 * r - 1])
}

fn row(random: &mut Random, profile: &Profile) -> Vec<u32> {
    let words = profile.row_words();
    let kind = random.between(1, 6);
    let mut row: Vec<u32> = (0..words)
        .map(|_| match kind {
            1 => 0,
            2 => u32::MAX,
            3 => random.word() & random.word() & random.word() & random.word(),
            _ => random.word(),
        })
        .collect();
    if let (Some(last), 1..=31) = (row.last_mut(), profile.r % 32) {
        *last &= (1 << (profile.r % 32)) - 1;
    }
    row
}

/// What a load may read that is in range and no key: mostly the row is no inverse.
fn no_key(random: &mut Random, profile: &Profile) -> Given {
    let positions = [keys::half(random, profile), keys::half(random, profile)].concat();
    Given { positions, row: row(random, profile) }
}

/// What can be wrong with what is given.
#[derive(Clone, Copy, PartialEq, Eq)]
enum Flaw {
    Beyond,
    Twice,
    Tail,
    NoInverse,
}

impl Flaw {
    const ALL: [Flaw; 4] = [Flaw::Beyond, Flaw::Twice, Flaw::Tail, Flaw::NoInverse];

    fn possible(self, profile: &Profile, reader: Reader) -> bool {
        match self {
            Flaw::Beyond => true,
            Flaw::Twice => reader.lists(profile).1 > 1,
            Flaw::Tail => profile.r % 32 != 0,
            Flaw::NoInverse => reader == Reader::Load,
        }
    }

    fn spoil(self, random: &mut Random, profile: &Profile, reader: Reader, input: &mut Given) {
        let (lists, length) = reader.lists(profile);
        match self {
            Flaw::Beyond => {
                let beyond = reader.limit(profile);
                let place = random.between(0, lists * length - 1) as usize;
                input.positions[place] = *random.pick(&[beyond, beyond, beyond + 1, u32::MAX, 1 << 31, 1 << 16]).max(&beyond);
            }
            Flaw::Twice => {
                let first = length * random.between(0, lists - 1);
                let later = random.between(1, length - 1);
                let earlier = random.between(0, later - 1);
                input.positions[(first + later) as usize] = input.positions[(first + earlier) as usize];
            }
            Flaw::Tail => {
                let last = input.row.len() - 1;
                input.row[last] |= 1 << random.between(profile.r % 32, 31);
            }
            Flaw::NoInverse => {
                let bit = random.between(0, profile.r - 1);
                input.row[bit as usize / 32] ^= 1 << (bit % 32);
            }
        }
    }
}

/// A script that was drawn from the generator.
pub fn script(random: &mut Random) -> Vec<u8> {
    let profile = profile(random);
    let mut script = Script::default();
    if random.chance(92) {
        script.line(profile_line(random, &profile));
    } else {
        script.line(wrong_start(random, &profile));
    }
    for _ in 0..random.between(1, 8) {
        if script.bytes.len() > ENOUGH_BYTES {
            break;
        }
        step(random, &profile, &mut script);
    }
    match random.between(1, 6) {
        1 => script.unended(),
        2 => [script.bytes, b"\n".to_vec()].concat(),
        _ => script.bytes,
    }
}

/// A first line after which no profile, or another one, is set.
fn wrong_start(random: &mut Random, profile: &Profile) -> Vec<u8> {
    match random.between(1, 3) {
        1 => line(random, profile),
        2 => spoilt(random, profile),
        _ => {
            let mut numbers = [profile.r, profile.d, profile.t, 1, 1];
            numbers[random.between(0, 4) as usize] = *random.pick(&[0, 2, 64, 256, 16_001, u32::MAX]);
            let [r, d, t, first, second] = numbers;
            format!("P {r} {d} {t} {first} {second}").into_bytes()
        }
    }
}

fn step(random: &mut Random, profile: &Profile, script: &mut Script) {
    match random.between(1, 10) {
        1..=3 => give_and_call(random, profile, Reader::Seal, script),
        4..=5 => give_and_call(random, profile, Reader::Load, script),
        6 => {
            script.line("W");
            takes(random, profile, script);
        }
        7 => script.line("H"),
        8 => {
            for _ in 0..random.between(1, 6) {
                script.line(line(random, profile));
            }
        }
        _ => {
            for _ in 0..random.between(1, 6) {
                script.line(spoilt(random, profile));
            }
        }
    }
}

/// Gives what a call reads, with flaws or without, makes the call, and looks at what came out.
fn give_and_call(random: &mut Random, profile: &Profile, reader: Reader, script: &mut Script) {
    let good = reader.lawful(random, profile);
    let mut input = good.clone().unwrap_or_else(|| no_key(random, profile));
    for flaw in Flaw::ALL {
        while flaw.possible(profile, reader) && random.chance(10) {
            flaw.spoil(random, profile, reader, &mut input);
        }
    }
    script.give_input(profile, &input);
    if random.chance(30) {
        // a place of IN that the call does not read, unless the positions reach up to the row
        script.give(profile.row_place() - 1, random.word() % profile.r);
    }
    script.lines([reader.letter(), "H"]);
    takes(random, profile, script);
    let Some(good) = good else { return };
    if random.chance(25) {
        script.give_input(profile, &good);
        script.line(reader.letter());
        takes(random, profile, script);
    }
    if reader == Reader::Load && random.chance(50) {
        let input = Given { positions: errors(random, profile), row: keys::public_row(profile, &good) };
        script.give_input(profile, &input);
        script.line("S");
        takes(random, profile, script);
    }
}

fn takes(random: &mut Random, profile: &Profile, script: &mut Script) {
    if profile.out_words() <= 8 || random.chance(10) {
        script.take_all(profile);
        return;
    }
    let half = profile.row_words();
    for place in [0, half - 1, half, 2 * half - 1, random.between(0, half - 1), random.between(0, half - 1)] {
        script.line(format!("T {place}"));
    }
}

/// A well formed line that is no profile, its place often at an edge.
fn line(random: &mut Random, profile: &Profile) -> Vec<u8> {
    let edges = [0, profile.t, profile.row_place(), profile.in_words(), profile.out_words(), profile.all_words(), 8_128, u32::MAX];
    let edge = *random.pick(&edges);
    let place = match random.between(1, 4) {
        1 => edge.saturating_sub(1),
        2 => random.between(0, profile.in_words()),
        _ => edge,
    };
    let text = match random.between(1, 13) {
        1..=4 => format!("G {place} {:08x}", random.word()),
        5..=7 => format!("T {place}"),
        8 => format!("T {place:010}"),
        9 => format!("G {place:010} {:08x}", random.between(0, 2 * profile.r)),
        10 => "H".to_string(),
        11 => "S".to_string(),
        12 => "L".to_string(),
        _ => "W".to_string(),
    };
    text.into_bytes()
}

/// A line with something wrong in it, mostly.
fn spoilt(random: &mut Random, profile: &Profile) -> Vec<u8> {
    if random.chance(30) {
        return random.pick(MALFORMED).to_vec();
    }
    let mut bytes = match random.between(1, 4) {
        1 => profile_line(random, profile).into_bytes(),
        _ => line(random, profile),
    };
    for _ in 0..random.between(1, 2) {
        let place = random.between(0, bytes.len() as u32) as usize;
        let byte = *random.pick(b" \0\r\t\n0019afgAFPGTSWHLUCX-+.:/`\x7f\x80\xff");
        match random.between(1, 3) {
            1 => bytes.insert(place, byte),
            2 if place < bytes.len() => bytes[place] = byte,
            _ if place < bytes.len() => drop(bytes.remove(place)),
            _ => bytes.push(byte),
        }
    }
    if random.chance(5) {
        let length = random.between(115, 125) as usize;
        bytes.resize(length, *random.pick(b"0 H"));
    }
    bytes
}

/// Two scripts that agree in everything but the words given, and in the verdict of each line.
/// They hear the trail after every call, and must hear the same.
pub fn pair(random: &mut Random) -> [Vec<u8>; 2] {
    let profile = profile(random);
    let start = profile_line(random, &profile);
    let mut scripts = [Script::default(), Script::default()];
    for script in &mut scripts {
        script.lines([&start[..], "H"]);
    }
    for _ in 0..random.between(1, 4) {
        if scripts[0].bytes.len() > ENOUGH_BYTES {
            break;
        }
        let reader = *random.pick(&[Reader::Load, Reader::Seal]);
        let Some(inputs) = pair_of_inputs(random, &profile, reader) else { continue };
        let flaw = if random.chance(50) { Some(*random.pick(&Flaw::ALL)) } else { None };
        let place = random.between(0, profile.out_words());
        let wipes = random.chance(20);
        for (script, mut input) in scripts.iter_mut().zip(inputs) {
            if let Some(flaw) = flaw.filter(|flaw| flaw.possible(&profile, reader)) {
                flaw.spoil(random, &profile, reader, &mut input);
            }
            script.give_input(&profile, &input);
            script.lines(["H", reader.letter(), "H"]);
            script.lines([&format!("T {place}")[..], "H"]);
            if wipes {
                script.lines(["W", "H"]);
            }
        }
    }
    scripts.map(|script| script.bytes)
}

/// Two inputs with the same verdict: both are granted or, where no half has an inverse, refused by 9.
fn pair_of_inputs(random: &mut Random, profile: &Profile, reader: Reader) -> Option<[Given; 2]> {
    if reader == Reader::Load && profile.d % 2 == 0 {
        return Some([no_key(random, profile), no_key(random, profile)]);
    }
    Some([reader.lawful(random, profile)?, reader.lawful(random, profile)?])
}
