//! The profile, the zones and the calls of a box, as docs/REFERENCE.md tells them.
//! The words live in a memory as the reference wants it; all working out is done on rows outside of it.

use crate::accesses::{self, Access};
use crate::memory::Memory;
use crate::rows::{self, Row};

/// What a refusal tells.
#[derive(Clone, Copy, Debug, PartialEq, Eq)]
pub struct Fault {
    pub number: u32,
    pub layer: &'static str,
    pub place: u32,
}

fn box_fault(number: u32, place: u32) -> Fault {
    Fault { number, layer: "box", place }
}

fn input_fault(number: u32, place: u32) -> Fault {
    Fault { number, layer: "input", place }
}

#[derive(Clone, Debug, PartialEq, Eq)]
pub struct Profile {
    pub r: u32,
    pub d: u32,
    pub t: u32,
}

impl Profile {
    /// The profile that these numbers set, r, d and t before the thresholds, or a refusal.
    pub fn set(numbers: &[u32]) -> Result<Profile, Fault> {
        let &[r, d, t, ref thresholds @ ..] = numbers else { return Err(Profile::REFUSED) };
        let lawful = (3..=16_000).contains(&r)
            && (1..=63).contains(&d)
            && d <= r
            && (1..=255).contains(&t)
            && t <= 2 * r
            && (1..=16).contains(&thresholds.len())
            && thresholds.iter().all(|threshold| (1..=d).contains(threshold));
        if lawful {
            Ok(Profile { r, d, t })
        } else {
            Err(Profile::REFUSED)
        }
    }

    const REFUSED: Fault = Fault { number: 1, layer: "profile", place: 0 };

    /// W: how many words a row takes.
    pub fn row_words(&self) -> u32 {
        rows::width(self.r as usize) as u32
    }

    /// B: the place of IN at which a row is read.
    pub fn row_place(&self) -> u32 {
        (2 * self.d).max(self.t)
    }

    pub fn in_words(&self) -> u32 {
        self.row_place() + self.row_words()
    }

    pub fn key_address(&self) -> u32 {
        self.in_words()
    }

    pub fn out_words(&self) -> u32 {
        2 * self.row_words()
    }

    pub fn out_address(&self) -> u32 {
        self.key_address() + 2 * self.d
    }

    /// Where row i of WORK lies.
    pub fn work_row(&self, i: u32) -> u32 {
        self.out_address() + self.out_words() + i * self.row_words()
    }

    /// N: the words of all zones together.
    pub fn all_words(&self) -> u32 {
        self.work_row(12)
    }
}

pub struct KeyBox<M> {
    profile: Profile,
    memory: M,
}

impl<M: Memory> KeyBox<M> {
    pub fn open(profile: Profile, memory: M) -> KeyBox<M> {
        let mut opened = KeyBox { profile, memory };
        if opened.sized().is_ok() {
            opened.zero(0, opened.profile.all_words());
        }
        opened
    }

    pub fn memory(&mut self) -> &mut M {
        &mut self.memory
    }

    pub fn give(&mut self, place: u32, word: u32) -> Result<(), Fault> {
        self.sized()?;
        if place >= self.profile.in_words() {
            return Err(box_fault(3, place));
        }
        self.memory.put(place, word);
        Ok(())
    }

    pub fn take(&mut self, place: u32) -> Result<u32, Fault> {
        self.sized()?;
        if place >= self.profile.out_words() {
            return Err(box_fault(3, place));
        }
        Ok(self.memory.get(self.profile.out_address() + place))
    }

    /// Answers the rotations.
    pub fn load(&mut self) -> Result<u32, Fault> {
        self.sized()?;
        let before = self.memory.hear();
        let result = self.load_key();
        let verdict = result.map_or_else(|fault| fault.number, |_| 0);
        self.hear_instead(before, &accesses::load(&self.profile, verdict));
        result
    }

    /// Answers the rotations.
    pub fn seal(&mut self) -> Result<u32, Fault> {
        self.sized()?;
        let given = self.given();
        let positions = &given[..self.profile.t as usize];
        let row = &given[self.profile.row_place() as usize..];
        self.judge_errors(positions)?;
        if rows::has_tail(self.profile.r as usize, row) {
            return Err(input_fault(12, self.profile.in_words() - 1));
        }
        let syndrome = public_syndrome(self.profile.r as usize, positions, row);
        self.publish(&syndrome.words());
        Ok(self.profile.t)
    }

    pub fn wipe(&mut self) -> Result<(), Fault> {
        self.sized()?;
        self.zero(0, self.profile.all_words());
        Ok(())
    }

    fn sized(&self) -> Result<(), Fault> {
        if self.memory.size() < self.profile.all_words() {
            return Err(box_fault(2, 0));
        }
        Ok(())
    }

    fn given(&mut self) -> Vec<u32> {
        (0..self.profile.in_words()).map(|a| self.memory.get(a)).collect()
    }

    fn load_key(&mut self) -> Result<u32, Fault> {
        let (r, d) = (self.profile.r as usize, self.profile.d as usize);
        let given = self.given();
        let positions = &given[..2 * d];
        let row = &given[self.profile.row_place() as usize..];
        self.judge_key(positions)?;
        if rows::has_tail(r, row) {
            return Err(input_fault(8, self.profile.in_words() - 1));
        }
        let inverse = Row::from_words(r, row);
        if inverse.product(&indices(&positions[..d])) != Row::with_bits(r, &[0]) {
            return Err(input_fault(9, self.profile.row_place()));
        }
        for (i, &position) in positions.iter().enumerate() {
            self.memory.put(self.profile.key_address() + i as u32, position);
        }
        self.publish(&inverse.product(&indices(&positions[d..])).words());
        Ok(2 * self.profile.d)
    }

    /// The positions of both halves are held to the range before any is looked for twice; the same position may stand in both halves.
    fn judge_key(&self, positions: &[u32]) -> Result<(), Fault> {
        let d = self.profile.d;
        let (first, second) = positions.split_at(d as usize);
        if let Some(place) = first_beyond(positions, self.profile.r) {
            return Err(input_fault(6, place));
        }
        match first_again(first).or(first_again(second).map(|i| d + i)) {
            Some(place) => Err(input_fault(7, place)),
            None => Ok(()),
        }
    }

    /// Every position is held to the range before any is looked for twice.
    fn judge_errors(&self, positions: &[u32]) -> Result<(), Fault> {
        if let Some(place) = first_beyond(positions, 2 * self.profile.r) {
            return Err(input_fault(10, place));
        }
        match first_again(positions) {
            Some(place) => Err(input_fault(11, place)),
            None => Ok(()),
        }
    }

    /// Makes the trail what these accesses, and no others, make of the one before. No word changes.
    fn hear_instead(&mut self, before: u32, made: &[Access]) {
        let words: Vec<u32> = (0..self.profile.all_words()).map(|a| self.memory.get(a)).collect();
        self.memory.resume(before);
        for &access in made {
            match access {
                Access::Get(a) => {
                    self.memory.get(a);
                }
                Access::Put(a) => self.memory.put(a, words[a as usize]),
            }
        }
    }

    /// OUT becomes these words and zeros after them, and IN zero.
    fn publish(&mut self, words: &[u32]) {
        let out = self.profile.out_address();
        self.zero(out, self.profile.out_words());
        for (i, &word) in words.iter().enumerate() {
            self.memory.put(out + i as u32, word);
        }
        self.zero(0, self.profile.in_words());
    }

    fn zero(&mut self, address: u32, count: u32) {
        for a in address..address + count {
            self.memory.put(a, 0);
        }
    }
}

fn indices(positions: &[u32]) -> Vec<usize> {
    positions.iter().map(|&p| p as usize).collect()
}

/// The first place whose word is not below the limit.
fn first_beyond(words: &[u32], limit: u32) -> Option<u32> {
    words.iter().position(|&word| word >= limit).map(|i| i as u32)
}

/// The first place whose word stands at an earlier one.
fn first_again(words: &[u32]) -> Option<u32> {
    (0..words.len()).find(|&i| words[..i].contains(&words[i])).map(|i| i as u32)
}

/// The sum of the first half's bits and of the row's rotations by the second half's.
fn public_syndrome(r: usize, positions: &[u32], row: &[u32]) -> Row {
    let (first, second): (Vec<usize>, Vec<usize>) = indices(positions).into_iter().partition(|&p| p < r);
    let second: Vec<usize> = second.iter().map(|p| p - r).collect();
    let mut syndrome = Row::with_bits(r, &first);
    syndrome.add(&Row::from_words(r, row).product(&second));
    syndrome
}
