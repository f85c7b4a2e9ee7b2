//! Scripts as they are put together: lines one after the other.

use crate::device::Profile;

/// What a load or a seal reads in IN: positions from place 0 on, and a row at its place.
#[derive(Clone)]
pub struct Given {
    pub positions: Vec<u32>,
    pub row: Vec<u32>,
}

#[derive(Default)]
pub struct Script {
    pub bytes: Vec<u8>,
}

impl Script {
    /// A script that begins with this profile and one threshold.
    pub fn with_profile(profile: &Profile) -> Script {
        let mut script = Script::default();
        script.line(format!("P {} {} {} {}", profile.r, profile.d, profile.t, profile.d));
        script
    }

    pub fn line(&mut self, line: impl AsRef<[u8]>) {
        self.bytes.extend_from_slice(line.as_ref());
        self.bytes.push(b'\n');
    }

    pub fn lines<L: AsRef<[u8]>>(&mut self, lines: impl IntoIterator<Item = L>) {
        for line in lines {
            self.line(line);
        }
    }

    pub fn give(&mut self, place: u32, word: u32) {
        self.line(format!("G {place} {word:08x}"));
    }

    /// Gives the words at `place` and after it.
    pub fn give_all(&mut self, place: u32, words: &[u32]) {
        for (i, &word) in words.iter().enumerate() {
            self.give(place + i as u32, word);
        }
    }

    /// Gives all that a load or a seal reads.
    pub fn give_input(&mut self, profile: &Profile, input: &Given) {
        self.give_all(0, &input.positions);
        self.give_all(profile.row_place(), &input.row);
    }

    pub fn take_all(&mut self, profile: &Profile) {
        for place in 0..profile.out_words() {
            self.line(format!("T {place}"));
        }
    }

    /// The script with its last line feed left out.
    pub fn unended(mut self) -> Vec<u8> {
        self.bytes.pop();
        self.bytes
    }
}
