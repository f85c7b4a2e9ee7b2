//! Rows of r bits, one `bool` to a bit, worked on by plain loops.
//! Nothing here is quick and nothing is hidden: it is meant to be read beside docs/REFERENCE.md and believed.

#[derive(Clone, Debug, PartialEq, Eq)]
pub struct Row {
    bits: Vec<bool>,
}

impl Row {
    pub fn empty(r: usize) -> Row {
        Row { bits: vec![false; r] }
    }

    pub fn with_bits(r: usize, set: &[usize]) -> Row {
        let mut row = Row::empty(r);
        for &j in set {
            row.bits[j] = true;
        }
        row
    }

    /// The row that lies in these words; bits past its end are passed over.
    pub fn from_words(r: usize, words: &[u32]) -> Row {
        let bits = (0..r).map(|j| words[j / 32] >> (j % 32) & 1 == 1).collect();
        Row { bits }
    }

    /// The words that the row lies in, the bits past its end as 0.
    pub fn words(&self) -> Vec<u32> {
        let mut words = vec![0; width(self.bits.len())];
        for (j, &bit) in self.bits.iter().enumerate() {
            words[j / 32] |= u32::from(bit) << (j % 32);
        }
        words
    }

    pub fn set_bits(&self) -> Vec<usize> {
        (0..self.bits.len()).filter(|&j| self.bits[j]).collect()
    }

    /// Bit j of the result is bit (j - by) mod r of this row.
    pub fn rotated(&self, by: usize) -> Row {
        let r = self.bits.len();
        let mut row = Row::empty(r);
        for j in 0..r {
            row.bits[j] = self.bits[(j + r - by % r) % r];
        }
        row
    }

    pub fn add(&mut self, other: &Row) {
        for (bit, &more) in self.bits.iter_mut().zip(&other.bits) {
            *bit ^= more;
        }
    }

    /// The sum of this row's rotations by the positions.
    pub fn product(&self, positions: &[usize]) -> Row {
        let mut sum = Row::empty(self.bits.len());
        for &p in positions {
            sum.add(&self.rotated(p));
        }
        sum
    }
}

/// How many words a row of r bits lies in.
pub fn width(r: usize) -> usize {
    r.div_ceil(32)
}

/// Whether a bit past the end of the row is set in the last of its words.
pub fn has_tail(r: usize, words: &[u32]) -> bool {
    let last = words[width(r) - 1];
    (r..32 * width(r)).any(|j| last >> (j % 32) & 1 == 1)
}
