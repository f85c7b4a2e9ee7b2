//! The memories that the program `talk` stacks up: a window over a scrambler over a tape.
//! Each is written from its description in docs/REFERENCE.md alone, one access at a time.

/// Addressable words whose accesses leave a trail that can be heard.
pub trait Memory {
    fn size(&self) -> u32;
    fn get(&mut self, address: u32) -> u32;
    fn put(&mut self, address: u32, word: u32);
    fn hear(&self) -> u32;
    /// Makes the trail what another program was heard to have, so that later numbers can be predicted again.
    fn resume(&mut self, trail: u32);
}

const TAPE_WORDS: usize = 8_192;

pub struct Tape {
    words: Vec<u32>,
    trail: u32,
}

impl Tape {
    pub fn new() -> Tape {
        Tape { words: vec![0; TAPE_WORDS], trail: 0 }
    }

    fn step(&mut self, kind: u64, address: u32) {
        let next = u64::from(self.trail) * 31 + 2 * u64::from(address) + kind;
        self.trail = (next % (1 << 32)) as u32;
    }
}

impl Memory for Tape {
    fn size(&self) -> u32 {
        TAPE_WORDS as u32
    }

    fn get(&mut self, address: u32) -> u32 {
        self.step(0, address);
        self.words.get(address as usize).copied().unwrap_or(0)
    }

    fn put(&mut self, address: u32, word: u32) {
        self.step(1, address);
        if let Some(place) = self.words.get_mut(address as usize) {
            *place = word;
        }
    }

    fn hear(&self) -> u32 {
        self.trail
    }

    fn resume(&mut self, trail: u32) {
        self.trail = trail;
    }
}

pub struct Scrambler<M> {
    below: M,
    seed: u32,
}

impl<M: Memory> Scrambler<M> {
    pub fn new(below: M, seed: u32) -> Scrambler<M> {
        Scrambler { below, seed }
    }

    pub fn pad(&self, address: u32) -> u32 {
        let product = u64::from(address) * 2_654_435_761;
        self.seed ^ (product % (1 << 32)) as u32
    }
}

impl<M: Memory> Memory for Scrambler<M> {
    fn size(&self) -> u32 {
        self.below.size()
    }

    fn get(&mut self, address: u32) -> u32 {
        let word = self.below.get(address);
        if address < self.size() {
            word ^ self.pad(address)
        } else {
            0
        }
    }

    fn put(&mut self, address: u32, word: u32) {
        let pad = self.pad(address);
        self.below.put(address, word ^ pad);
    }

    fn hear(&self) -> u32 {
        self.below.hear()
    }

    fn resume(&mut self, trail: u32) {
        self.below.resume(trail);
    }
}

pub struct Window<M> {
    below: M,
    base: u32,
    length: u32,
}

impl<M: Memory> Window<M> {
    pub fn new(below: M, base: u32, length: u32) -> Window<M> {
        let fits = u64::from(base) + u64::from(length) <= u64::from(below.size());
        Window { below, base, length: if fits { length } else { 0 } }
    }
}

impl<M: Memory> Memory for Window<M> {
    fn size(&self) -> u32 {
        self.length
    }

    fn get(&mut self, address: u32) -> u32 {
        if address < self.length {
            self.below.get(self.base + address)
        } else {
            0
        }
    }

    fn put(&mut self, address: u32, word: u32) {
        if address < self.length {
            self.below.put(self.base + address, word);
        }
    }

    fn hear(&self) -> u32 {
        self.below.hear()
    }

    fn resume(&mut self, trail: u32) {
        self.below.resume(trail);
    }
}
