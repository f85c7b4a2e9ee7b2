//! Numbers that look random and follow from a seed, so that every script can be made again.

/// The generator splitmix64.
pub struct Random {
    state: u64,
}

impl Random {
    pub fn new(seed: u64) -> Random {
        Random { state: seed }
    }

    /// A generator of its own for each script, so that one script can be made without those before it.
    pub fn for_script(seed: u64, number: u64) -> Random {
        let mut base = Random::new(seed);
        Random::new(base.next() ^ number.wrapping_mul(0x9e37_79b9_7f4a_7c15))
    }

    pub fn next(&mut self) -> u64 {
        self.state = self.state.wrapping_add(0x9e37_79b9_7f4a_7c15);
        let z = (self.state ^ self.state >> 30).wrapping_mul(0xbf58_476d_1ce4_e5b9);
        let z = (z ^ z >> 27).wrapping_mul(0x94d0_49bb_1331_11eb);
        z ^ z >> 31
    }

    pub fn word(&mut self) -> u32 {
        (self.next() >> 32) as u32
    }

    /// A number from `low` to `high`, both of them possible.
    pub fn between(&mut self, low: u32, high: u32) -> u32 {
        low + (self.next() % (u64::from(high - low) + 1)) as u32
    }

    pub fn chance(&mut self, percent: u32) -> bool {
        self.between(1, 100) <= percent
    }

    /// So many different numbers below the limit, those of `often` among them more often than chance would have it.
    pub fn distinct(&mut self, count: u32, limit: u32, often: &[u32]) -> Vec<u32> {
        let mut numbers: Vec<u32> = Vec::new();
        while numbers.len() < count as usize {
            let n = match self.between(1, 10) {
                1 => *self.pick(often),
                _ => self.between(0, limit - 1),
            };
            // where nearly all are taken, the next one that is free
            let free = (0..limit).map(|step| (n + step) % limit).find(|m| !numbers.contains(m));
            numbers.extend(free);
        }
        numbers
    }

    pub fn pick<'a, T>(&mut self, items: &'a [T]) -> &'a T {
        &items[self.between(0, items.len() as u32 - 1) as usize]
    }
}
