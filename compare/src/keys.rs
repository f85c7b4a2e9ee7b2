//! Private keys for scripts: positions of two halves, of which the first has an inverse, and that inverse as the row.

use crate::device::Profile;
use crate::random::Random;
use crate::ring;
use crate::rows::Row;
use crate::text::Given;

/// Most profiles with an odd d have a key in the first few tries, and some, as r 3 with d 3, have none.
const TRIES: u32 = 40;

/// A key of the profile. None where d is even, and none where no try finds one.
pub fn key(random: &mut Random, profile: &Profile) -> Option<Given> {
    if profile.d % 2 == 0 {
        return None;
    }
    (0..TRIES).find_map(|_| {
        let first = half(random, profile);
        let row = ring::inverse(profile.r as usize, &indices(&first))?;
        let positions = [first, half(random, profile)].concat();
        Some(Given { positions, row })
    })
}

/// The d positions of a half, its ends among them more often than chance would have it.
pub fn half(random: &mut Random, profile: &Profile) -> Vec<u32> {
    random.distinct(profile.d, profile.r, &[0, profile.r - 1])
}

/// The words of the public row of a key.
pub fn public_row(profile: &Profile, key: &Given) -> Vec<u32> {
    let second = &key.positions[profile.d as usize..];
    Row::from_words(profile.r as usize, &key.row).product(&indices(second)).words()
}

fn indices(positions: &[u32]) -> Vec<usize> {
    positions.iter().map(|&p| p as usize).collect()
}
