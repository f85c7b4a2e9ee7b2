//! The accesses of a load, in order. docs/REFERENCE.md leaves them to the program, and these are the ones that the promise of load names.
//! They follow from the profile and the verdict alone: nothing here sees a word.

use crate::device::Profile;

#[derive(Clone, Copy, Debug, PartialEq, Eq)]
pub enum Access {
    Get(u32),
    Put(u32),
}

use Access::{Get, Put};

/// The accesses of a load that is granted, where the verdict is 0, or refused by the number that it is.
pub fn load(profile: &Profile, verdict: u32) -> Vec<Access> {
    if verdict == 2 || verdict == 4 {
        return Vec::new();
    }
    let d = profile.d;
    let mut made = reads(0, 2 * d);
    if verdict == 6 {
        return made;
    }
    made.extend(pairs(0, d));
    made.extend(pairs(d, d));
    if verdict == 7 {
        return made;
    }
    made.push(Get(profile.in_words() - 1));
    if verdict == 8 {
        return made;
    }
    made.extend(rest(profile));
    made.extend(product(profile, 0, 0));
    made.extend(product(profile, d, 1));
    made.extend(reads(profile.work_row(0), profile.row_words()));
    if verdict == 0 {
        made.extend(keep(profile));
    }
    made.extend(rest(profile));
    made
}

/// The positions go to KEY and the second row of WORK to OUT; zeros come after it in OUT, and IN becomes zero.
fn keep(profile: &Profile) -> Vec<Access> {
    let (out, width) = (profile.out_address(), profile.row_words());
    let parts = [
        copies(0, profile.key_address(), 2 * profile.d),
        copies(profile.work_row(1), out, width),
        zeros(out + width, width),
        zeros(0, profile.in_words()),
    ];
    parts.concat()
}

/// WORK becomes zero.
fn rest(profile: &Profile) -> Vec<Access> {
    zeros(profile.work_row(0), 12 * profile.row_words())
}

/// The d positions at a place of IN, each of which rotates the row in IN; the sum is gathered in a row of WORK.
/// A rotation takes two rows of WORK, which are zero again at the end.
fn product(profile: &Profile, place: u32, row: u32) -> Vec<Access> {
    let (into, scratch, width) = (profile.work_row(row), profile.work_row(3), profile.row_words());
    let mut made = Vec::new();
    for i in place..place + profile.d {
        made.push(Get(i));
        made.extend(rotation(profile.row_place(), scratch, width));
        made.extend((0..width).flat_map(|w| [Get(scratch + w), Get(into + w), Put(into + w)]));
    }
    made.extend(zeros(scratch, 2 * width));
    made
}

/// The row is laid twice, moved by whole words in stages, the longest first, and then by single bits.
fn rotation(from: u32, to: u32, width: u32) -> Vec<Access> {
    let last = width - 1;
    let mut made = vec![Get(from + last)];
    made.extend((0..last).flat_map(|w| [Get(from + w), Put(to + w), Put(to + last + w)]));
    made.extend([Put(to + 2 * last), Put(to + 2 * last + 1)]);
    let stages = (0..).map(|e| 1 << e).take_while(|&by| by < width).collect::<Vec<u32>>();
    for by in stages.into_iter().rev() {
        let moved = (width + by).min(2 * width - by);
        made.extend((0..moved).flat_map(|w| [Get(to + w + by), Get(to + w), Put(to + w)]));
    }
    made.push(Get(to));
    made.extend((0..width).flat_map(|w| [Get(to + w + 1), Put(to + w)]));
    made.extend(zeros(to + width, width));
    made
}

fn reads(address: u32, count: u32) -> Vec<Access> {
    (address..address + count).map(Get).collect()
}

fn zeros(address: u32, count: u32) -> Vec<Access> {
    (address..address + count).map(Put).collect()
}

fn copies(from: u32, to: u32, count: u32) -> Vec<Access> {
    (0..count).flat_map(|w| [Get(from + w), Put(to + w)]).collect()
}

/// Each of the words is read, and after it all that stand before it.
fn pairs(address: u32, count: u32) -> Vec<Access> {
    (0..count).flat_map(|i| [vec![Get(address + i)], reads(address, i)].concat()).collect()
}
