//! Scripts at the edges of what docs/ allows, written out one by one: every range from both sides, every form of a line,
//! every end of an input.

use crate::device::Profile;
use crate::keys;
use crate::random::Random;
use crate::script::INPUT_BYTES;
use crate::text::{Given, Script};

/// Lines that are malformed wherever they stand.
#[rustfmt::skip]
pub const MALFORMED: &[&[u8]] = &[
    b"", b" ", b"\r", b"\0", b"\t", b"X", b"0", b"ok", b"U", b"C", b"Q", b"A",
    b"p 7 3 1 3", b"g 0 00000000", b"t 0", b"l", b"s", b"w", b"h",
    b"P", b"P ", b"P 7", b"P 7 3", b"P 7 3 ", b"P 7 3 1 ", b"P  7 3 1 3", b"P 7  3 1 3", b"P 7 3 1 3 ", b" P 7 3 1 3", b"P7 3 1 3", b"P\t7 3 1 3",
    b"P 7 3 1 3\r", b"P 7 3 1 3\0", b"P 7,3,1,3", b"P 7 3 1 a", b"P -7 3 1 3", b"P +7 3 1 3", b"P 7 3 1 0x3", b"P 7 3 1 3.0",
    b"P 4294967296 3 1 3", b"P 7 3 1 4294967296", b"P 00000000007 3 1 3", b"P 7 3 1 00000000003", b"P 99999999999 3 1 3", b"P 18446744073709551619 3 1 3",
    b"G", b"G ", b"G 0", b"G 0 ", b"G 00000000", b"G 0 0", b"G 0 0000000", b"G 0 000000000", b"G 0 0000000g", b"G 0 0000000A", b"G 0 ABCDEF01",
    b"G 0 0x000000", b"G  0 00000000", b"G 0  00000000", b"G 0 00000000 ", b"G 0 00000000 0", b" G 0 00000000", b"G0 00000000", b"G a 00000000",
    b"G 0 00000000\r", b"G 0 0000000\0", b"G 0\x0000000000", b"G 0 -0000001", b"G -1 00000000", b"G +1 00000000", b"G 1_0 00000000",
    b"G 4294967296 00000000", b"G 00000000000 00000000", b"G 10000000000 00000000", b"G 00000000 0", b"G 0 0000 0000", b"G 0 \xff\xff\xff\xff\xff\xff\xff\xff",
    b"T", b"T ", b"T  0", b"T 0 ", b" T 0", b"T 0 0", b"T0", b"T a", b"T 0x1", b"T 0\r", b"T 0\0", b"T -1", b"T 4294967296", b"T 00000000000", b"T 12345678901", b"T /", b"T :",
    b"L ", b" L", b"L 0", b"LL", b"L\r", b"L\0", b"L 0 00000000",
    b"S ", b" S", b"S 0", b"SS", b"S\r", b"S\0", b"W ", b" W", b"W 0", b"W\r", b"W\0", b"H ", b" H", b"H 0", b"H\r", b"H\0", b"HH",
];

/// Profile lines that are well formed, on both sides of each range.
#[rustfmt::skip]
const PROFILES: &[&str] = &[
    "P 7 3 1 3", "P 2 1 1 1", "P 3 1 1 1", "P 3 3 6 3", "P 3 4 6 3", "P 3 3 7 3", "P 16000 63 255 63", "P 16001 63 255 63", "P 0 0 0 0",
    "P 4801 45 84 29 27 25 24 23 23", "P 4801 63 84 29", "P 4801 64 84 29", "P 4801 0 84 29", "P 4801 1 84 1", "P 5 5 1 5", "P 5 6 1 5",
    "P 200 3 255 3", "P 200 3 256 3", "P 200 3 0 3", "P 127 3 254 3", "P 127 3 255 3", "P 128 3 255 3", "P 31 31 62 31", "P 31 31 63 31",
    "P 7 3 1", "P 7 3 1 0", "P 7 3 1 1", "P 7 3 1 4", "P 7 3 1 3 0", "P 7 3 1 3 4", "P 7 3 1 3 3 3 3 3 3 3 3 3 3 3 3 3 3 3",
    "P 7 3 1 3 3 3 3 3 3 3 3 3 3 3 3 3 3 3 3", "P 7 3 1 3 3 3 3 3 3 3 3 3 3 3 3 3 3 3 3 3", "P 7 3 1 3 3 3 3 3 3 3 3 3 3 3 3 3 3 3 0", "P 0000000007 03 0001 003",
    "P 4294967295 3 1 3", "P 7 4294967295 1 3", "P 7 3 4294967295 3", "P 7 3 1 4294967295", "P 4294967295 4294967295 4294967295 4294967295",
    "P 2147483652 3 1 3", "P 2147483651 3 7 3",
];

/// The r, d and t of profiles that seal at the edges: rows just short of, at and just past whole words, and as many positions as there are.
#[rustfmt::skip]
const SEALED: [(u32, u32, u32); 11] = [
    (3, 3, 6), (3, 1, 1), (31, 31, 62), (32, 32, 64), (33, 33, 66), (64, 63, 128), (200, 63, 255), (100, 5, 2), (4801, 45, 84), (16000, 63, 255), (15999, 1, 7),
];

/// The same for keys: odd d, so that there are some, and even d, so that there are none. Every row of odd weight has an inverse at r 32 and 64.
#[rustfmt::skip]
const LOADED: [(u32, u32, u32); 20] = [
    (3, 1, 1), (3, 3, 6), (4, 3, 1), (7, 3, 1), (7, 7, 1), (8, 2, 3), (31, 5, 4), (32, 1, 64), (32, 31, 5), (33, 5, 9), (63, 7, 2), (64, 3, 5), (64, 63, 128), (65, 9, 3),
    (96, 62, 10), (97, 45, 60), (200, 63, 255), (4801, 45, 84), (15999, 1, 7), (16000, 63, 255),
];

/// Every script at an edge, with what it is about.
pub fn edges() -> Vec<(String, Vec<u8>)> {
    let mut scripts = Vec::new();
    let mut add = |label: &str, bytes: Vec<u8>| scripts.push((label.to_string(), bytes));
    for line in PROFILES {
        add(line, after_profile(line));
    }
    add("malformed lines", malformed("P 7 3 1 3"));
    add("malformed lines with no profile", malformed("P 2 3 1 3"));
    for line in MALFORMED {
        add("a malformed first line", first_line(line));
    }
    for first in ["H", "T 0", "G 0 00000000", "L", "S", "W", "T 4294967295"] {
        add("a first line that sets no profile", first_line(first.as_bytes()));
    }
    for bytes in [119, 120, 121, 122] {
        add("a long profile line that would be granted", first_line(long_profile(bytes, 16).as_bytes()));
        add("a long profile line that is refused", first_line(long_profile(bytes, 17).as_bytes()));
    }
    for (r, d, t) in SEALED {
        add("positions and tail bits at the edges", seals(&Profile { r, d, t }));
    }
    for (r, d, t) in LOADED {
        add("a key, and all that can be wrong with one", loads(&Profile { r, d, t }));
    }
    add("places at the edges", places());
    for input in ends() {
        add("how an input ends", input);
    }
    for input in limits() {
        add("an input as long as may be, and longer", input);
    }
    scripts
}

fn after_profile(line: &str) -> Vec<u8> {
    let mut script = Script::default();
    script.lines([line, "H", "T 0", "G 0 00000001", "S", "H", "T 0", "W", "X", "P 7 3 1 3", "T 1", "L", "H", "U", "C", "H"]);
    script.bytes
}

fn malformed(profile: &str) -> Vec<u8> {
    let mut script = Script::default();
    script.line(profile);
    script.lines(MALFORMED);
    script.line([b'X'; 120]);
    script.line([b'T'; 121]);
    script.line([b' '; 4000]);
    script.lines(["H", "T 0", "G 0 00000002", "S", "T 0"]);
    script.bytes
}

fn first_line(line: &[u8]) -> Vec<u8> {
    let mut script = Script::default();
    script.line(line);
    script.lines(["P 7 3 1 3", "H", "T 0", "", "G 6 00000058", "P 7 3 1 3", "S", "W"]);
    script.bytes
}

/// A profile line of so many bytes, which leading zeros make up.
fn long_profile(bytes: usize, thresholds: usize) -> String {
    let mut line = "P 0000000007 0000000003 0000000001".to_string();
    for left in (1..=thresholds).rev() {
        let digits = (bytes - line.len()) / left - 1;
        line += &format!(" {:0>digits$}", 3);
    }
    line
}

/// As many positions as the profile wants: the ends of both halves first, then what is left from the top down.
fn edge_positions(profile: &Profile) -> Vec<u32> {
    let ends = [2 * profile.r - 1, profile.r, profile.r - 1, 0];
    let others = (0..2 * profile.r).rev().filter(|p| !ends.contains(p));
    ends.iter().copied().chain(others).take(profile.t as usize).collect()
}

/// The row with every third bit set, and the last.
fn edge_row(profile: &Profile) -> Vec<u32> {
    let mut row = vec![0; profile.row_words() as usize];
    for j in (0..profile.r).step_by(3).chain([profile.r - 1]) {
        row[j as usize / 32] |= 1 << (j % 32);
    }
    row
}

/// Every fault of a seal in turn, each mended before the next, and then a grant.
fn seals(profile: &Profile) -> Vec<u8> {
    let mut script = Script::with_profile(profile);
    let input = Given { positions: edge_positions(profile), row: edge_row(profile) };
    let last = profile.t - 1;
    script.line("H");
    script.give_input(profile, &input);
    for place in [0, last] {
        spoilt_position(&mut script, "S", &input, place, &[2 * profile.r, 2 * profile.r + 1, u32::MAX, 1 << 31]);
    }
    if last > 0 {
        spoilt_position(&mut script, "S", &input, last, &input.positions[..1]);
    }
    spoilt_tail(&mut script, "S", &input, profile);
    script.lines(["T 0", "S", "H"]);
    script.take_all(profile);
    script.lines(["S", "W", "H", "T 0", "S", "T 0"]);
    script.bytes
}

/// Each of the words in place of a position in turn; then the position is mended.
fn spoilt_position(script: &mut Script, call: &str, input: &Given, place: u32, words: &[u32]) {
    for &word in words {
        script.give(place, word);
        script.lines([call, "H"]);
    }
    script.give(place, input.positions[place as usize]);
}

/// Each tail bit in turn; then the row is mended.
fn spoilt_tail(script: &mut Script, call: &str, input: &Given, profile: &Profile) {
    let (place, last) = (profile.in_words() - 1, input.row[input.row.len() - 1]);
    for bit in (profile.r - 1) % 32 + 1..32 {
        script.give(place, last | 1 << bit);
        script.lines([call, "H"]);
    }
    script.give(place, last);
}

/// Every fault of a load in turn, each mended before the next, and then a grant. Where there is no key every load is refused.
fn loads(profile: &Profile) -> Vec<u8> {
    let (r, d) = (profile.r, profile.d);
    let mut random = Random::new(u64::from(r));
    let halves = [keys::half(&mut random, profile), keys::half(&mut random, profile)];
    let no_key = Given { positions: halves.concat(), row: edge_row(profile) };
    let key = keys::key(&mut random, profile);
    let input = key.as_ref().unwrap_or(&no_key);
    let mut script = Script::with_profile(profile);
    script.give_input(profile, input);
    for place in [0, d - 1, d, 2 * d - 1] {
        spoilt_position(&mut script, "L", input, place, &[r, r + 1, u32::MAX, 1 << 31]);
    }
    for later in (1..d).chain(d + 1..2 * d).filter(|i| i % d == 1 || i % d == d - 1) {
        let first = (later / d * d) as usize;
        spoilt_position(&mut script, "L", input, later, &input.positions[first..=first]);
    }
    spoilt_order(&mut script, profile, input);
    spoilt_tail(&mut script, "L", input, profile);
    spoilt_inverse(&mut script, profile, input);
    script.lines(["T 0", "L", "H"]);
    script.take_all(profile);
    if let Some(key) = &key {
        seal_and_replace(&mut script, profile, key);
    }
    script.lines(["L", "W", "H", "T 0", "L", "H"]);
    script.bytes
}

/// Faults that come together, so that the order of the checks shows.
fn spoilt_order(script: &mut Script, profile: &Profile, input: &Given) {
    let (d, positions) = (profile.d, &input.positions);
    if d > 1 {
        // twice in both halves, and then a position out of range after them
        script.give(d - 1, positions[0]);
        script.give(2 * d - 1, positions[d as usize]);
        script.lines(["L", "H"]);
        script.give(2 * d - 1, profile.r);
        script.lines(["L", "H"]);
    }
    if profile.r % 32 != 0 {
        script.give(profile.in_words() - 1, u32::MAX);
        script.lines(["L", "H"]);
    }
    script.give_all(0, positions);
    script.give(profile.in_words() - 1, input.row[input.row.len() - 1]);
}

/// Rows that are no inverse, the halves exchanged, and the same half twice, which is a key if the first is.
fn spoilt_inverse(script: &mut Script, profile: &Profile, input: &Given) {
    let (first, second) = input.positions.split_at(profile.d as usize);
    let last = profile.r - 1;
    for (place, bit) in [(profile.row_place(), 0), (profile.in_words() - 1, last % 32)] {
        script.give(place, input.row[(place - profile.row_place()) as usize] ^ 1 << bit);
        script.lines(["L", "H"]);
        script.give(place, input.row[(place - profile.row_place()) as usize]);
    }
    script.give_all(0, &[second, first].concat());
    script.lines(["L", "H"]);
    script.give_all(0, &[first, first].concat());
    script.lines(["L", "H", "T 0"]);
    script.give_input(profile, input);
}

/// A seal under the public row of the key that is loaded, and another key in its place.
fn seal_and_replace(script: &mut Script, profile: &Profile, key: &Given) {
    let input = Given { positions: edge_positions(profile), row: keys::public_row(profile, key) };
    script.give_input(profile, &input);
    script.lines(["S", "T 0"]);
    let mut random = Random::new(u64::from(profile.r) + 1);
    if let (1..=5_000, Some(other)) = (profile.r, keys::key(&mut random, profile)) {
        script.give_input(profile, &other);
        script.lines(["H", "L", "H"]);
        script.take_all(profile);
    }
}

/// The first and last place of each part of IN and OUT, and the first one past it.
fn places() -> Vec<u8> {
    let profile = Profile { r: 70, d: 4, t: 3 };
    let mut script = Script::with_profile(&profile);
    let (row, ends) = (profile.row_place(), profile.in_words());
    for place in [0, profile.t, row - 1, row, ends - 1, ends, ends + 1, profile.all_words(), 8_127, 8_128, 8_192, 65_536, u32::MAX] {
        script.give(place, place);
        script.line(format!("T {place}"));
        script.line(format!("T {place:010}"));
        script.line("H");
    }
    script.lines([
        "S",
        "H",
        "W",
        "H",
        "T 0",
        "T 5",
        "T 6",
        "T 0000000006",
        "T 4294967295",
        "G 0000000011 00000000",
        "G 0000000010 00000000",
        "H",
    ]);
    script.bytes
}

fn ends() -> Vec<Vec<u8>> {
    let texts: [&[u8]; 16] = [
        b"",
        b"\n",
        b"\n\n",
        b"P 7 3 1 3",
        b"P 7 3 1 3\n",
        b"P 7 3 1 3\n\n",
        b"P 7 3 1 3\nH",
        b"P 7 3 1 3\nT 0",
        b"P 7 3 1 3\nG 0 0000000",
        b"P 7 3 1 3\nG 0 00000000",
        b"P 7 3 1 3\nS ",
        b"P 7 3 1 3\r\nH\r\n",
        b"P 7 3 1 3\0H\n",
        b"P 7 3 1 3\n\0",
        b"P 7 3 1 3\n ",
        b"\xef\xbb\xbfP 7 3 1 3\nH\n",
    ];
    texts.iter().map(|text| text.to_vec()).collect()
}

/// Inputs whose last counted byte falls at each kind of place.
fn limits() -> Vec<Vec<u8>> {
    let mut inputs =
        vec![vec![b'\n'; INPUT_BYTES], vec![b'\n'; INPUT_BYTES + 3], vec![b'S'; INPUT_BYTES], vec![b' '; INPUT_BYTES + 70_000]];
    for end in ["T 1\n", "T 1", "T 12", "T 12\n", "G 6 00000058", "G 6 00000058\nT 0\n", "S\nT 0\n", "L\nT 0\n", "H", "H\nH\n"] {
        for counted in 0..=end.len() {
            inputs.push(filled(end.as_bytes(), counted));
        }
    }
    inputs
}

/// A script of which so many bytes of `end` are the last that count.
fn filled(end: &[u8], counted: usize) -> Vec<u8> {
    let mut script = Script::default();
    script.lines(["P 7 3 1 3", "G 0 00000002"]);
    while script.bytes.len() + counted + 40 < INPUT_BYTES {
        script.line("G 1 00000005");
    }
    while script.bytes.len() + counted + 4 <= INPUT_BYTES {
        script.line("T 0");
    }
    while script.bytes.len() + counted < INPUT_BYTES {
        script.line("");
    }
    script.bytes.extend_from_slice(end);
    script.bytes
}
