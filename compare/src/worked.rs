//! Examples worked out by hand, which the second implementation is held to before it is believed.
//! The row f has 7 bits; h0 and h1 are two lists of positions, and f times h0 has bit 0 alone.

use crate::device::{Fault, KeyBox, Profile};
use crate::memory::{Memory, Scrambler, Tape, Window};
use crate::ring::inverse;
use crate::rows::{has_tail, Row};
use crate::script::{lines, Session};

/// A check by name, and whether it holds.
type Check = (&'static str, bool);

pub fn checks() -> Vec<Check> {
    [rows(), inverses(), loads(), seals(), memories(), boxes(), scripts()].concat()
}

fn rows() -> Vec<Check> {
    let f = Row::with_bits(7, &[0, 2, 3, 5, 6]);
    let long = Row::with_bits(33, &[0, 31, 32]);
    vec![
        ("f rotated by 1", f.rotated(1).set_bits() == [0, 1, 3, 4, 6]),
        ("f rotated by 0", f.rotated(0) == f),
        ("h0 times f", f.product(&[0, 1, 2]).set_bits() == [0]),
        ("h1 times f", f.product(&[0, 1, 3]).set_bits() == [3, 4, 6]),
        ("the words of f", f.words() == [0x6d]),
        ("the words of a row of two words", long.words() == [0x8000_0001, 1]),
        ("a row from its words", Row::from_words(33, &[0x8000_0001, 1]) == long),
        ("no tail bit", !has_tail(7, &[0x7f]) && !has_tail(32, &[u32::MAX]) && !has_tail(33, &[u32::MAX, 1])),
        ("a tail bit", has_tail(7, &[0x80]) && has_tail(31, &[1 << 31]) && has_tail(33, &[0, 1 << 31])),
    ]
}

fn inverses() -> Vec<Check> {
    let unit = |r, h: &[usize]| inverse(r, h).is_some_and(|f| Row::from_words(r, &f).product(h) == Row::with_bits(r, &[0]));
    vec![
        ("the inverse of h0", inverse(7, &[0, 1, 2]) == Some(vec![0x6d])),
        ("a row of even weight has no inverse", inverse(7, &[0, 1]).is_none() && inverse(64, &[0, 1, 5, 9]).is_none()),
        ("{0, 1, 2} has no inverse at r 6", inverse(6, &[0, 1, 2]).is_none()),
        ("all of an odd row has no inverse", inverse(7, &[0, 1, 2, 3, 4, 5, 6]).is_none()),
        ("one bit has an inverse", unit(3, &[2]) && unit(16_000, &[15_999]) && unit(63, &[0])),
        ("odd weight has an inverse at powers of two", unit(32, &[0, 1, 31]) && unit(64, &[3, 5, 6, 7, 8]) && unit(128, &[0, 1, 127])),
    ]
}

const KEY: [u32; 6] = [0, 1, 2, 0, 1, 3];

fn loads() -> Vec<Check> {
    let refused = |number, place| Err(Fault { number, layer: "input", place });
    vec![
        ("the key is loaded", loaded(KEY, 0x6d) == Ok((6, 0x58, 0))),
        ("position 6 is taken", loaded([0, 1, 2, 0, 1, 6], 0x6d) == Ok((6, 0x40, 0))),
        ("position 7 is refused", loaded([0, 1, 2, 0, 1, 7], 0x6d) == refused(6, 5)),
        ("the first position out of range", loaded([0, 8, 2, 7, 0, 7], 0x80) == refused(6, 1)),
        ("a position twice in the first half", loaded([0, 1, 0, 3, 3, 3], 0x80) == refused(7, 2)),
        ("a position twice in the second half", loaded([0, 1, 2, 0, 3, 3], 0x80) == refused(7, 5)),
        ("the halves may share positions", loaded([0, 1, 2, 2, 1, 0], 0x6d) == Ok((6, 0x01, 0))),
        ("a tail bit", loaded(KEY, 0xed) == refused(8, 6)),
        ("another row", loaded(KEY, 0x6c) == refused(9, 6)),
        ("the halves exchanged", loaded([0, 1, 3, 0, 1, 2], 0x6d) == refused(9, 6)),
    ]
}

/// The rotations and the two words of OUT when a key is loaded.
fn loaded(positions: [u32; 6], row: u32) -> Result<(u32, u32, u32), Fault> {
    let mut opened = KeyBox::open(Profile { r: 7, d: 3, t: 1 }, Tape::new());
    for (i, position) in positions.into_iter().enumerate() {
        opened.give(i as u32, position)?;
    }
    opened.give(6, row)?;
    let rotations = opened.load()?;
    Ok((rotations, opened.take(0)?, opened.take(1)?))
}

fn seals() -> Vec<Check> {
    vec![
        ("position 2 seals to {2}", sealed(2) == Ok((1, 0x04))),
        ("position 8 seals to {0, 4, 5}", sealed(8) == Ok((1, 0x31))),
        ("position 0 seals to {0}", sealed(0) == Ok((1, 0x01))),
        ("position 7 seals to the public row", sealed(7) == Ok((1, 0x58))),
        ("position 14 is refused", sealed(14) == Err(Fault { number: 10, layer: "input", place: 0 })),
    ]
}

/// The rotations and the word that position p seals to with the public row {3, 4, 6}.
fn sealed(p: u32) -> Result<(u32, u32), Fault> {
    let mut opened = KeyBox::open(Profile { r: 7, d: 3, t: 1 }, Tape::new());
    opened.give(0, p)?;
    opened.give(6, 0x58)?;
    let rotations = opened.seal()?;
    Ok((rotations, opened.take(0)?))
}

fn memories() -> Vec<Check> {
    let mut tape = Tape::new();
    tape.put(3, 9);
    let heard = [
        tape.hear(),
        {
            tape.get(3);
            tape.hear()
        },
        {
            tape.get(8_192);
            tape.hear()
        },
    ];
    let mut scrambler = Scrambler::new(Tape::new(), 305_419_896);
    let pads = [scrambler.get(0), scrambler.get(1), scrambler.get(8_192)];
    let mut window = Window::new(Tape::new(), 64, 8_128);
    window.put(8_128, 5);
    let past = (window.hear(), window.get(8_128));
    window.put(0, 5);
    vec![
        ("the tape's trail", heard == [7, 7 * 31 + 6, (7 * 31 + 6) * 31 + 16_384]),
        ("the tape's words", tape.get(3) == 9 && tape.get(4) == 0 && tape.get(u32::MAX) == 0),
        ("the pads", pads == [0x1234_5678, 0x1234_5678 ^ 0x9e37_79b1, 0]),
        ("past a window nothing is accessed", past == (0, 0)),
        ("a window's address", window.hear() == 129 && window.get(0) == 5),
        ("a window that does not fit has no words", Window::new(Tape::new(), 65, 8_128).size() == 0),
    ]
}

fn boxes() -> Vec<Check> {
    let first = Profile { r: 4_801, d: 45, t: 84 };
    let largest = Profile { r: 16_000, d: 63, t: 255 };
    let small = |length| KeyBox::open(Profile { r: 7, d: 3, t: 1 }, Window::new(Tape::new(), 0, length));
    let too_small = Err(Fault { number: 2, layer: "box", place: 0 });
    vec![
        ("the words of the default profile", first.all_words() == 2_445),
        ("the words of the largest profile", largest.all_words() == 7_881),
        ("27 words are enough", small(27).seal() == Ok(1)),
        (
            "26 words are too few",
            small(26).seal() == too_small
                && small(26).load() == too_small
                && small(26).wipe().is_err()
                && small(26).give(9, 0).is_err()
                && small(26).take(0).is_err(),
        ),
        ("a box that is too small accesses nothing", small(26).memory().hear() == 0),
        ("ranges", Profile::set(&[2, 1, 1, 1]).is_err() && Profile::set(&[3, 1, 1, 1]).is_ok()),
        ("ranges of d", Profile::set(&[4_801, 64, 1, 1]).is_err() && Profile::set(&[4_801, 63, 1, 1]).is_ok()),
    ]
}

const SCRIPT: &str = "P 7 3 1 3\nG 0 00000008\nG 6 00000058\nS\nT 0\nG 0 0000000e\nS\nG 6 00000080\nS\nT 2\nL\nU\nP 7 3 1 3\nW\nT 0";
const PRINTED: &str =
    "ok|ok|ok|ok 1|ok 00000031|ok|no 10 input 0 7|ok|no 10 input 0 9|no 3 box 2 10|no 6 input 0 11|no 20 line 0 12|no 20 line 0 13|ok|ok 00000000";

fn scripts() -> Vec<Check> {
    vec![
        ("a whole script", replies(SCRIPT) == PRINTED),
        ("no profile", replies("H\nP 7 3 1 3\n\n") == "no 21 line 0 1|no 20 line 0 2|no 20 line 0 3"),
        ("a refused profile", replies("P 2 1 1 1\nS") == "no 1 profile 0 1|no 21 line 0 2"),
        ("an empty input has no line", lines(b"").is_empty() && lines(b"\n").len() == 1),
        ("what is heard after opening", replies("P 3 1 1 1\nH\nG 0 00000001\nH") == opened_trail()),
    ]
}

fn replies(script: &str) -> String {
    let mut session = Session::new();
    let replies: Vec<String> = lines(script.as_bytes()).iter().map(|line| session.reply(line).text()).collect();
    replies.join("|")
}

/// The numbers heard after 19 puts from address 64 on, and after one more at 64.
fn opened_trail() -> String {
    let step = |trail: u64, address: u64| (trail * 31 + 2 * address + 1) % (1 << 32);
    let opened = (64..64 + 19).fold(0, step);
    format!("ok|ok {opened}|ok|ok {}", step(opened, 64))
}
