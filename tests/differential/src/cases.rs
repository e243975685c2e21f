//! Cases that are drawn: each is some lines of a script, over what the cases before it left.
//!
//! A new call of replay gets a case of its own here, or a line in one, and an arm in the model.

mod banks;
mod batches;
mod digests;
mod hashes;
mod trees;

use crate::dice::Dice;
use crate::message::to_hex;
use crate::script::Script;

// At and beside the ends of blocks, of rows of four, and of what BLAKE2bp holds back.
pub const BORDERS: [usize; 25] = [
    0, 1, 63, 64, 65, 127, 128, 129, 255, 256, 257, 383, 384, 385, 511, 512, 513, 895, 896, 897, 898, 1023, 1024,
    1025, 4096,
];

// The largest that a line can name.
pub const LARGEST: u64 = u64::MAX;

type Case = fn(&mut Script);

// How often a case comes, of the sum of these.
const CASES: [(usize, Case); 9] = [
    (5, hashes::one_shot),
    (5, hashes::pieces),
    (3, digests::calls),
    (1, digests::zero_records),
    (4, batches::jobs),
    (5, banks::history),
    (1, banks::batch_borders),
    (4, trees::one_shot),
    (5, trees::pieces),
];

pub fn draw(script: &mut Script) {
    let all = CASES.iter().map(|(weight, _)| weight).sum();
    let mut place = script.dice.below(all);
    for (weight, case) in CASES {
        if place < weight {
            return case(script);
        }
        place -= weight;
    }
}

// The length of a message: half of them borders, some sums of two, a few long.
pub fn length(dice: &mut Dice) -> usize {
    match dice.below(32) {
        0..=15 => dice.one_of(&BORDERS),
        16..=19 => dice.one_of(&BORDERS[..24]) + dice.one_of(&BORDERS[..24]),
        20..=30 => dice.below(1100),
        _ if dice.one_in(8) => dice.below(70_000),
        _ => dice.below(5000),
    }
}

fn hexadecimal(dice: &mut Dice, length: usize) -> String {
    let bytes: Vec<u8> = (0..length).map(|_| dice.word() as u8).collect();
    format!("x:{}", to_hex(&bytes))
}

// A message of so many bytes, in any way to write it.
pub fn message(dice: &mut Dice, length: usize) -> String {
    match dice.below(8) {
        0 if length <= 300 => hexadecimal(dice, length),
        1 => format!("c:{length}:{}", dice.below(256)),
        2 => {
            let (before, behind, seed) = (dice.below(70), dice.below(70), dice.below(1 << 31));
            format!("g:{}:{seed}[{before}:{}]", before + length + behind, before + length)
        }
        _ => format!("g:{length}:{}", dice.below(1 << 31)),
    }
}

pub fn any_message(dice: &mut Dice) -> String {
    let length = length(dice);
    message(dice, length)
}

// Bytes of a key, a salt or a personalization, at most so many.
pub fn short_bytes(dice: &mut Dice, most: usize) -> String {
    let length = match dice.below(4) {
        0 => dice.one_of(&[0, 1, most - 1, most]),
        _ => dice.between(0, most),
    };
    message(dice, length)
}

// Longer ones, which a setter refuses.
pub fn long_bytes(dice: &mut Dice, most: usize) -> String {
    let length = match dice.below(3) {
        0 => most + 1,
        1 => dice.one_of(&[256, 256 + most, 512 + most, 65536, 65536 + most]),
        _ => dice.between(most + 1, 3 * most),
    };
    message(dice, length)
}

// A length from so many to 64.
pub fn small_length(dice: &mut Dice, least: usize) -> u64 {
    match dice.below(4) {
        0 => dice.one_of(&[least, 1, 32, 63, 64]) as u64,
        _ => dice.between(least, 64) as u64,
    }
}

// Over 64. The low bits of some would be taken.
pub fn large_length(dice: &mut Dice) -> u64 {
    let low = dice.between(0, 64) as u64;
    match dice.below(4) {
        0 => dice.one_of(&[65, 66, 128, 255, LARGEST]),
        1 => dice.one_of(&[1 << 8, 1 << 16, 1 << 32, 1 << 63]) + low,
        2 => 65 + low,
        _ => dice.word() | 1 << 63,
    }
}

// Where a message of so many bytes is cut, its end with it. Some pieces are empty.
pub fn ends(dice: &mut Dice, length: usize) -> Vec<usize> {
    let count = dice.one_of(&[0, 1, 1, 2, 3, 5]);
    let mut ends: Vec<usize> = (0..count)
        .map(|_| match dice.below(3) {
            0 => dice.one_of(&BORDERS).min(length),
            1 => length - dice.one_of(&BORDERS).min(length),
            _ => dice.between(0, length),
        })
        .collect();
    ends.push(length);
    ends.sort_unstable();
    ends
}

// A start and a length over data of so many bytes: most often inside it.
pub fn range(dice: &mut Dice, data_length: usize) -> (u64, u64) {
    let start = if data_length == 0 { 0 } else { dice.below(data_length) };
    let left = data_length.saturating_sub(start);
    let inside = match dice.below(4) {
        0 => left,
        1 => dice.between(0, left),
        _ => dice.one_of(&BORDERS).min(left),
    };
    let (start, left, inside) = (start as u64, left as u64, inside as u64);
    let (whole, beyond) = (data_length as u64, dice.word());
    if !dice.one_in(60) {
        return (start, inside);
    }
    dice.one_of(&[
        (start, left + 1),
        (whole, 0),
        (whole, 1),
        (whole + 1, 0),
        (start, LARGEST - start + 1 + inside),
        (LARGEST, inside),
        (LARGEST, LARGEST),
        (start, LARGEST),
        (beyond, inside),
        (start, left + 1 + beyond / 2),
        (start + (1 << 32), inside),
        (start, inside + (1 << 32)),
    ])
}

// How many of the sixteen a batch uses: now and then too many.
pub fn used(dice: &mut Dice, count: usize) -> u64 {
    if dice.one_in(40) {
        return dice.one_of(&[17, 18, 256, 256 + count as u64, 1 << 32, (1 << 32) + count as u64, LARGEST]);
    }
    count as u64
}
