//! The calls on a digest: made of words, comparison, bytes and hexadecimal to outputs of any room; and the zero records of a
//! refusal.

use super::{any_message, hexadecimal, large_length, small_length};
use crate::dice::Dice;
use crate::message::to_hex;
use crate::script::Script;

fn last_bytes(script: &Script) -> Vec<u8> {
    script.model.last.map_or(Vec::new(), |made| made.as_bytes().to_vec())
}

// Bytes to compare the last digest with: its own, or nearly.
fn like_the_last(script: &mut Script) -> String {
    let mut bytes = last_bytes(script);
    match script.dice.below(6) {
        0 | 1 => {}
        2 => _ = bytes.pop(),
        3 => bytes.push(script.dice.one_of(&[0, 0xFF])),
        4 if !bytes.is_empty() => {
            let place = script.dice.below(bytes.len());
            bytes[place] ^= 1 << script.dice.below(8);
        }
        _ => return any_message(&mut script.dice),
    }
    format!("x:{}", to_hex(&bytes))
}

// Rooms at and beside what is to be written.
fn room(script: &mut Script, per_byte: usize) -> usize {
    let length = per_byte * script.model.last.map_or(32, |made| made.as_bytes().len());
    match script.dice.below(8) {
        0 | 1 => length,
        2 => length - 1,
        3 => length + 1,
        4 => script.dice.one_of(&[0, 1, 63, 64, 65, 127, 128, 129, 1024]),
        5 => script.dice.between(length, length + 64),
        _ => script.dice.below(130),
    }
}

// A digest's length, or one that no digest has.
fn any_length(dice: &mut Dice) -> u64 {
    match dice.below(8) {
        0 => 0,
        1 | 2 => large_length(dice),
        _ => small_length(dice, 1),
    }
}

// A length and words: those of the last digest with anything behind it, so that the same digest comes again; or others.
fn words(script: &mut Script) -> String {
    let front = if script.dice.one_in(3) { Vec::new() } else { last_bytes(script) };
    let length = if script.dice.one_in(2) { any_length(&mut script.dice) } else { front.len() as u64 };
    let mut bytes = [(); 64].map(|()| script.dice.word() as u8);
    bytes[..front.len()].copy_from_slice(&front);
    format!("{length} x:{}", to_hex(&bytes))
}

fn call(script: &mut Script) {
    let (short, long) = (room(script, 1), room(script, 2));
    let line = match script.dice.below(13) {
        0 => "digest len".to_string(),
        1 => "digest keep".to_string(),
        2 => "digest equals".to_string(),
        3 | 4 => format!("digest equals_bytes {}", like_the_last(script)),
        5 => format!("digest write_bytes {short}"),
        6 => format!("digest written_bytes {short}"),
        7 => format!("digest write_hex {long}"),
        8 => format!("digest written_hex {long}"),
        9 => format!("digest from_words {}", words(script)),
        10 => format!("digest is_digest_length {}", any_length(&mut script.dice)),
        11 => "digest in_range".to_string(),
        _ => format!("digest from_bytes {}", hexadecimal(&mut script.dice, 64)),
    };
    script.say(line);
}

// A digest that is kept, made again by another call, is equal to itself.
pub fn calls(script: &mut Script) {
    let message = any_message(&mut script.dice);
    script.say(format!("hash {message}"));
    if script.dice.one_in(2) {
        script.say("digest keep");
        script.say("state open");
        script.say(format!("state update {message}"));
        script.say("state finalize");
        script.say("digest equals");
    }
    for _ in 0..8 {
        call(script);
    }
}

// They are refused with 14, and stay what they are.
pub fn zero_records(script: &mut Script) {
    let message = any_message(&mut script.dice);
    script.say("state zero");
    script.say("bp state zero");
    script.say("digest zero");
    for _ in 0..6 {
        let line = match script.dice.below(13) {
            0 => format!("state update {message}"),
            1 => format!("state set_last_node {}", script.dice.below(2)),
            2 => "state count".to_string(),
            3 => "state finalize".to_string(),
            4 => format!("bp state update {message}"),
            5 => "bp state count".to_string(),
            6 => "bp state finalize".to_string(),
            7 => "bp state leaf_count".to_string(),
            8 => "bp state buffered".to_string(),
            9 => "state in_range".to_string(),
            10 => "bp state in_range".to_string(),
            11 => "digest in_range".to_string(),
            _ => return call(script),
        };
        script.say(line);
    }
    for _ in 0..3 {
        call(script);
    }
}
