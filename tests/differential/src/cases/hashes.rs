//! BLAKE2b one-shot and through a state, with parameters that change a few at a time.

use super::{any_message, ends, large_length, length, long_bytes, short_bytes, small_length, LARGEST};
use crate::dice::Dice;
use crate::script::Script;

fn byte(dice: &mut Dice) -> u64 {
    match dice.below(4) {
        0 => dice.one_of(&[0, 1, 2, 254, 255]),
        _ => dice.below(256) as u64,
    }
}

// A number of so many bits.
fn wide(dice: &mut Dice, bits: u32) -> u64 {
    let most = LARGEST >> (64 - bits);
    match dice.below(3) {
        0 => dice.one_of(&[0, 1, most, most - 1, most / 2 + 1]),
        1 => dice.word() & most & LARGEST >> dice.below(64),
        _ => dice.word() & most,
    }
}

fn setter(dice: &mut Dice) -> String {
    match dice.below(11) {
        0 => format!("hash_length {}", small_length(dice, 1)),
        1 => format!("key {}", short_bytes(dice, 64)),
        2 => format!("salt {}", short_bytes(dice, 16)),
        3 => format!("personal {}", short_bytes(dice, 16)),
        4 => format!("fanout {}", byte(dice)),
        5 => format!("max_depth {}", byte(dice)),
        6 => format!("max_leaf_length {}", wide(dice, 32)),
        7 => format!("node_offset {}", wide(dice, 64)),
        8 => format!("node_depth {}", byte(dice)),
        9 => format!("inner_hash_length {}", small_length(dice, 0)),
        _ => format!("last_node {}", dice.below(2)),
    }
}

fn refused_setter(dice: &mut Dice) -> String {
    match dice.below(6) {
        0 => "hash_length 0".to_string(),
        1 => format!("hash_length {}", large_length(dice)),
        2 => format!("key {}", long_bytes(dice, 64)),
        3 => format!("salt {}", long_bytes(dice, 16)),
        4 => format!("personal {}", long_bytes(dice, 16)),
        _ => format!("inner_hash_length {}", large_length(dice)),
    }
}

fn ask_parameters(script: &mut Script) {
    let asked = script.dice.one_of(&["in_range", "is_keyed", "is_last_node", "digest_length", "key_block", "to_words"]);
    script.say(format!("params {asked}"));
}

// Some over those of the case before, or over the defaults, and what is read of them.
pub fn set_parameters(script: &mut Script) {
    if script.dice.one_in(5) {
        script.say("params new");
    }
    for _ in 0..script.dice.below(5) {
        let call = setter(&mut script.dice);
        script.say(format!("params {call}"));
    }
    if script.dice.one_in(8) {
        let call = refused_setter(&mut script.dice);
        script.say(format!("params {call}"));
    }
    for _ in 0..script.dice.below(3) {
        ask_parameters(script);
    }
}

pub fn one_shot(script: &mut Script) {
    set_parameters(script);
    for _ in 0..script.dice.between(1, 4) {
        let message = any_message(&mut script.dice);
        script.say(format!("hash {message}"));
    }
    if script.dice.one_in(3) {
        let message = any_message(&mut script.dice);
        script.say(format!("blake2b {message}"));
    }
}

// Counts and digests come between the pieces, and the last-node flag is turned over.
pub fn pieces(script: &mut Script) {
    set_parameters(script);
    let first = if script.dice.one_in(8) { "state new" } else { "state open" };
    script.say(first);
    let length = length(&mut script.dice);
    let message = format!("g:{length}:{}", script.dice.below(1 << 31));
    let mut start = 0;
    for end in ends(&mut script.dice, length) {
        if script.dice.one_in(8) {
            let flag = script.dice.below(2);
            script.say(format!("state set_last_node {flag}"));
        }
        script.say(format!("state update {message}[{start}:{end}]"));
        if script.dice.one_in(2) {
            script.say("state finalize");
        }
        if script.dice.one_in(3) {
            script.say("state count");
        }
        if script.dice.one_in(6) {
            script.say("state in_range");
        }
        start = end;
    }
    script.say("state count");
    script.say("state finalize");
}
