//! BLAKE2bp one-shot and through a state, with what waits in its buffer.

use super::{any_message, ends, large_length, length, long_bytes, short_bytes, small_length};
use crate::script::Script;

fn set_parameters(script: &mut Script) {
    let dice = &mut script.dice;
    let call = match dice.below(10) {
        0 => "new".to_string(),
        1 => "hash_length 0".to_string(),
        2 => format!("hash_length {}", large_length(dice)),
        3 => format!("key {}", long_bytes(dice, 64)),
        4 => "key x:".to_string(),
        5 | 6 => format!("key {}", short_bytes(dice, 64)),
        _ => format!("hash_length {}", small_length(dice, 1)),
    };
    script.say(format!("bp params {call}"));
    if script.dice.one_in(3) {
        script.say("bp params in_range");
    }
}

pub fn one_shot(script: &mut Script) {
    set_parameters(script);
    for _ in 0..script.dice.between(1, 4) {
        let message = any_message(&mut script.dice);
        script.say(format!("bp hash {message}"));
    }
    if script.dice.one_in(3) {
        let message = any_message(&mut script.dice);
        script.say(format!("bp blake2bp {message}"));
    }
}

pub fn pieces(script: &mut Script) {
    set_parameters(script);
    let first = if script.dice.one_in(8) { "bp state new" } else { "bp state open" };
    script.say(first);
    let length = length(&mut script.dice);
    let message = format!("g:{length}:{}", script.dice.below(1 << 31));
    let mut start = 0;
    for end in ends(&mut script.dice, length) {
        script.say(format!("bp state update {message}[{start}:{end}]"));
        let asked = script.dice.one_of(&["finalize", "count", "buffered", "leaf_count", "in_range"]);
        script.say(format!("bp state {asked}"));
        start = end;
    }
    for asked in ["count", "buffered", "leaf_count", "finalize"] {
        script.say(format!("bp state {asked}"));
    }
}
