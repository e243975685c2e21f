//! Hash jobs: made over some data, run in batches over the same, other or shorter data, and asked again.

use super::hashes::set_parameters;
use super::{length, message, range, used};
use crate::rules::MOST;
use crate::script::Script;

fn show(script: &mut Script, count: usize) {
    for place in 0..count {
        script.say(format!("job hash {place}"));
    }
}

pub fn jobs(script: &mut Script) {
    let data_length = length(&mut script.dice);
    let data = message(&mut script.dice, data_length);
    let count = script.dice.one_of(&[0, 1, 2, 3, 4, 5, 8, 15, 16]);
    for place in 0..count {
        if script.dice.one_in(2) {
            set_parameters(script);
        }
        let (start, length) = range(&mut script.dice, data_length);
        script.say(format!("job new {place} {start} {length} {data}"));
        if script.dice.one_in(8) {
            let input = super::any_message(&mut script.dice);
            script.say(format!("job held {input}"));
        }
    }
    if script.dice.one_in(3) {
        show(script, count);
    }
    for _ in 0..script.dice.between(1, 3) {
        let over = match script.dice.below(4) {
            0 => message(&mut script.dice, data_length),
            1 => super::any_message(&mut script.dice),
            _ => data.clone(),
        };
        let used = used(&mut script.dice, count);
        script.say(format!("job run {used} {over}"));
        show(script, count);
    }
    if script.dice.one_in(4) {
        show(script, MOST);
    }
}
