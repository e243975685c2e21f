//! Histories over a bank: slots opened and closed, updates, and batches of pieces, a few of them bad.

use super::hashes::set_parameters;
use super::{any_message, length, message, range, used, LARGEST};
use crate::rules::MOST;
use crate::script::Script;

fn any_slot(script: &mut Script) -> u64 {
    if script.dice.one_in(40) {
        return script.dice.one_of(&[16, 17, 255, 256, 1 << 32, (1 << 32) + 3, LARGEST]);
    }
    script.dice.below(MOST) as u64
}

// One that is open, most often.
fn fed_slot(script: &mut Script) -> u64 {
    let open = script.model.bank.open_slots();
    if open.is_empty() || script.dice.one_in(60) {
        return any_slot(script);
    }
    script.dice.one_of(&open)
}

fn show(script: &mut Script) {
    for slot in script.model.bank.open_slots() {
        script.say(format!("bank count {slot}"));
        script.say(format!("bank digest {slot}"));
    }
}

// A refused batch leaves all slots as they were.
fn batch(script: &mut Script, data_length: usize) {
    let count = script.dice.one_of(&[0, 1, 2, 3, 4, 5, 8, 15, 16]);
    // Few slots, so that pieces join.
    let few = [(); 3].map(|()| fed_slot(script));
    let is_few = script.dice.one_in(2);
    for place in 0..count {
        let slot = if is_few { script.dice.one_of(&few) } else { fed_slot(script) };
        let (start, length) = range(&mut script.dice, data_length);
        script.say(format!("bank piece {place} {slot} {start} {length}"));
    }
    let used = used(&mut script.dice, count);
    let data = message(&mut script.dice, data_length);
    // The records as an array, or lent.
    let form = script.dice.one_of(&["update_many", "update_lent"]);
    if !script.say(format!("bank {form} {used} {data}")) || script.dice.one_in(3) {
        show(script);
    }
}

fn call(script: &mut Script) {
    let slot = fed_slot(script);
    match script.dice.below(16) {
        0 | 1 => {
            set_parameters(script);
            let slot = any_slot(script);
            script.say(format!("bank open {slot}"));
        }
        2..=5 => {
            let message = any_message(&mut script.dice);
            script.say(format!("bank update {slot} {message}"));
        }
        6..=8 => {
            let data_length = length(&mut script.dice);
            batch(script, data_length);
        }
        9..=11 => _ = script.say(format!("bank digest {slot}")),
        12 => {
            let room = script.dice.one_of(&[0, 1, 19, 20, 31, 32, 33, 63, 64, 65, 128]);
            script.say(format!("bank digest_to {slot} {room}"));
        }
        13 | 14 => _ = script.say(format!("bank count {slot}")),
        _ => _ = script.say(format!("bank close {slot}")),
    }
}

pub fn history(script: &mut Script) {
    if script.dice.one_in(8) {
        script.say("bank new");
    }
    if script.dice.one_in(8) {
        for slot in 0..MOST {
            script.say(format!("bank open {slot}"));
        }
    }
    for _ in 0..script.dice.between(5, 25) {
        call(script);
    }
}

// Small data, so that starts and lengths lie at their ends.
pub fn batch_borders(script: &mut Script) {
    let slot = fed_slot(script);
    script.say(format!("bank open {slot}"));
    for _ in 0..4 {
        let data_length = script.dice.below(4);
        batch(script, data_length);
    }
}
