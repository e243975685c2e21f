//! The model against the stored script of crates/replay_main, whose answers are published ones, hashlib's and libb2's.
//!
//! It tests the model, not the library: an error in both would have to be the same.

use crate::model::Model;
use std::fs;

// How many answers were compared. Lines that are no call are replay's own, and the model has none.
pub fn check(folder: &str) -> u64 {
    let read = |name: &str| fs::read(format!("{folder}/{name}")).expect("the stored script can't be read");
    let (script, answers) = (read("stdin"), read("stdout"));
    let (script, answers) = (String::from_utf8_lossy(&script), String::from_utf8_lossy(&answers));
    let is_short = |line: &&str| line.len() <= 8192;
    let is_silent = |line: &&str| line.is_empty() || line.starts_with('#') && is_short(line);
    let calls = script.split('\n').filter(|line| !is_silent(line));
    let mut model = Model::new();
    let mut compared = 0;
    for (line, answer) in calls.zip(answers.lines()) {
        if !answer.starts_with("malformed") {
            assert_eq!(model.answer(line), answer, "the model and the stored answer to '{line}' disagree");
            compared += 1;
        }
    }
    compared
}
