//! Where replay_main and the model answer differently, and a small script that shows it.

use crate::model::Model;
use crate::replay::Program;
use std::fs;

// Answers that are missing, or too many, are a difference too.
pub fn first_difference(expected: &[String], got: &[String]) -> Option<usize> {
    let places = expected.len().max(got.len());
    (0..places).find(|place| expected.get(*place) != got.get(*place))
}

fn modelled(lines: &[String]) -> Vec<String> {
    let mut model = Model::new();
    lines.iter().map(|line| model.answer(line)).collect()
}

// The lines up to the first that is answered differently, where there is one.
fn shown(program: &Program, lines: &[String]) -> Option<Vec<String>> {
    let place = first_difference(&modelled(lines), &program.answers(lines))?;
    Some(lines[..lines.len().min(place + 1)].to_vec())
}

// Parts are left out, at first large ones, as long as a difference is left.
fn shortened(program: &Program, lines: Vec<String>) -> Vec<String> {
    let mut lines = lines;
    let mut size = lines.len() / 2;
    while size > 0 {
        let mut start = 0;
        while start < lines.len() {
            let end = lines.len().min(start + size);
            let without = [&lines[..start], &lines[end..]].concat();
            match shown(program, &without) {
                Some(shorter) => lines = shorter,
                None => start = end,
            }
        }
        size /= 2;
    }
    lines
}

pub struct Mismatch {
    // Of the drawn script, counted from 1.
    line: usize,
    script: Vec<String>,
    expected: String,
    got: String,
}

impl Mismatch {
    pub fn at(place: usize, program: &Program, lines: Vec<String>) -> Self {
        let first = lines[..lines.len().min(place + 1)].to_vec();
        let script = shortened(program, shown(program, &first).unwrap_or(first));
        let last = |answers: Vec<String>| answers.get(script.len() - 1).cloned().unwrap_or_default();
        let (expected, got) = (last(modelled(&script)), last(program.answers(&script)));
        Mismatch { line: place + 1, script, expected, got }
    }

    pub fn report(&self, folder: &str) {
        let path = format!("{folder}/mismatch.script");
        fs::write(&path, self.script.join("\n") + "\n").expect("the script can't be written");
        println!("MISMATCH at line {} of the drawn script", self.line);
        println!("a script that shows it, {} lines, is in {path}; its end:", self.script.len());
        for line in &self.script[self.script.len().saturating_sub(20)..] {
            println!("    {line}");
        }
        println!("expected  {}", self.expected);
        println!("got       {}", self.got);
    }
}
