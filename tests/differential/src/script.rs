//! A script that is being drawn: each line goes to replay_main and to the model, and at the end their answers are compared.

use crate::dice::Dice;
use crate::mismatch::{first_difference, Mismatch};
use crate::model::Model;
use crate::replay::{Program, Replay};
use crate::tally::Tally;

pub struct Script<'a> {
    pub dice: Dice,
    pub model: Model,
    program: &'a Program,
    replay: Replay<'a>,
    lines: Vec<String>,
    expected: Vec<String>,
}

impl<'a> Script<'a> {
    pub fn start(program: &'a Program, seed: u64) -> Self {
        Script {
            dice: Dice::new(seed),
            model: Model::new(),
            program,
            replay: program.start(),
            lines: Vec::new(),
            expected: Vec::new(),
        }
    }

    // Whether the call is accepted.
    pub fn say(&mut self, line: impl Into<String>) -> bool {
        let line = line.into();
        self.replay.send(&line);
        let answer = self.model.answer(&line);
        let is_accepted = answer == "number=0" || answer.starts_with("number=0 ");
        self.lines.push(line);
        self.expected.push(answer);
        is_accepted
    }

    pub fn finish(self, tally: &mut Tally) -> Result<(), Mismatch> {
        let got = self.replay.finish();
        if let Some(place) = first_difference(&self.expected, &got) {
            return Err(Mismatch::at(place, self.program, self.lines));
        }
        for (line, answer) in self.lines.iter().zip(&self.expected) {
            tally.add(line, answer);
        }
        tally.second += self.model.second.compared;
        Ok(())
    }
}
