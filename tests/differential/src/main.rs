//! Compares this library with the Rust crate, forced to portable, on drawn scripts: see docs/DIFFERENTIAL.md.
//!
//!     differential SEED CASES STORED OUT COMMAND..
//!
//! STORED is the folder of the gate's script, OUT the one that a mismatch is written to, COMMAND runs replay_main.

mod answer;
mod bank;
mod cases;
mod compression;
mod dice;
mod digests;
mod jobs;
mod libb2;
mod message;
mod mismatch;
mod model;
mod parallel;
mod replay;
mod rules;
mod script;
mod setting;
mod stored;
mod stream;
mod sweep;
mod tally;
mod words;

use dice::Dice;
use mismatch::Mismatch;
use replay::Program;
use script::Script;
use std::process::exit;
use std::time::Instant;
use tally::Tally;

// The cases of one script: a mismatch is sought in so many again.
const CASES_OF_A_SCRIPT: u64 = 500;
const SCRIPTS_OF_A_LINE: u64 = 20;

struct Run {
    program: Program,
    seeds: Dice,
    tally: Tally,
    start: Instant,
}

impl Run {
    fn script(&mut self, fill: impl FnOnce(&mut Script)) -> Result<(), Mismatch> {
        let mut script = Script::start(&self.program, self.seeds.word());
        fill(&mut script);
        script.finish(&mut self.tally)
    }

    fn progress(&self, what: &str) {
        let (answers, seconds) = (self.tally.answers(), self.start.elapsed().as_secs());
        println!("{what}: {answers} answers compared, {seconds} s");
    }

    fn all(&mut self, cases: u64) -> Result<(), Mismatch> {
        let scripts = (cases + CASES_OF_A_SCRIPT - 1) / CASES_OF_A_SCRIPT;
        for number in 0..scripts {
            let count = CASES_OF_A_SCRIPT.min(cases - number * CASES_OF_A_SCRIPT);
            self.script(|script| (0..count).for_each(|_| cases::draw(script)))?;
            if (number + 1) % SCRIPTS_OF_A_LINE == 0 || number + 1 == scripts {
                self.progress(&format!("case {}", number * CASES_OF_A_SCRIPT + count));
            }
        }
        for part in sweep::parts() {
            self.script(|script| part.walk(script))?;
        }
        self.progress("every cut of every border's length, and all lengths of digests and keys");
        Ok(())
    }
}

fn main() {
    let args: Vec<String> = std::env::args().skip(1).collect();
    let number = |place: usize| args[place].parse::<u64>().expect("SEED and CASES are numbers");
    let (seed, cases, stored, out) = (number(0), number(1), &args[2], &args[3]);
    println!("seed {seed}, {cases} cases");
    println!("the model gives {} stored answers of the gate's script", stored::check(stored));
    if !compression::compare(seed, cases) {
        exit(1);
    }
    println!("the exported compression agrees with libb2's in {cases} cases");
    let program = Program::new(&args[4..], out);
    let mut run = Run { program, seeds: Dice::new(seed), tally: Tally::default(), start: Instant::now() };
    if let Err(mismatch) = run.all(cases) {
        mismatch.report(out);
        exit(1);
    }
    let tally = run.tally;
    tally.print();
    let (answers, digests, refusals) = (tally.answers(), tally.digests, tally.refusals());
    println!("{} comparisons, no mismatch: {answers} answers, {cases} compressions", answers + cases);
    println!("of the answers {digests} are digests and {refusals} refusals");
    println!("libb2 gave the crate's digest in the {} cases that it was asked for too", tally.second);
}
