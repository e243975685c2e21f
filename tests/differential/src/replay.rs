//! The program that is compared: a script goes to its standard input, and its answers are what it writes.

use std::fs::{self, File};
use std::io::{BufWriter, Write};
use std::process::{self, Child, ChildStdin, Command, Stdio};

/// How the program is run.
pub struct Program {
    // The program, and an emulator in front of it where one is needed.
    words: Vec<String>,
    answers: String,
}

impl Program {
    // Answers go to a file of the folder: a pipe would wake this process at each of them.
    pub fn new(words: &[String], folder: &str) -> Self {
        fs::create_dir_all(folder).expect("the folder can't be made");
        let answers = format!("{folder}/answers.{}", process::id());
        Program { words: words.to_vec(), answers }
    }

    pub fn start(&self) -> Replay<'_> {
        let answers = File::create(&self.answers).expect("the file of answers can't be made");
        let mut child = Command::new(&self.words[0])
            .args(&self.words[1..])
            .stdin(Stdio::piped())
            .stdout(answers)
            .spawn()
            .expect("replay_main can't be run");
        let input = BufWriter::with_capacity(1 << 16, child.stdin.take().unwrap());
        Replay { program: self, child, input }
    }

    pub fn answers(&self, lines: &[String]) -> Vec<String> {
        let mut replay = self.start();
        lines.iter().for_each(|line| replay.send(line));
        replay.finish()
    }
}

pub struct Replay<'a> {
    program: &'a Program,
    child: Child,
    input: BufWriter<ChildStdin>,
}

impl Replay<'_> {
    // Where the program has ended early, its missing answers are what shows it.
    pub fn send(&mut self, line: &str) {
        let _ = writeln!(self.input, "{line}");
    }

    pub fn finish(mut self) -> Vec<String> {
        let _ = self.input.flush();
        drop(self.input);
        self.child.wait().expect("replay_main can't be waited for");
        let text = fs::read(&self.program.answers).expect("the answers can't be read");
        fs::remove_file(&self.program.answers).expect("the file of answers can't be removed");
        String::from_utf8_lossy(&text).lines().map(String::from).collect()
    }
}
