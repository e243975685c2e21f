//! How many answers were compared, by call and by number, and how many of them are digests.

use std::collections::BTreeMap;

#[derive(Default)]
pub struct Tally {
    calls: BTreeMap<String, [u64; 15]>,
    pub digests: u64,
    // Digests of the crate that libb2 was asked for too.
    pub second: u64,
}

// The words in front of the numbers and messages.
fn call_of(line: &str) -> &str {
    let is_value = |word: &str| word.contains(':') || word.starts_with(|first: char| first.is_ascii_digit());
    match line.split(' ').find(|word| is_value(word)) {
        Some(value) => line[..value.as_ptr() as usize - line.as_ptr() as usize].trim_end(),
        None => line,
    }
}

// The number of an answer.
fn number_of(answer: &str) -> usize {
    let rest = &answer["number=".len()..];
    rest.split(' ').next().unwrap().parse().expect("a number")
}

impl Tally {
    pub fn add(&mut self, line: &str, answer: &str) {
        let (call, number) = (call_of(line), number_of(answer));
        // The calls on a digest show one that was made before, and those on parameters what they hold.
        let shows_others = call.starts_with("digest ") || call.starts_with("params ");
        let is_digest = number == 0 && answer.contains(" bytes=") && !shows_others;
        self.digests += u64::from(is_digest);
        match self.calls.get_mut(call) {
            Some(numbers) => numbers[number] += 1,
            None => {
                let mut numbers = [0; 15];
                numbers[number] = 1;
                self.calls.insert(call.to_string(), numbers);
            }
        }
    }

    pub fn answers(&self) -> u64 {
        self.calls.values().flatten().sum()
    }

    pub fn refusals(&self) -> u64 {
        self.calls.values().flat_map(|numbers| &numbers[1..]).sum()
    }

    pub fn print(&self) {
        println!("{:<30}{:>12}  refused, number: times", "call", "accepted");
        for (call, numbers) in &self.calls {
            let refused: Vec<String> = (1..15)
                .filter(|number| numbers[*number] > 0)
                .map(|number| format!("{number}: {}", numbers[number]))
                .collect();
            println!("{call:<30}{:>12}  {}", numbers[0], refused.join(", "));
        }
    }
}
