//! A message as a script writes it (docs/REPLAY.md): its text, and the bytes that the text stands for.

fn from_hex(digits: &str) -> Vec<u8> {
    let digit = |place: usize| digits[place..][..1].chars().next().unwrap().to_digit(16).expect("a digit") as u8;
    (0..digits.len() / 2).map(|i| 16 * digit(2 * i) + digit(2 * i + 1)).collect()
}

pub fn to_hex(bytes: &[u8]) -> String {
    let digit = |value: u8| char::from_digit(value.into(), 16).unwrap();
    bytes.iter().flat_map(|byte| [digit(byte / 16), digit(byte % 16)]).collect()
}

fn generated(length: usize, seed: u64) -> Vec<u8> {
    let mut x = seed;
    let mut next = || {
        x = (1103515245 * x + 12345) % (1 << 31);
        (x >> 16) as u8
    };
    (0..length).map(|_| next()).collect()
}

fn numbers(text: &str) -> (usize, usize) {
    let (first, second) = text.split_once(':').expect("two numbers");
    (first.parse().expect("a number"), second.parse().expect("a number"))
}

fn whole(text: &str) -> Vec<u8> {
    let (kind, rest) = text.split_once(':').expect("a kind of message");
    match kind {
        "x" => from_hex(rest),
        "c" => {
            let (length, start) = numbers(rest);
            (start..start + length).map(|value| value as u8).collect()
        }
        _ => {
            let (length, seed) = numbers(rest);
            generated(length, seed as u64)
        }
    }
}

pub fn bytes_of(text: &str) -> Vec<u8> {
    match text.split_once('[') {
        None => whole(text),
        Some((text, part)) => {
            let (from, to) = numbers(part.trim_end_matches(']'));
            whole(text)[from..to].to_vec()
        }
    }
}
