//! The calls on a digest, by the crate's own comparison and hexadecimal. A zero digest, which the crate has not, is refused with 14.

use crate::answer;
use crate::message::to_hex;
use crate::rules;
use crate::setting;
use blake2b_simd::Hash;

/// A digest of the crate; or of words and a length, of which the crate makes none: its calls go by document 01's rules.
#[derive(Clone, Copy)]
pub enum Made {
    ByTheCrate(Hash),
    OfWords { bytes: [u8; 64], length: usize },
}

impl Made {
    pub fn as_bytes(&self) -> &[u8] {
        match self {
            Made::ByTheCrate(hash) => hash.as_bytes(),
            Made::OfWords { bytes, length } => &bytes[..*length],
        }
    }

    fn equals_bytes(&self, other: &[u8]) -> bool {
        match self {
            Made::ByTheCrate(hash) => hash == other,
            Made::OfWords { .. } => self.as_bytes() == other,
        }
    }

    fn equals(&self, other: &Made) -> bool {
        match (self, other) {
            (Made::ByTheCrate(hash), Made::ByTheCrate(other)) => hash == other,
            _ => self.equals_bytes(other.as_bytes()),
        }
    }

    // What is written of it.
    fn text(&self, in_hex: bool) -> Vec<u8> {
        match self {
            Made::ByTheCrate(hash) if in_hex => hash.to_hex().as_bytes().to_vec(),
            Made::OfWords { .. } if in_hex => to_hex(self.as_bytes()).into_bytes(),
            _ => self.as_bytes().to_vec(),
        }
    }
}

pub type Digest = Option<Made>;

// The first bytes of eight words, low bytes first; or the refusal of a length.
pub fn of_words(bytes: [u8; 64], length: u64) -> (u8, Digest) {
    match setting::hash_length_fault(length) {
        rules::ACCEPTED => (rules::ACCEPTED, Some(Made::OfWords { bytes, length: length as usize })),
        number => (number, None),
    }
}

// A digest as the call that made it answers, with the call's number.
pub fn shown(number: u8, digest: &Digest) -> String {
    match digest {
        Some(made) => answer::bytes(number, made.as_bytes().len(), made.as_bytes()),
        None => answer::no_digest(number),
    }
}

pub fn len(digest: &Digest) -> String {
    match digest {
        Some(made) => answer::length(rules::ACCEPTED, made.as_bytes().len()),
        None => answer::length(rules::RANGE, 0),
    }
}

pub fn equals(digest: &Digest, other: &Digest) -> String {
    match (digest, other) {
        (Some(made), Some(other)) => answer::equal(rules::ACCEPTED, made.equals(other)),
        _ => answer::equal(rules::RANGE, false),
    }
}

pub fn equals_bytes(digest: &Digest, bytes: &[u8]) -> String {
    match digest {
        Some(made) => answer::equal(rules::ACCEPTED, made.equals_bytes(bytes)),
        None => answer::equal(rules::RANGE, false),
    }
}

pub fn write(digest: &Digest, in_hex: bool, room: usize) -> String {
    match digest {
        Some(made) => answer::written(room, &made.text(in_hex)),
        None => answer::bytes(rules::RANGE, 0, &vec![0xA5; room]),
    }
}

// The part that was written, and no more.
pub fn written(digest: &Digest, in_hex: bool, room: usize) -> String {
    match digest {
        Some(made) => {
            let text = made.text(in_hex);
            if room < text.len() {
                return answer::no_digest(rules::OUTPUT);
            }
            answer::bytes(rules::ACCEPTED, text.len(), &text)
        }
        None => answer::no_digest(rules::RANGE),
    }
}
