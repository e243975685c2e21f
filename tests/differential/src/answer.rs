//! The lines that answer a call, as docs/REPLAY.md has them.

use crate::message::to_hex;
use crate::rules;
use blake2b_simd::Hash;

pub fn number(number: u8) -> String {
    format!("number={number}")
}

pub fn count(number: u8, count: u128) -> String {
    format!("number={number} count={count}")
}

pub fn length(number: u8, length: usize) -> String {
    format!("number={number} length={length}")
}

pub fn equal(number: u8, is_equal: bool) -> String {
    format!("number={number} equal={}", u8::from(is_equal))
}

// Yes or no, of a question that can't be refused.
pub fn yes(is_so: bool) -> String {
    equal(rules::ACCEPTED, is_so)
}

// A batch's index is 0 where it is accepted.
pub fn batch(number: u8, index: usize) -> String {
    format!("number={number} index={index}")
}

pub fn bytes(number: u8, length: usize, bytes: &[u8]) -> String {
    format!("number={number} length={length} bytes={}", to_hex(bytes))
}

pub fn digest(hash: &Hash) -> String {
    bytes(rules::ACCEPTED, hash.as_bytes().len(), hash.as_bytes())
}

pub fn no_digest(number: u8) -> String {
    bytes(number, 0, &[])
}

// An output of so many bytes, each a5 beforehand, that bytes are written to; or that they have no room in.
pub fn written(room: usize, text: &[u8]) -> String {
    let mut output = vec![0xA5; room];
    if room < text.len() {
        return bytes(rules::OUTPUT, 0, &output);
    }
    output[..text.len()].copy_from_slice(text);
    bytes(rules::ACCEPTED, text.len(), &output)
}
