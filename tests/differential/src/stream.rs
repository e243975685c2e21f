//! A BLAKE2b state: the crate's own, and beside it what it was opened with and the bytes that it took, for libb2.

use crate::libb2;
use crate::setting::Setting;
use blake2b_simd::{Hash, State};

#[derive(Clone)]
pub struct Stream {
    pub state: State,
    setting: Setting,
    bytes: Vec<u8>,
}

impl Stream {
    pub fn open(setting: &Setting) -> Self {
        Stream { state: setting.params().to_state(), setting: setting.clone(), bytes: Vec::new() }
    }

    // What the state itself takes, by whichever call.
    pub fn note(&mut self, input: &[u8]) {
        self.bytes.extend(input);
    }

    pub fn update(&mut self, input: &[u8]) {
        self.state.update(input);
        self.note(input);
    }

    pub fn set_last_node(&mut self, last_node: bool) {
        self.state.set_last_node(last_node);
        self.setting.last_node = last_node;
    }

    pub fn digest(&self, second: &mut Second) -> Hash {
        let hash = self.state.finalize();
        second.blake2b(&hash, &self.setting, &self.bytes);
        hash
    }
}

// How many of the crate's digests libb2 is asked for too: one in so many.
const ONE_IN: u64 = 8;

/// Asks libb2 for a sample of the crate's digests. Where the two disagree, neither can say what is right.
pub struct Second {
    seen: u64,
    pub compared: u64,
}

impl Second {
    pub fn new() -> Self {
        Second { seen: 0, compared: 0 }
    }

    fn is_due(&mut self) -> bool {
        self.seen += 1;
        self.seen % ONE_IN == 0
    }

    fn compare(&mut self, hash: &Hash, other: &[u8]) {
        assert_eq!(hash.as_bytes(), other, "the crate and libb2 disagree");
        self.compared += 1;
    }

    pub fn blake2b(&mut self, hash: &Hash, setting: &Setting, message: &[u8]) {
        if self.is_due() {
            self.compare(hash, &libb2::blake2b_digest(setting, message));
        }
    }

    pub fn blake2bp(&mut self, hash: &Hash, hash_length: usize, key: &[u8], message: &[u8]) {
        if self.is_due() {
            self.compare(hash, &libb2::blake2bp_digest(hash_length, key, message));
        }
    }
}
