//! BLAKE2bp: the crate's own state, and beside it document 01's rules for what waits in the buffer, which the crate keeps private.

use crate::answer;
use crate::rules;
use crate::setting;
use crate::stream::Second;
use blake2b_simd::blake2bp::{Params, State};
use blake2b_simd::{benchmarks, Hash};

const LEAVES: usize = 4;
// One block for each leaf.
const ROW: usize = LEAVES * 128;
const BUFFER: usize = 2 * ROW;
// With more than so many bytes to come, each leaf gets one.
const NEED: usize = 384;

#[derive(Clone)]
pub struct TreeSetting {
    pub hash_length: usize,
    pub key: Vec<u8>,
}

impl TreeSetting {
    pub fn new() -> Self {
        TreeSetting { hash_length: 64, key: Vec::new() }
    }

    pub fn set_hash_length(&mut self, length: u64) -> u8 {
        let number = setting::hash_length_fault(length);
        if number == rules::ACCEPTED {
            self.hash_length = length as usize;
        }
        number
    }

    pub fn set_key(&mut self, key: Vec<u8>) -> u8 {
        let number = setting::key_fault(&key);
        if number == rules::ACCEPTED {
            self.key = key;
        }
        number
    }

    pub fn in_range(&self) -> bool {
        let faults = [setting::hash_length_fault(self.hash_length as u64), setting::key_fault(&self.key)];
        faults == [rules::ACCEPTED; 2]
    }

    fn params(&self) -> Params {
        let mut params = Params::new();
        benchmarks::force_portable_blake2bp(&mut params);
        params.hash_length(self.hash_length).key(&self.key);
        params
    }

    pub fn hash(&self, message: &[u8], second: &mut Second) -> Hash {
        let hash = self.params().hash(message);
        second.blake2bp(&hash, self.hash_length, &self.key, message);
        hash
    }
}

pub struct Tree {
    state: State,
    setting: TreeSetting,
    bytes: Vec<u8>,
    // The bytes that wait, and those that each leaf has compressed.
    held: usize,
    leaf_count: usize,
}

impl Tree {
    pub fn open(setting: &TreeSetting) -> Self {
        Tree {
            state: setting.params().to_state(),
            setting: setting.clone(),
            bytes: Vec::new(),
            held: if setting.key.is_empty() { 0 } else { ROW },
            leaf_count: 0,
        }
    }

    fn compress(&mut self, rows: usize) {
        self.leaf_count += rows * ROW / LEAVES;
    }

    fn take(&mut self, mut length: usize) {
        let room = BUFFER - self.held;
        if self.held > 0 && length > room {
            length -= room;
            let rows = if length > NEED { 2 } else { 1 };
            self.compress(rows);
            self.held = BUFFER - rows * ROW;
        }
        if self.held == 0 {
            let rows = length.saturating_sub(NEED + 1) / ROW;
            self.compress(rows);
            length -= rows * ROW;
        }
        self.held += length;
    }

    pub fn update(&mut self, input: &[u8]) {
        self.state.update(input);
        self.bytes.extend(input);
        self.take(input.len());
    }

    pub fn count(&self) -> u128 {
        let key_bytes = if self.setting.key.is_empty() { 0 } else { ROW };
        let counted = LEAVES * self.leaf_count + self.held - key_bytes;
        assert_eq!(self.state.count(), counted as u128, "the crate's count and document 01's rules disagree");
        self.state.count()
    }

    pub fn digest(&self, second: &mut Second) -> Hash {
        let hash = self.state.finalize();
        second.blake2bp(&hash, self.setting.hash_length, &self.setting.key, &self.bytes);
        hash
    }
}

// What a call on a state is answered: 14 on the zero state.
pub fn of_tree(
    tree: &Option<Tree>,
    call: impl FnOnce(&Tree) -> String,
    refused: impl FnOnce(u8) -> String,
) -> String {
    match tree {
        Some(tree) => call(tree),
        None => refused(rules::RANGE),
    }
}

fn counted(tree: &Option<Tree>, count: impl FnOnce(&Tree) -> u128) -> String {
    let found = |tree: &Tree| answer::count(rules::ACCEPTED, count(tree));
    of_tree(tree, found, |number| answer::count(number, 0))
}

pub fn count(tree: &Option<Tree>) -> String {
    counted(tree, Tree::count)
}

pub fn leaf_count(tree: &Option<Tree>) -> String {
    counted(tree, |tree| tree.leaf_count as u128)
}

pub fn buffered(tree: &Option<Tree>) -> String {
    let found = |tree: &Tree| answer::length(rules::ACCEPTED, tree.held);
    of_tree(tree, found, |number| answer::length(number, 0))
}
