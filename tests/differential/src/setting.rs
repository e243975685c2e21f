//! BLAKE2b's parameters by value: what each setter refuses, and the crate's own record of them, forced to portable.

use crate::rules;
use blake2b_simd::{benchmarks, Params};

#[derive(Clone)]
pub struct Setting {
    pub hash_length: usize,
    pub key: Vec<u8>,
    pub salt: Vec<u8>,
    pub personal: Vec<u8>,
    pub fanout: u8,
    pub max_depth: u8,
    pub max_leaf_length: u32,
    pub node_offset: u64,
    pub node_depth: u8,
    pub inner_hash_length: usize,
    pub last_node: bool,
}

pub fn hash_length_fault(length: u64) -> u8 {
    rules::refused_if(length == 0 || length > 64, rules::HASH_LENGTH)
}

pub fn key_fault(key: &[u8]) -> u8 {
    rules::refused_if(key.len() > 64, rules::KEY)
}

fn inner_length_fault(length: u64) -> u8 {
    rules::refused_if(length > 64, rules::INNER_LENGTH)
}

impl Setting {
    pub fn new() -> Self {
        Setting {
            hash_length: 64,
            key: Vec::new(),
            salt: Vec::new(),
            personal: Vec::new(),
            fanout: 1,
            max_depth: 1,
            max_leaf_length: 0,
            node_offset: 0,
            node_depth: 0,
            inner_hash_length: 0,
            last_node: false,
        }
    }

    // A setter that takes a number. Those whose range is their type's are called with no other.
    pub fn set_number(&mut self, name: &str, n: u64) -> u8 {
        let number = match name {
            "hash_length" => hash_length_fault(n),
            "inner_hash_length" => inner_length_fault(n),
            _ => rules::ACCEPTED,
        };
        if number != rules::ACCEPTED {
            return number;
        }
        match name {
            "hash_length" => self.hash_length = n as usize,
            "inner_hash_length" => self.inner_hash_length = n as usize,
            "fanout" => self.fanout = n as u8,
            "max_depth" => self.max_depth = n as u8,
            "max_leaf_length" => self.max_leaf_length = n as u32,
            "node_offset" => self.node_offset = n,
            "node_depth" => self.node_depth = n as u8,
            "last_node" => self.last_node = n == 1,
            _ => panic!("no setter {name}"),
        }
        number
    }

    pub fn set_bytes(&mut self, name: &str, bytes: Vec<u8>) -> u8 {
        let (number, field) = match name {
            "key" => (key_fault(&bytes), &mut self.key),
            "salt" => (rules::refused_if(bytes.len() > 16, rules::SALT), &mut self.salt),
            "personal" => (rules::refused_if(bytes.len() > 16, rules::PERSONAL), &mut self.personal),
            _ => panic!("no setter {name}"),
        };
        if number == rules::ACCEPTED {
            *field = bytes;
        }
        number
    }

    // Document 01's ranges of 14.
    pub fn in_range(&self) -> bool {
        let faults = [
            hash_length_fault(self.hash_length as u64),
            key_fault(&self.key),
            inner_length_fault(self.inner_hash_length as u64),
        ];
        faults == [rules::ACCEPTED; 3]
    }

    // The key, and zeros behind it.
    pub fn key_block(&self) -> [u8; 128] {
        let mut block = [0; 128];
        block[..self.key.len()].copy_from_slice(&self.key);
        block
    }

    pub fn params(&self) -> Params {
        let mut params = Params::new();
        benchmarks::force_portable(&mut params);
        params
            .hash_length(self.hash_length)
            .key(&self.key)
            .salt(&self.salt)
            .personal(&self.personal)
            .fanout(self.fanout)
            .max_depth(self.max_depth)
            .max_leaf_length(self.max_leaf_length)
            .node_offset(self.node_offset)
            .node_depth(self.node_depth)
            .inner_hash_length(self.inner_hash_length)
            .last_node(self.last_node);
        params
    }
}
