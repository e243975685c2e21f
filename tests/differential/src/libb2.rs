//! libb2, the second oracle: digests of BLAKE2b with all parameters, of BLAKE2bp, and one compression at any count.
//!
//! The two records are those of its header, blake2.h.

use crate::setting::Setting;

const BLOCK: usize = 128;

#[repr(C, packed)]
struct Param {
    digest_length: u8,
    key_length: u8,
    fanout: u8,
    depth: u8,
    leaf_length: u32,
    node_offset: u64,
    node_depth: u8,
    inner_length: u8,
    reserved: [u8; 14],
    salt: [u8; 16],
    personal: [u8; 16],
}

#[repr(C, packed)]
struct State {
    words: [u64; 8],
    count: [u64; 2],
    flags: [u64; 2],
    buffer: [u8; 2 * BLOCK],
    buffered: u32,
    digest_length: u8,
    last_node: u8,
}

extern "C" {
    fn blake2b_init_param(state: *mut State, param: *const Param) -> i32;
    fn blake2b_update(state: *mut State, input: *const u8, length: usize) -> i32;
    fn blake2b_final(state: *mut State, out: *mut u8, length: usize) -> i32;
    fn blake2bp(
        out: *mut u8,
        input: *const u8,
        key: *const u8,
        out_length: usize,
        length: usize,
        key_length: usize,
    ) -> i32;
}

const EMPTY: State = State {
    words: [0; 8],
    count: [0; 2],
    flags: [0; 2],
    buffer: [0; 2 * BLOCK],
    buffered: 0,
    digest_length: 0,
    last_node: 0,
};

fn filled<const N: usize>(bytes: &[u8]) -> [u8; N] {
    let mut all = [0; N];
    all[..bytes.len()].copy_from_slice(bytes);
    all
}

fn opened(setting: &Setting) -> State {
    let param = Param {
        digest_length: setting.hash_length as u8,
        key_length: setting.key.len() as u8,
        fanout: setting.fanout,
        depth: setting.max_depth,
        leaf_length: setting.max_leaf_length,
        node_offset: setting.node_offset,
        node_depth: setting.node_depth,
        inner_length: setting.inner_hash_length as u8,
        reserved: [0; 14],
        salt: filled(&setting.salt),
        personal: filled(&setting.personal),
    };
    let mut state = EMPTY;
    assert_eq!(unsafe { blake2b_init_param(&mut state, &param) }, 0);
    state.last_node = setting.last_node.into();
    state
}

pub fn start_words(setting: &Setting) -> [u64; 8] {
    opened(setting).words
}

// A key is a block in front of the message.
pub fn blake2b_digest(setting: &Setting, message: &[u8]) -> Vec<u8> {
    let mut state = opened(setting);
    let key_block: [u8; BLOCK] = filled(&setting.key);
    let mut digest = vec![0; setting.hash_length];
    unsafe {
        if !setting.key.is_empty() {
            assert_eq!(blake2b_update(&mut state, key_block.as_ptr(), BLOCK), 0);
        }
        assert_eq!(blake2b_update(&mut state, message.as_ptr(), message.len()), 0);
        assert_eq!(blake2b_final(&mut state, digest.as_mut_ptr(), digest.len()), 0);
    }
    digest
}

pub fn blake2bp_digest(hash_length: usize, key: &[u8], message: &[u8]) -> Vec<u8> {
    let mut digest = vec![0; hash_length];
    let (out, input, key_start) = (digest.as_mut_ptr(), message.as_ptr(), key.as_ptr());
    let done = unsafe { blake2bp(out, input, key_start, hash_length, message.len(), key.len()) };
    assert_eq!(done, 0);
    digest
}

// A state that holds two blocks compresses the first when a byte more comes, after it has counted the block.
pub fn compress(block: &[u8; BLOCK], words: &[u64; 8], count: u128, last_block: bool, last_node: bool) -> [u64; 8] {
    let before = count.wrapping_sub(BLOCK as u128);
    let flag = |is_set: bool| if is_set { u64::MAX } else { 0 };
    let mut state = State {
        words: *words,
        count: [before as u64, (before >> 64) as u64],
        flags: [flag(last_block), flag(last_node)],
        buffered: 2 * BLOCK as u32,
        ..EMPTY
    };
    state.buffer[..BLOCK].copy_from_slice(block);
    assert_eq!(unsafe { blake2b_update(&mut state, &0, 1) }, 0);
    state.words
}
