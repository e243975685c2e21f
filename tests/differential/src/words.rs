//! The words that a hash starts from, which the crate keeps private: document 01's IV with the parameter block over it.

use crate::libb2;
use crate::setting::Setting;
use std::array;

const IV: [u64; 8] = [
    0x6A09E667F3BCC908,
    0xBB67AE8584CAA73B,
    0x3C6EF372FE94F82B,
    0xA54FF53A5F1D36F1,
    0x510E527FADE682D1,
    0x9B05688C2B3E6C1F,
    0x1F83D9ABFB41BD6B,
    0x5BE0CD19137E2179,
];

fn parameter_block(setting: &Setting) -> [u8; 64] {
    let mut block = [0; 64];
    block[0] = setting.hash_length as u8;
    block[1] = setting.key.len() as u8;
    block[2] = setting.fanout;
    block[3] = setting.max_depth;
    block[4..8].copy_from_slice(&setting.max_leaf_length.to_le_bytes());
    block[8..16].copy_from_slice(&setting.node_offset.to_le_bytes());
    block[16] = setting.node_depth;
    block[17] = setting.inner_hash_length as u8;
    block[32..][..setting.salt.len()].copy_from_slice(&setting.salt);
    block[48..][..setting.personal.len()].copy_from_slice(&setting.personal);
    block
}

// The low byte of each word first. A state of libb2 has to start from the same words.
pub fn start_bytes(setting: &Setting) -> Vec<u8> {
    let block = parameter_block(setting);
    let word_at = |place: usize| u64::from_le_bytes(block[8 * place..][..8].try_into().unwrap());
    let words = array::from_fn(|place| IV[place] ^ word_at(place));
    assert_eq!(words, libb2::start_words(setting), "libb2's first words and document 01's rules disagree");
    words.into_iter().flat_map(u64::to_le_bytes).collect()
}
