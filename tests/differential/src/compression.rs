//! The exported compression of one block against libb2's, at any count, and most often at counts beside 2^64 and 2^128.

use crate::dice::Dice;
use crate::libb2;
use crate::message::to_hex;

#[link(name = "exports_compression", kind = "static")]
extern "C" {
    fn sumpillow_compress_block(
        block: &[u8; 128],
        words: &mut [u64; 8],
        count_low: u64,
        count_high: u64,
        last_block: bool,
        last_node: bool,
    );
}

fn drawn_count(dice: &mut Dice) -> u128 {
    let any = u128::from(dice.word()) << 64 | u128::from(dice.word());
    let border = dice.one_of(&[0, 1 << 32, 1 << 63, 1 << 64, 1 << 65, any << 64, 1 << 127]);
    let beside = dice.one_of(&[any % 300, 128 * (any % 4), u128::from(any as u64), any]);
    if dice.one_in(2) {
        border.wrapping_add(beside)
    } else {
        border.wrapping_sub(beside)
    }
}

// So many compressions; false after the first that differs, which it prints.
pub fn compare(seed: u64, times: u64) -> bool {
    let mut dice = Dice::new(seed);
    for _ in 0..times {
        let words = [(); 8].map(|()| dice.word());
        let block = [(); 128].map(|()| dice.word() as u8);
        let (last_block, last_node) = (dice.one_in(2), dice.one_in(2));
        let count = drawn_count(&mut dice);
        let expected = libb2::compress(&block, &words, count, last_block, last_node);
        let mut got = words;
        let (low, high) = (count as u64, (count >> 64) as u64);
        unsafe { sumpillow_compress_block(&block, &mut got, low, high, last_block, last_node) };
        if got != expected {
            println!("MISMATCH of the exported compression");
            println!("words     {words:016x?}\nblock     {}\ncount     {count:#x}", to_hex(&block));
            println!("last block {last_block}, last node {last_node}");
            println!("expected  {expected:016x?}\ngot       {got:016x?}");
            return false;
        }
    }
    true
}
