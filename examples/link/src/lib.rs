//! BLAKE2b and BLAKE2bp of Sumpillow for Rust: the two functions of `include/sumpillow.h` that a program wants, made safe.

/// A digest's bytes.
pub type Digest = [u8; 64];

#[link(name = "exports", kind = "static")]
extern "C" {
    fn sumpillow_blake2b(input: *const u8, length: usize, out: *mut u8, room: usize) -> u8;
}

#[link(name = "exports_blake2bp", kind = "static")]
extern "C" {
    fn sumpillow_blake2bp(input: *const u8, length: usize, out: *mut u8, room: usize) -> u8;
}

/// BLAKE2b of the input, without a key.
pub fn blake2b(input: &[u8]) -> Digest {
    let mut digest = [0; 64];
    // SAFETY: each pointer is that of a slice or an array, valid for the length beside it and never null. The array is
    // new and lent to this call alone, so nothing else reads or writes it, and the input can't overlap it. The function
    // keeps neither.
    let number = unsafe { sumpillow_blake2b(input.as_ptr(), input.len(), digest.as_mut_ptr(), digest.len()) };
    assert_eq!(number, 0, "64 bytes have room for a digest");
    digest
}

/// BLAKE2bp of the input, without a key.
pub fn blake2bp(input: &[u8]) -> Digest {
    let mut digest = [0; 64];
    // SAFETY: as in blake2b.
    let number = unsafe { sumpillow_blake2bp(input.as_ptr(), input.len(), digest.as_mut_ptr(), digest.len()) };
    assert_eq!(number, 0, "64 bytes have room for a digest");
    digest
}
