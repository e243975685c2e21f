//! Document 01's refusals that a run can reach, by number. 6 is not among them: no run has so many bytes.

pub const ACCEPTED: u8 = 0;
pub const HASH_LENGTH: u8 = 1;
pub const KEY: u8 = 2;
pub const SALT: u8 = 3;
pub const PERSONAL: u8 = 4;
pub const INNER_LENGTH: u8 = 5;
pub const NO_SUCH_SLOT: u8 = 7;
pub const CLOSED: u8 = 8;
pub const PIECE: u8 = 9;
pub const TOO_MANY: u8 = 10;
pub const OUTPUT: u8 = 11;
pub const UNFINISHED: u8 = 12;
pub const OPEN_ALREADY: u8 = 13;
pub const RANGE: u8 = 14;

// The slots of a bank, the records of a batch, and the jobs of one.
pub const MOST: usize = 16;

// The number, where something is wrong.
pub fn refused_if(is_wrong: bool, number: u8) -> u8 {
    if is_wrong {
        number
    } else {
        ACCEPTED
    }
}

pub fn piece_fault(start: u64, length: u64, data_length: usize) -> u8 {
    let data_length = data_length as u64;
    refused_if(start >= data_length || length > data_length - start, PIECE)
}
