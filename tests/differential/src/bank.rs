//! A bank by document 01's rules: a table of the open slots, whose states are the crate's, fed by its own update_many.

use crate::answer;
use crate::rules;
use crate::setting::Setting;
use crate::stream::{Second, Stream};
use blake2b_simd::many::update_many;

#[derive(Clone, Copy)]
pub struct Piece {
    pub slot: u64,
    pub start: u64,
    pub length: u64,
}

pub struct Bank {
    slots: Vec<Option<Stream>>,
}

impl Bank {
    pub fn new() -> Self {
        Bank { slots: vec![None; rules::MOST] }
    }

    pub fn open_slots(&self) -> Vec<u64> {
        (0..rules::MOST as u64).filter(|slot| self.fault(*slot) == rules::ACCEPTED).collect()
    }

    fn slot_fault(slot: u64) -> u8 {
        rules::refused_if(slot >= rules::MOST as u64, rules::NO_SUCH_SLOT)
    }

    fn fault(&self, slot: u64) -> u8 {
        match Self::slot_fault(slot) {
            rules::ACCEPTED => rules::refused_if(self.slots[slot as usize].is_none(), rules::CLOSED),
            number => number,
        }
    }

    // What a call on an open slot is answered; or the refusal, as the call answers it.
    fn at(
        &mut self,
        slot: u64,
        call: impl FnOnce(&mut Stream) -> String,
        refused: impl FnOnce(u8) -> String,
    ) -> String {
        match self.fault(slot) {
            rules::ACCEPTED => call(self.slots[slot as usize].as_mut().expect("an open slot")),
            number => refused(number),
        }
    }

    pub fn open(&mut self, slot: u64, setting: &Setting) -> String {
        let number = match self.fault(slot) {
            rules::ACCEPTED => rules::OPEN_ALREADY,
            rules::CLOSED => {
                self.slots[slot as usize] = Some(Stream::open(setting));
                rules::ACCEPTED
            }
            number => number,
        };
        answer::number(number)
    }

    pub fn close(&mut self, slot: u64) -> String {
        let number = self.fault(slot);
        if number == rules::ACCEPTED {
            self.slots[slot as usize] = None;
        }
        answer::number(number)
    }

    pub fn update(&mut self, slot: u64, input: &[u8]) -> String {
        let take = |stream: &mut Stream| {
            stream.update(input);
            answer::number(rules::ACCEPTED)
        };
        self.at(slot, take, answer::number)
    }

    pub fn count(&mut self, slot: u64) -> String {
        let count = |stream: &mut Stream| answer::count(rules::ACCEPTED, stream.state.count());
        self.at(slot, count, |number| answer::count(number, 0))
    }

    pub fn digest(&mut self, slot: u64, second: &mut Second) -> String {
        self.at(slot, |stream| answer::digest(&stream.digest(second)), answer::no_digest)
    }

    pub fn digest_to(&mut self, slot: u64, room: usize, second: &mut Second) -> String {
        let write = |stream: &mut Stream| answer::written(room, stream.digest(second).as_bytes());
        self.at(slot, write, |number| answer::bytes(number, 0, &vec![0xA5; room]))
    }

    // The crate takes a state once in a call: a record of a slot that is in the call already starts another.
    fn take(&mut self, batch: &[Piece], data: &[u8]) {
        let mut rest = batch;
        while !rest.is_empty() {
            let is_again = |at: &usize| rest[..*at].iter().any(|earlier| earlier.slot == rest[*at].slot);
            let count = (0..rest.len()).find(is_again).unwrap_or(rest.len());
            let (now, later) = rest.split_at(count);
            let inputs: Vec<&[u8]> =
                now.iter().map(|piece| &data[piece.start as usize..][..piece.length as usize]).collect();
            let mut streams: Vec<Stream> =
                now.iter().map(|piece| self.slots[piece.slot as usize].take().expect("an open slot")).collect();
            update_many(streams.iter_mut().map(|stream| &mut stream.state).zip(&inputs));
            for ((piece, mut stream), input) in now.iter().zip(streams).zip(inputs) {
                stream.note(input);
                self.slots[piece.slot as usize] = Some(stream);
            }
            rest = later;
        }
    }

    pub fn update_many(&mut self, pieces: &[Piece], used: u64, data: &[u8]) -> String {
        if used > pieces.len() as u64 {
            return answer::batch(rules::TOO_MANY, 0);
        }
        let batch = &pieces[..used as usize];
        for (index, piece) in batch.iter().enumerate() {
            let number = match self.fault(piece.slot) {
                rules::ACCEPTED => rules::piece_fault(piece.start, piece.length, data.len()),
                number => number,
            };
            if number != rules::ACCEPTED {
                return answer::batch(number, index);
            }
        }
        self.take(batch, data);
        answer::batch(rules::ACCEPTED, 0)
    }
}
