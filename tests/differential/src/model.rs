//! What a script must be answered: an interpreter of docs/REPLAY.md's lines over the crate and document 01's rules.
//!
//! It is written from document 01, and knows nothing of this library. A new call of replay is an arm of `answer`.

use crate::answer;
use crate::bank::{Bank, Piece};
use crate::digests::{self, Digest, Made};
use crate::jobs::{self, Jobs};
use crate::message::bytes_of;
use crate::parallel::{self, of_tree, Tree, TreeSetting};
use crate::rules;
use crate::setting::{self, Setting};
use crate::stream::{Second, Stream};
use crate::words;
use blake2b_simd::Hash;

pub struct Model {
    setting: Setting,
    // None is the zero record of a refusal, as for digests.
    state: Option<Stream>,
    pub last: Digest,
    kept: Digest,
    jobs: Jobs,
    pub bank: Bank,
    pub pieces: [Piece; rules::MOST],
    tree_setting: TreeSetting,
    tree: Option<Tree>,
    pub second: Second,
}

fn number(text: &str) -> u64 {
    text.parse().expect("a number")
}

fn sixty_four(text: &str) -> [u8; 64] {
    bytes_of(text).try_into().expect("64 bytes")
}

impl Model {
    pub fn new() -> Self {
        Model {
            setting: Setting::new(),
            state: Some(Stream::open(&Setting::new())),
            last: None,
            kept: None,
            jobs: Jobs::new(),
            bank: Bank::new(),
            pieces: [Piece { slot: 0, start: 0, length: 0 }; rules::MOST],
            tree_setting: TreeSetting::new(),
            tree: Some(Tree::open(&TreeSetting::new())),
            second: Second::new(),
        }
    }

    fn accepted() -> String {
        answer::number(rules::ACCEPTED)
    }

    // It becomes the last digest, also the zeros of a refusal.
    fn made(&mut self, number: u8, digest: Digest) -> String {
        self.last = digest;
        digests::shown(number, &self.last)
    }

    fn made_by_the_crate(&mut self, hash: Hash) -> String {
        self.made(rules::ACCEPTED, Some(Made::ByTheCrate(hash)))
    }

    fn made_of_words(&mut self, bytes: [u8; 64], length: u64) -> String {
        let (number, digest) = digests::of_words(bytes, length);
        self.made(number, digest)
    }

    fn hash(&mut self, setting: &Setting, message: &[u8]) -> String {
        let hash = setting.params().hash(message);
        self.second.blake2b(&hash, setting, message);
        self.made_by_the_crate(hash)
    }

    fn with_state(&mut self, state: Option<Stream>) -> String {
        self.state = state;
        Self::accepted()
    }

    fn change_state(&mut self, change: impl FnOnce(&mut Stream)) -> String {
        match &mut self.state {
            Some(stream) => {
                change(stream);
                Self::accepted()
            }
            None => answer::number(rules::RANGE),
        }
    }

    fn finalize(&mut self) -> String {
        match &self.state {
            Some(stream) => {
                let hash = stream.digest(&mut self.second);
                self.made_by_the_crate(hash)
            }
            None => self.made(rules::RANGE, None),
        }
    }

    fn count(&self) -> String {
        match &self.state {
            Some(stream) => answer::count(rules::ACCEPTED, stream.state.count()),
            None => answer::count(rules::RANGE, 0),
        }
    }

    fn with_tree(&mut self, tree: Option<Tree>) -> String {
        self.tree = tree;
        Self::accepted()
    }

    fn update_tree(&mut self, input: &[u8]) -> String {
        match &mut self.tree {
            Some(tree) => {
                tree.update(input);
                Self::accepted()
            }
            None => answer::number(rules::RANGE),
        }
    }

    fn set_piece(&mut self, place: usize, piece: Piece) -> String {
        self.pieces[place] = piece;
        Self::accepted()
    }

    pub fn answer(&mut self, line: &str) -> String {
        let words: Vec<&str> = line.split(' ').collect();
        match words.as_slice() {
            ["params", "new"] => {
                self.setting = Setting::new();
                Self::accepted()
            }
            ["params", name @ ("key" | "salt" | "personal"), m] => {
                answer::number(self.setting.set_bytes(name, bytes_of(m)))
            }
            ["params", name, n] => answer::number(self.setting.set_number(name, number(n))),
            ["params", "in_range"] => answer::yes(self.setting.in_range()),
            ["params", "is_keyed"] => answer::yes(!self.setting.key.is_empty()),
            ["params", "is_last_node"] => answer::yes(self.setting.last_node),
            ["params", "digest_length"] => answer::length(rules::ACCEPTED, self.setting.hash_length),
            ["params", "key_block"] => answer::bytes(rules::ACCEPTED, 128, &self.setting.key_block()),
            ["params", "to_words"] => answer::bytes(rules::ACCEPTED, 64, &words::start_bytes(&self.setting)),
            ["hash", m] => self.hash(&self.setting.clone(), &bytes_of(m)),
            ["blake2b", m] => self.hash(&Setting::new(), &bytes_of(m)),

            ["state", "new"] => self.with_state(Some(Stream::open(&Setting::new()))),
            ["state", "zero"] => self.with_state(None),
            ["state", "open"] => self.with_state(Some(Stream::open(&self.setting))),
            ["state", "update", m] => self.change_state(|stream| stream.update(&bytes_of(m))),
            ["state", "set_last_node", n] => self.change_state(|stream| stream.set_last_node(*n == "1")),
            ["state", "finalize"] => self.finalize(),
            ["state", "count"] => self.count(),
            ["state", "in_range"] => answer::yes(self.state.is_some()),

            ["digest", "zero"] => self.made(rules::ACCEPTED, None),
            ["digest", "from_bytes", m] => self.made_by_the_crate(Hash::from(sixty_four(m))),
            ["digest", "from_words", n, m] => self.made_of_words(sixty_four(m), number(n)),
            ["digest", "in_range"] => answer::yes(self.last.is_some()),
            ["digest", "is_digest_length", n] => {
                answer::yes(setting::hash_length_fault(number(n)) == rules::ACCEPTED)
            }
            ["digest", "keep"] => {
                self.kept = self.last;
                Self::accepted()
            }
            ["digest", "len"] => digests::len(&self.last),
            ["digest", "equals"] => digests::equals(&self.last, &self.kept),
            ["digest", "equals_bytes", m] => digests::equals_bytes(&self.last, &bytes_of(m)),
            ["digest", "write_bytes", n] => digests::write(&self.last, false, number(n) as usize),
            ["digest", "write_hex", n] => digests::write(&self.last, true, number(n) as usize),
            ["digest", "written_bytes", n] => digests::written(&self.last, false, number(n) as usize),
            ["digest", "written_hex", n] => digests::written(&self.last, true, number(n) as usize),

            ["job", "new", place, start, length, m] => {
                let place = number(place) as usize;
                self.jobs.make(place, &self.setting, number(start), number(length), &bytes_of(m))
            }
            ["job", "run", used, m] => self.jobs.run(number(used), &bytes_of(m), &mut self.second),
            ["job", "held", m] => jobs::held(&self.setting, &bytes_of(m), &mut self.second),
            ["job", "hash", place] => self.jobs.hash(number(place) as usize),

            ["bank", "new"] => {
                self.bank = Bank::new();
                Self::accepted()
            }
            ["bank", "open", slot] => self.bank.open(number(slot), &self.setting),
            ["bank", "close", slot] => self.bank.close(number(slot)),
            ["bank", "count", slot] => self.bank.count(number(slot)),
            ["bank", "update", slot, m] => self.bank.update(number(slot), &bytes_of(m)),
            ["bank", "digest", slot] => self.bank.digest(number(slot), &mut self.second),
            ["bank", "digest_to", slot, room] => {
                self.bank.digest_to(number(slot), number(room) as usize, &mut self.second)
            }
            ["bank", "piece", place, slot, start, length] => {
                let [slot, start, length] = [slot, start, length].map(|text| number(text));
                self.set_piece(number(place) as usize, Piece { slot, start, length })
            }
            ["bank", "update_many" | "update_lent", used, m] => self.bank.update_many(&self.pieces, number(used), &bytes_of(m)),

            ["bp", "params", "new"] => {
                self.tree_setting = TreeSetting::new();
                Self::accepted()
            }
            ["bp", "params", "hash_length", n] => answer::number(self.tree_setting.set_hash_length(number(n))),
            ["bp", "params", "key", m] => answer::number(self.tree_setting.set_key(bytes_of(m))),
            ["bp", "params", "in_range"] => answer::yes(self.tree_setting.in_range()),
            ["bp", "hash", m] => answer::digest(&self.tree_setting.hash(&bytes_of(m), &mut self.second)),
            ["bp", "blake2bp", m] => answer::digest(&TreeSetting::new().hash(&bytes_of(m), &mut self.second)),
            ["bp", "state", "new"] => self.with_tree(Some(Tree::open(&TreeSetting::new()))),
            ["bp", "state", "zero"] => self.with_tree(None),
            ["bp", "state", "open"] => self.with_tree(Some(Tree::open(&self.tree_setting))),
            ["bp", "state", "update", m] => self.update_tree(&bytes_of(m)),
            ["bp", "state", "finalize"] => {
                of_tree(&self.tree, |tree| answer::digest(&tree.digest(&mut self.second)), answer::no_digest)
            }
            ["bp", "state", "in_range"] => answer::yes(self.tree.is_some()),
            ["bp", "state", "count"] => parallel::count(&self.tree),
            ["bp", "state", "leaf_count"] => parallel::leaf_count(&self.tree),
            ["bp", "state", "buffered"] => parallel::buffered(&self.tree),
            _ => panic!("the model has no call {line}"),
        }
    }
}
