//! What is walked through and not drawn: every cut in two of a message of every border's length, keyed and not, and every
//! digest length with every key length, by BLAKE2b and by BLAKE2bp.

use crate::cases::BORDERS;
use crate::script::Script;

// How the lines of the two start.
const FAMILIES: [&str; 2] = ["", "bp "];

pub enum Part {
    Cuts { family: &'static str, key: &'static str, length: usize },
    Lengths { family: &'static str, hash_length: usize },
}

pub fn parts() -> Vec<Part> {
    let mut parts = Vec::new();
    for family in FAMILIES {
        for key in ["x:", "x:6b", "c:64:0"] {
            parts.extend(BORDERS.map(|length| Part::Cuts { family, key, length }));
        }
        parts.extend((1..=64).map(|hash_length| Part::Lengths { family, hash_length }));
    }
    parts
}

fn cuts(script: &mut Script, family: &str, key: &str, length: usize) {
    let message = format!("g:{length}:{}", script.dice.below(1 << 31));
    script.say(format!("{family}params key {key}"));
    script.say(format!("{family}hash {message}"));
    for cut in 0..=length {
        script.say(format!("{family}state open"));
        script.say(format!("{family}state update {message}[0:{cut}]"));
        script.say(format!("{family}state update {message}[{cut}:{length}]"));
        script.say(format!("{family}state count"));
        script.say(format!("{family}state finalize"));
        if family == "bp " {
            script.say("bp state buffered");
            script.say("bp state leaf_count");
        }
    }
}

fn lengths(script: &mut Script, family: &str, hash_length: usize) {
    script.say(format!("{family}params hash_length {hash_length}"));
    for key_length in 0..=64 {
        let (key_seed, seed) = (script.dice.below(1 << 31), script.dice.below(1 << 31));
        let length = script.dice.one_of(&BORDERS);
        script.say(format!("{family}params key g:{key_length}:{key_seed}"));
        script.say(format!("{family}hash g:{length}:{seed}"));
        script.say(format!("{family}state open"));
        script.say(format!("{family}state update g:{length}:{seed}"));
        script.say(format!("{family}state finalize"));
    }
}

impl Part {
    pub fn walk(&self, script: &mut Script) {
        match self {
            Part::Cuts { family, key, length } => cuts(script, family, key, *length),
            Part::Lengths { family, hash_length } => lengths(script, family, *hash_length),
        }
    }
}
