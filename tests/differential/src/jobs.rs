//! Hash jobs by document 01's rules: a job is a range until a batch runs it over its data, by the crate's own hash_many.

use crate::answer;
use crate::rules;
use crate::setting::Setting;
use crate::stream::Second;
use blake2b_simd::many::{hash_many, HashManyJob};
use blake2b_simd::Hash;

#[derive(Clone)]
enum Job {
    Zero,
    Waiting { setting: Setting, start: u64, length: u64 },
    Finished(Hash),
}

// A job that keeps its input, made, run and asked.
pub fn held(setting: &Setting, input: &[u8], second: &mut Second) -> String {
    let mut job = HashManyJob::new(&setting.params(), input);
    hash_many([&mut job]);
    let hash = job.to_hash();
    second.blake2b(&hash, setting, input);
    answer::digest(&hash)
}

pub struct Jobs {
    places: Vec<Job>,
}

impl Jobs {
    pub fn new() -> Self {
        Jobs { places: vec![Job::Zero; rules::MOST] }
    }

    // With a key and no input the crate finishes a job when it makes it.
    pub fn make(&mut self, place: usize, setting: &Setting, start: u64, length: u64, data: &[u8]) -> String {
        let number = rules::piece_fault(start, length, data.len());
        self.places[place] = if number != rules::ACCEPTED {
            Job::Zero
        } else if length == 0 && !setting.key.is_empty() {
            Job::Finished(HashManyJob::new(&setting.params(), &[]).to_hash())
        } else {
            Job::Waiting { setting: setting.clone(), start, length }
        };
        answer::number(number)
    }

    fn job_fault(job: &Job, data_length: usize) -> u8 {
        match job {
            Job::Zero => rules::RANGE,
            Job::Waiting { start, length, .. } => rules::piece_fault(*start, *length, data_length),
            Job::Finished(_) => rules::ACCEPTED,
        }
    }

    pub fn run(&mut self, used: u64, data: &[u8], second: &mut Second) -> String {
        if used > rules::MOST as u64 {
            return answer::batch(rules::TOO_MANY, 0);
        }
        let batch = &mut self.places[..used as usize];
        for (index, job) in batch.iter().enumerate() {
            let number = Self::job_fault(job, data.len());
            if number != rules::ACCEPTED {
                return answer::batch(number, index);
            }
        }
        let mut places = Vec::new();
        let mut jobs = Vec::new();
        for (place, job) in batch.iter().enumerate() {
            if let Job::Waiting { setting, start, length } = job {
                let input = &data[*start as usize..][..*length as usize];
                places.push((place, setting.clone(), input));
                jobs.push(HashManyJob::new(&setting.params(), input));
            }
        }
        hash_many(jobs.iter_mut());
        for ((place, setting, input), job) in places.into_iter().zip(jobs) {
            let hash = job.to_hash();
            second.blake2b(&hash, &setting, input);
            batch[place] = Job::Finished(hash);
        }
        answer::batch(rules::ACCEPTED, 0)
    }

    pub fn hash(&self, place: usize) -> String {
        match &self.places[place] {
            Job::Zero => answer::no_digest(rules::RANGE),
            Job::Waiting { .. } => answer::no_digest(rules::UNFINISHED),
            Job::Finished(hash) => answer::digest(hash),
        }
    }
}
