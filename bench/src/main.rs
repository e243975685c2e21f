//! Times this library's block loop, its BLAKE2b and its BLAKE2bp against the portable code of the Rust crate, and its
//! bank and its hash jobs against its states and one-shot hashes, in one process.
//!
//! The sides and the sizes take turns, so that a slow spell of the machine meets all of them, and the
//! fastest of many rounds counts, since whatever disturbs a round only makes it slower. The crate also runs
//! against itself, which shows the noise of the clock and the machine. It does not show
//! what depends on where the linker puts each side's code: that changes with the build, not with the run.

use blake2b_simd::{benchmarks, blake2bp, Params};
use std::time::Instant;

#[link(name = "exports", kind = "static")]
extern "C" {
    fn sumpillow_compress1_loop(
        input: *const u8,
        length: usize,
        words: &mut [u64; 8],
        count: u64,
        last_node: bool,
        finalize: bool,
        parallel: bool,
    );
    fn sumpillow_write_words(words: &[u64; 8], out: &mut [u8; 64]);
    fn sumpillow_blake2b(input: *const u8, length: usize, out: *mut u8, room: usize) -> u8;
    fn sumpillow_state(input: *const u8, length: usize, out: *mut u8, room: usize) -> u8;
}

#[link(name = "exports_blake2bp", kind = "static")]
extern "C" {
    fn sumpillow_blake2bp(input: *const u8, length: usize, out: *mut u8, room: usize) -> u8;
}

#[link(name = "exports_bank", kind = "static")]
extern "C" {
    fn sumpillow_state_updates(input: *const u8, length: usize, times: usize, out: *mut u8, room: usize) -> u8;
    fn sumpillow_bank_updates(
        input: *const u8,
        length: usize,
        times: usize,
        slot: usize,
        out: *mut u8,
        room: usize,
    ) -> u8;
    fn sumpillow_bank_batches(
        input: *const u8,
        length: usize,
        records: usize,
        times: usize,
        slot: usize,
        out: *mut u8,
        room: usize,
    ) -> u8;
    fn sumpillow_jobs(input: *const u8, length: usize, out: *mut u8, room: usize);
}

// The words before the first block of an unkeyed hash of 64 bytes.
const INITIAL: [u64; 8] = [
    0x6A09E667F2BDC948,
    0xBB67AE8584CAA73B,
    0x3C6EF372FE94F82B,
    0xA54FF53A5F1D36F1,
    0x510E527FADE682D1,
    0x9B05688C2B3E6C1F,
    0x1F83D9ABFB41BD6B,
    0x5BE0CD19137E2179,
];

const SIZES: [usize; 4] = [64, 128, 4 << 10, 1 << 20];
// Four of ours, then the crate's BLAKE2b, twice, and its BLAKE2bp.
const SIDES: usize = 7;
const LOOP: usize = 0;
const CRATE: usize = 4;
const CRATE_BP: usize = 6;
const BATCHES: usize = 5;
// The records of a bank's batch, and the jobs of one.
const RECORDS: usize = 16;
const PIECE: usize = 4 << 10;
const SMALL: usize = 64;
// A bank and a state go by value: a timed call makes its own, and hands it so many batches or updates that this
// does not show, and no more, so that a busy machine leaves some calls undisturbed.
const REPEATS: usize = 16;
const UPDATES: usize = 4096;
// The size of a bank, and how often an update of one slot copies it (docs/SPEED.md).
const BANK: usize = 16 * 224;
const BANK_COPIES: usize = 6;
// A timed run hashes at least this much, so that the clock's own cost does not show.
const LEAST_BYTES: usize = 64 << 10;

type Digest = [u8; 64];

fn by_loop(input: &[u8], last_node: bool, parallel: bool) -> Digest {
    let (start, length) = (input.as_ptr(), input.len());
    let mut words = INITIAL;
    let mut digest = [0; 64];
    unsafe {
        sumpillow_compress1_loop(start, length, &mut words, 0, last_node, true, parallel);
        sumpillow_write_words(&words, &mut digest);
    }
    digest
}

type Whole = unsafe extern "C" fn(*const u8, usize, *mut u8, usize) -> u8;

fn by_call(call: Whole, input: &[u8]) -> Digest {
    let mut digest = [0; 64];
    let number = unsafe { call(input.as_ptr(), input.len(), digest.as_mut_ptr(), digest.len()) };
    assert_eq!(number, 0);
    digest
}

// A state that takes the input so many times.
fn by_updates(input: &[u8], times: usize) -> Digest {
    let mut digest = [0; 64];
    let (start, length, out) = (input.as_ptr(), input.len(), digest.as_mut_ptr());
    let number = unsafe { sumpillow_state_updates(start, length, times, out, 64) };
    assert_eq!(number, 0);
    digest
}

// A slot of a bank that takes the input so many times, by updates of its own.
fn by_slot(input: &[u8], times: usize, slot: usize) -> Digest {
    let mut digest = [0; 64];
    let (start, length, out) = (input.as_ptr(), input.len(), digest.as_mut_ptr());
    let number = unsafe { sumpillow_bank_updates(start, length, times, slot, out, 64) };
    assert_eq!(number, 0);
    digest
}

// A slot of a bank whose slots all take the input, by so many batches.
fn by_batches(input: &[u8], times: usize, slot: usize) -> Digest {
    let mut digest = [0; 64];
    let (start, length, out) = (input.as_ptr(), input.len(), digest.as_mut_ptr());
    let number = unsafe { sumpillow_bank_batches(start, length, RECORDS, times, slot, out, 64) };
    assert_eq!(number, 0);
    digest
}

// Jobs that all have the input.
fn by_jobs(input: &[u8]) -> [Digest; RECORDS] {
    let mut digests = [[0; 64]; RECORDS];
    let (start, length, out) = (input.as_ptr(), input.len(), digests.as_mut_ptr());
    unsafe { sumpillow_jobs(start, length, out.cast(), RECORDS * 64) };
    digests
}

// What so many updates of a slot copy of whole banks, from one place to the next, and nothing else.
fn by_copies(times: usize) {
    let mut banks = [[0u8; BANK]; BANK_COPIES + 1];
    let first = banks.as_mut_ptr();
    for _ in 0..times {
        for copy in 0..BANK_COPIES {
            let from = unsafe { opaque(first).add(copy) };
            unsafe { from.copy_to_nonoverlapping(from.add(1), 1) };
        }
    }
}

fn portable() -> Params {
    let mut params = Params::new();
    benchmarks::force_portable(&mut params);
    params
}

fn portable_bp() -> blake2bp::Params {
    let mut params = blake2bp::Params::new();
    benchmarks::force_portable_blake2bp(&mut params);
    params
}

fn theirs(params: &Params, input: &[u8]) -> Digest {
    *params.hash(input).as_array()
}

fn theirs_bp(params: &blake2bp::Params, input: &[u8]) -> Digest {
    *params.hash(input).as_array()
}

fn check_agreement(data: &[u8]) {
    for last_node in [false, true] {
        let mut params = portable();
        params.last_node(last_node);
        for length in (0..=1024).chain(SIZES) {
            let input = &data[..length];
            let expected = theirs(&params, input);
            assert_eq!(by_loop(input, last_node, false), expected, "{length} bytes");
            if !last_node {
                assert_eq!(by_call(sumpillow_blake2b, input), expected, "{length} bytes");
                assert_eq!(by_call(sumpillow_state, input), expected, "{length} bytes");
            }
        }
        // A leaf of BLAKE2bp takes one block in four.
        let every_fourth = [&data[..128], &data[512..640]].concat();
        assert_eq!(
            by_loop(&data[..1024], last_node, true),
            theirs(&params, &every_fourth)
        );
    }
}

fn check_blake2bp(data: &[u8]) {
    let params = portable_bp();
    for length in (0..=2500).chain(SIZES) {
        let input = &data[..length];
        assert_eq!(by_call(sumpillow_blake2bp, input), theirs_bp(&params, input), "{length} bytes");
    }
}

// Of every slot and every job. A piece of no bytes at the end of its data is refused, so inputs have a byte.
fn check_records(data: &[u8]) {
    let params = portable();
    for length in [1, 63, SMALL, 127, 128, 129, 1000, PIECE] {
        let input = &data[..length];
        assert_eq!(by_jobs(input), [theirs(&params, input); RECORDS], "{length} bytes");
        for times in [1, 3] {
            let expected = theirs(&params, &input.repeat(times));
            assert_eq!(by_updates(input, times), expected, "{times} times {length} bytes");
            for slot in 0..RECORDS {
                assert_eq!(by_slot(input, times, slot), expected, "{times} times {length} bytes");
                assert_eq!(by_batches(input, times, slot), expected, "{times} times {length} bytes");
            }
        }
    }
}

// Keeps the compiler from moving work on `value` out of the loop that is timed.
fn opaque<T: Copy>(value: T) -> T {
    unsafe { std::ptr::read_volatile(&value) }
}

// Nanoseconds a byte of one timed run.
fn time(hash: &dyn Fn(&[u8]) -> Digest, input: &[u8], expected: &Digest) -> f64 {
    let repeats = (LEAST_BYTES / input.len()).max(1);
    let mut digest = [0; 64];
    let start = Instant::now();
    for _ in 0..repeats {
        digest = opaque(hash(opaque(input)));
    }
    let elapsed = start.elapsed();
    assert_eq!(&digest, expected);
    elapsed.as_nanos() as f64 / (repeats * input.len()) as f64
}

fn least(times: [f64; BATCHES]) -> f64 {
    times.into_iter().fold(f64::INFINITY, f64::min)
}

fn ratio(times: [f64; BATCHES], others: [f64; BATCHES]) -> String {
    let mut batches: [f64; BATCHES] = std::array::from_fn(|batch| times[batch] / others[batch]);
    batches.sort_by(f64::total_cmp);
    let [low, mid, high] = [0, BATCHES / 2, BATCHES - 1].map(|rank| batches[rank]);
    format!(
        "{:.3} ({low:.3} {mid:.3} {high:.3})",
        least(times) / least(others)
    )
}

// Nanoseconds of one call.
fn time_call(call: &dyn Fn()) -> f64 {
    let start = Instant::now();
    call();
    start.elapsed().as_nanos() as f64
}

// What a bank and jobs take, against the same bytes one after another: each named, with the number of what the name
// says that one timed call does. Then what a bank's copies are of its update.
fn time_records(data: &[u8], rounds: usize) {
    let (piece, small) = (&data[..PIECE], &data[..SMALL]);
    let by_slot: &dyn Fn() = &|| _ = opaque(by_slot(opaque(small), UPDATES, 0));
    let pairs: [(&str, usize, &dyn Fn(), &dyn Fn()); 4] = [
        (
            "a batch of 16 pieces of 4 KiB : 16 State::update",
            REPEATS,
            &|| _ = opaque(by_batches(opaque(piece), REPEATS, 0)),
            &|| _ = opaque(by_updates(opaque(piece), RECORDS * REPEATS)),
        ),
        (
            "16 jobs of 4 KiB, made, run and read : 16 one-shot",
            1,
            &|| _ = opaque(by_jobs(opaque(piece))),
            &|| (0..RECORDS).for_each(|_| _ = opaque(by_call(sumpillow_blake2b, opaque(piece)))),
        ),
        (
            "Bank::update of 64 bytes : State::update",
            UPDATES,
            by_slot,
            &|| _ = opaque(by_updates(opaque(small), UPDATES)),
        ),
        (
            "6 copies of a bank : Bank::update of 64 bytes",
            UPDATES,
            &|| by_copies(UPDATES),
            by_slot,
        ),
    ];
    let mut fastest = pairs.map(|_| [[f64::INFINITY; BATCHES]; 2]);
    for batch in 0..BATCHES {
        for round in 0..rounds {
            for ((_, calls, first, second), best) in pairs.iter().zip(&mut fastest) {
                for turn in 0..2 {
                    let side = (round + turn) % 2;
                    let each = time_call([first, second][side]) / *calls as f64;
                    best[side][batch] = best[side][batch].min(each);
                }
            }
        }
    }
    println!("{:<52}{:>10}{:>10}  {}", "", "ns", "ns", "ratio");
    for ((what, ..), [first, second]) in pairs.iter().zip(fastest) {
        let [least_first, least_second] = [first, second].map(least);
        println!("{what:<52}{least_first:>10.0}{least_second:>10.0}  {}", ratio(first, second));
    }
}

fn main() {
    let rounds: usize = std::env::args()
        .nth(1)
        .map_or(200, |text| text.parse().expect("rounds: a number"));
    let data: Vec<u8> = (0..*SIZES.iter().max().unwrap())
        .map(|i| (i * 7 + i / 251) as u8)
        .collect();
    check_agreement(&data);
    check_blake2bp(&data);
    check_records(&data);

    let (params, params_bp) = (portable(), portable_bp());
    let crate_side = |input: &[u8]| theirs(&params, input);
    // Each with the one of the crate's that it stands against.
    let sides: [(&str, &dyn Fn(&[u8]) -> Digest, usize); SIDES] = [
        ("loop", &|input| by_loop(input, false, false), CRATE),
        ("hash", &|input| by_call(sumpillow_blake2b, input), CRATE),
        ("state", &|input| by_call(sumpillow_state, input), CRATE),
        ("bp", &|input| by_call(sumpillow_blake2bp, input), CRATE_BP),
        ("crate", &crate_side, CRATE),
        ("crate again", &crate_side, CRATE),
        ("crate bp", &|input| theirs_bp(&params_bp, input), CRATE_BP),
    ];
    let digests = SIZES.map(|length| sides.map(|(_, hash, _)| hash(&data[..length])));

    let mut fastest = [[[f64::INFINITY; BATCHES]; SIDES]; SIZES.len()];
    for batch in 0..BATCHES {
        for round in 0..rounds {
            for (size, length) in SIZES.into_iter().enumerate() {
                for turn in 0..SIDES {
                    let side = (round + turn) % SIDES;
                    let (_, hash, against) = sides[side];
                    let best = &mut fastest[size][side][batch];
                    *best = best.min(time(hash, &data[..length], &digests[size][against]));
                }
            }
        }
    }

    println!("loop: the block loop, finalizing, from the initial words, and the digest's bytes");
    println!("hash: BLAKE2b one-shot; state: through a state and one update; bp: BLAKE2bp one-shot");
    println!("crate, crate bp: Params::hash of each, portable; all gave its digests; nothing clears its buffers");
    println!("crate again is the noise within a run; the placement of code, fixed by the build, adds to it");
    println!("ratios of the fastest of all rounds (of {BATCHES} batches of {rounds} rounds: lowest, median, highest)");
    println!("{:>8} {:<12}{:>8}  {:<28}{}", "bytes", "", "ns/B", "to the crate's own", "to the loop");
    for (length, times) in SIZES.into_iter().zip(fastest) {
        for ((name, _, against), own) in sides.into_iter().zip(times) {
            let [to_crate, to_loop] = [against, LOOP].map(|other| ratio(own, times[other]));
            println!("{length:>8} {name:<12}{:>8.3}  {to_crate:<28}{to_loop}", least(own));
        }
    }
    time_records(&data, rounds);
}
