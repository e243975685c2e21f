//! Prints the digest of standard input in hexadecimal.
//!
//!     hash blake2b|blake2bp < FILE

use std::io::Read;
use std::process::ExitCode;

fn main() -> ExitCode {
    let hash = match std::env::args().nth(1).as_deref() {
        Some("blake2b") => sumpillow::blake2b,
        Some("blake2bp") => sumpillow::blake2bp,
        _ => {
            eprintln!("usage: hash blake2b|blake2bp < FILE");
            return ExitCode::from(2);
        }
    };
    let mut input = Vec::new();
    if let Err(error) = std::io::stdin().read_to_end(&mut input) {
        eprintln!("hash: standard input: {error}");
        return ExitCode::FAILURE;
    }
    let digits: String = hash(&input).iter().map(|byte| format!("{byte:02x}")).collect();
    println!("{digits}");
    ExitCode::SUCCESS
}
