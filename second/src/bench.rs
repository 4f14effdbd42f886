//! The work that the benchmark counts and times. Each result is the next one's input, so that no
//! call can be left out, and the last one is printed: contestants doing the same work print the
//! same digits.
//!
//! - `block`: from the initial hash value, N times the block with words 0 to 15;
//! - `hmac`: from the key with bytes 0 to 31, N times the HMAC of the message with bytes 0 to 15,
//!   the digest being the next key.

use crate::hash;
use crate::hex;
use crate::sha256;

fn blocks(count: u64) -> [u8; 32] {
    let mut block = [0; 16];
    for (word, number) in block.iter_mut().zip(0..) {
        *word = number;
    }
    let mut chain = sha256::INITIAL;
    for _ in 0..count {
        chain = sha256::compress(&chain, &block);
    }
    sha256::bytes(&chain)
}

fn hmacs(count: u64) -> [u8; 32] {
    let message: Vec<u8> = (0..16).collect();
    let mut key = [0; 32];
    for (byte, number) in key.iter_mut().zip(0..) {
        *byte = number;
    }
    for _ in 0..count {
        key = hash::hmac(&key, &message).1;
    }
    key
}

/// Does the work and prints its last result.
pub fn run(count: &str, kind: &str) -> Result<(), String> {
    let count = match count.parse() {
        Ok(count) => count,
        Err(_) => return Err(format!("{} is not a number of times", count)),
    };
    let last = match kind {
        "block" => blocks(count),
        "hmac" => hmacs(count),
        _ => return Err(format!("{} is neither block nor hmac", kind)),
    };
    println!("{}", hex::write(&last));
    Ok(())
}
