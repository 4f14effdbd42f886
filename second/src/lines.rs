//! The request lines: one request a line, one answer a line, in order. A line that is no request
//! is answered by `?`. Those about the hash, which the C shim over the proved library answers too:
//!
//! - `H MESSAGE`: the hash call; the answer is the refusal number and the digest;
//! - `M KEY MESSAGE`: the HMAC call, answered likewise;
//! - `B CHAIN BLOCK`: one block (64 bytes) from the chaining words (32 bytes); the answer is 0 and
//!   the chaining words after it. Words stand high byte first.

use crate::hash;
use crate::hex;
use crate::sha256;
use std::io::{self, BufRead, BufReader, BufWriter, Write};

const BUFFER: usize = 65_536;

fn answer(number: u32, bytes: &[u8]) -> String {
    format!("{} {}", number, hex::write(bytes))
}

fn block(chain: &[u8], block: &[u8]) -> Option<String> {
    if chain.len() != 32 || block.len() != 64 {
        return None;
    }
    let next = sha256::compress(&sha256::words(chain), &sha256::words(block));
    Some(answer(0, &sha256::bytes(&next)))
}

/// The answer to a request line, or nothing if it is no request.
pub fn request(line: &[u8]) -> Option<String> {
    let fields: Vec<&[u8]> = line.split(|byte| *byte == b' ').collect();
    let (number, digest) = match fields.as_slice() {
        [b"H", message] => hash::hash(&hex::read(message)?),
        [b"M", key, message] => hash::hmac(&hex::read(key)?, &hex::read(message)?),
        [b"B", chain, words] => return block(&hex::read(chain)?, &hex::read(words)?),
        _ => return None,
    };
    Some(answer(number, &digest))
}

/// The digest of a message of any length, which no call of the library gives: with it the tests
/// see that the padding and the order of blocks are right beyond the lengths of the calls.
pub fn digest(line: &[u8]) -> Option<String> {
    Some(hex::write(&sha256::digest(&hex::read(line)?)))
}

/// Answers the lines of standard input. The answers are sent when no more input is at hand, so that
/// nobody waits for one, and many lines cost few writes.
pub fn serve(answer: fn(&[u8]) -> Option<String>) -> Result<(), String> {
    let mut input = BufReader::with_capacity(BUFFER, io::stdin().lock());
    let mut output = BufWriter::with_capacity(BUFFER, io::stdout().lock());
    let mut line = Vec::new();
    let failed = |error: io::Error| error.to_string();
    while input.read_until(b'\n', &mut line).map_err(failed)? > 0 {
        if line.ends_with(b"\n") {
            line.pop();
        }
        let text = answer(&line).unwrap_or_else(|| "?".to_string());
        writeln!(output, "{}", text).map_err(failed)?;
        if input.buffer().is_empty() {
            output.flush().map_err(failed)?;
        }
        line.clear();
    }
    output.flush().map_err(failed)
}
