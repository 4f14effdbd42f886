//! The two hash calls with the scope document's refusals: the refusal number and the digest,
//! which is 32 zeros if refused.

use crate::hmac;
use crate::sha256;
use std::convert::TryFrom;

/// A refusal number (0 means done) and a digest.
pub type Answer = (u32, [u8; 32]);

const KEY_NOT_32_BYTES: u32 = 6;
const MESSAGE_ABOVE_55_BYTES: u32 = 11;
const LONGEST_MESSAGE: usize = 55;

fn refused(number: u32) -> Answer {
    (number, [0; 32])
}

/// SHA-256 of a message of at most 55 bytes.
pub fn hash(message: &[u8]) -> Answer {
    if message.len() > LONGEST_MESSAGE {
        return refused(MESSAGE_ABOVE_55_BYTES);
    }
    (0, sha256::digest(message))
}

/// HMAC-SHA-256 of a message of at most 55 bytes under a key of 32; the key is checked first.
pub fn hmac(key: &[u8], message: &[u8]) -> Answer {
    let key = match <&[u8; 32]>::try_from(key) {
        Ok(key) => key,
        Err(_) => return refused(KEY_NOT_32_BYTES),
    };
    if message.len() > LONGEST_MESSAGE {
        return refused(MESSAGE_ABOVE_55_BYTES);
    }
    (0, hmac::hmac(key, message))
}
