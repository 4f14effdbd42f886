//! HMAC-SHA-256 as FIPS 198-1 has it, for keys of 32 bytes: whole, and block by block.

use crate::sha256;

/// The block that a key opens its hash with: the key, zeros up to 64 bytes, each byte with `pad`.
fn key_block(key: &[u8; 32], pad: u8) -> Vec<u8> {
    let mut block = key.to_vec();
    block.resize(64, 0);
    block.iter().map(|byte| byte ^ pad).collect()
}

/// H((K0 xor opad) || H((K0 xor ipad) || message)).
pub fn hmac(key: &[u8; 32], message: &[u8]) -> [u8; 32] {
    let mut inner = key_block(key, 0x36);
    inner.extend_from_slice(message);
    let mut outer = key_block(key, 0x5c);
    outer.extend_from_slice(&sha256::digest(&inner));
    sha256::digest(&outer)
}

/// The padded block that ends a hash whose first block was a key's; for at most 55 bytes.
fn last_block(bytes: &[u8]) -> Vec<u8> {
    let mut hashed = vec![0; 64];
    hashed.extend_from_slice(bytes);
    sha256::pad(&hashed).split_off(64)
}

/// The chaining words after one of the four blocks of the HMAC of a message of at most 55 bytes:
/// numbers 0 and 1 are the inner blocks, 2 and 3 the outer ones. `chain` are the chaining words
/// before it, `inner` those that block 1 left.
pub fn block(
    number: u8,
    key: &[u8; 32],
    message: &[u8],
    chain: &[u32; 8],
    inner: &[u32; 8],
) -> [u32; 8] {
    let (before, block) = match number {
        0 => (&sha256::INITIAL, key_block(key, 0x36)),
        1 => (chain, last_block(message)),
        2 => (&sha256::INITIAL, key_block(key, 0x5c)),
        _ => (chain, last_block(&sha256::bytes(inner))),
    };
    sha256::compress(before, &sha256::words(&block))
}
