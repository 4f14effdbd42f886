//! A state as the 383 bytes that stand in device request lines: status 1; reset-enabled 1; job
//! there 1, kind 1, counter 1, step 1, kept word 4; reply there 1, bytes 48; four session keys of
//! there 1, bytes 32; chaining words 32; the job's inner words 32, frame 64, root key 32, made
//! key 32. Words stand high byte first, a yes or no is 1 or 0.

use crate::sha256;
use crate::state::{Kind, State, POWER_ON};

const LENGTH: usize = 383;

/// The kinds of job by their number.
const KINDS: [Kind; 7] = [
    Kind::RootKeyAndCounter,
    Kind::RootKey,
    Kind::TemporaryKeyAndCounter,
    Kind::TemporaryKey,
    Kind::SessionKey,
    Kind::Increment,
    Kind::Request,
];

/// Takes the first N bytes off the front.
fn take<const N: usize>(bytes: &mut &[u8]) -> [u8; N] {
    let (front, rest) = bytes.split_at(N);
    *bytes = rest;
    let mut taken = [0; N];
    taken.copy_from_slice(front);
    taken
}

fn take_byte(bytes: &mut &[u8]) -> u8 {
    take::<1>(bytes)[0]
}

fn take_flag(bytes: &mut &[u8]) -> Option<bool> {
    match take_byte(bytes) {
        0 => Some(false),
        1 => Some(true),
        _ => None,
    }
}

fn take_words(bytes: &mut &[u8]) -> [u32; 8] {
    sha256::words(&take::<32>(bytes))
}

/// The state of 383 bytes, or nothing if they are not that many, or if a yes or no is neither 0
/// nor 1, or if there is no such kind.
pub fn read(bytes: &[u8]) -> Option<State> {
    if bytes.len() != LENGTH {
        return None;
    }
    let rest = &mut &*bytes;
    let mut state = POWER_ON;
    state.status = take_byte(rest);
    state.reset_enabled = take_flag(rest)?;
    state.job.there = take_flag(rest)?;
    state.job.kind = *KINDS.get(usize::from(take_byte(rest)))?;
    state.job.counter = take_byte(rest);
    state.job.step = take_byte(rest);
    state.job.kept = u32::from_be_bytes(take(rest));
    state.reply.there = take_flag(rest)?;
    state.reply.bytes = take(rest);
    for key in &mut state.session_keys {
        key.there = take_flag(rest)?;
        key.bytes = take(rest);
    }
    state.chain = take_words(rest);
    state.job.inner = take_words(rest);
    state.job.frame = take(rest);
    state.job.root_key = take(rest);
    state.job.made_key = take(rest);
    Some(state)
}

/// The 383 bytes of a state.
pub fn write(state: &State) -> Vec<u8> {
    let job = &state.job;
    let kind = KINDS.iter().take_while(|kind| **kind != job.kind).count() as u8;
    let mut bytes = Vec::with_capacity(LENGTH);
    bytes.push(state.status);
    bytes.push(u8::from(state.reset_enabled));
    bytes.push(u8::from(job.there));
    bytes.extend_from_slice(&[kind, job.counter, job.step]);
    bytes.extend_from_slice(&job.kept.to_be_bytes());
    bytes.push(u8::from(state.reply.there));
    bytes.extend_from_slice(&state.reply.bytes);
    for key in &state.session_keys {
        bytes.push(u8::from(key.there));
        bytes.extend_from_slice(&key.bytes);
    }
    bytes.extend_from_slice(&sha256::bytes(&state.chain));
    bytes.extend_from_slice(&sha256::bytes(&job.inner));
    bytes.extend_from_slice(&job.frame);
    bytes.extend_from_slice(&job.root_key);
    bytes.extend_from_slice(&job.made_key);
    bytes
}
