//! The steps of a job: each is one SHA-256 block or one image word stored, and the last posts the
//! status. Checks 8 to 10 are made in the step that ends the signature's HMAC.

use crate::hmac;
use crate::image::{self, COUNTER_STATE, ROOT_KEY, ROOT_STATE, SET, VALUE};
use crate::layout::{self, LAYOUTS};
use crate::sha256;
use crate::state::{Job, Kind, Reply, SessionKey, State, NO_JOB};

/// The blocks of an HMAC.
const BLOCKS: u8 = 4;

const SUCCESS: u8 = 0x80;

/// The word that the next step stores, with its place in the slot, or nothing if it is a block.
fn next_store(job: &Job) -> Option<(usize, u32)> {
    if job.step < BLOCKS {
        return None;
    }
    let number = usize::from(job.step - BLOCKS);
    match job.kind {
        Kind::RootKeyAndCounter | Kind::RootKey if number < 8 => {
            let key_word = image::word(&job.frame, 4 + 4 * number);
            Some((ROOT_KEY + 4 * number, key_word))
        }
        Kind::RootKeyAndCounter => {
            Some([(VALUE, 0), (COUNTER_STATE, SET), (ROOT_STATE, SET)][number - 8])
        }
        Kind::RootKey => Some((ROOT_STATE, SET)),
        Kind::TemporaryKeyAndCounter => Some([(VALUE, 0), (COUNTER_STATE, SET)][number]),
        Kind::Increment => Some((VALUE, job.kept)),
        Kind::TemporaryKey | Kind::SessionKey | Kind::Request => None,
    }
}

/// The key and the message of the HMAC that the next step has a block of.
fn next_hmac(state: &State) -> ([u8; 32], Vec<u8>) {
    let job = &state.job;
    let session_key = state.session_keys[usize::from(job.counter)].bytes;
    let signed = job.frame[..LAYOUTS[usize::from(job.kind.frame_type())].message].to_vec();
    match (job.kind, job.step < BLOCKS) {
        (Kind::SessionKey, true) => (job.root_key, job.frame[4..8].to_vec()),
        (Kind::SessionKey, false) => (job.made_key, signed),
        (Kind::Increment, _) | (Kind::Request, true) => (session_key, signed),
        (Kind::Request, false) => (session_key, tag_and_value(job)),
        _ => {
            let mut key_sent = [0; 32];
            key_sent.copy_from_slice(&job.frame[4..36]);
            (key_sent, signed)
        }
    }
}

/// The front of a request's reply: tag, then counter value.
fn tag_and_value(job: &Job) -> Vec<u8> {
    let mut bytes = job.frame[4..16].to_vec();
    bytes.extend_from_slice(&job.kept.to_be_bytes());
    bytes
}

/// One block of the job's HMAC: sets the chaining words, and the inner words after the second.
fn hash_block(state: &mut State) {
    let (key, message) = next_hmac(state);
    let number = state.job.step % BLOCKS;
    state.chain = hmac::block(number, &key, &message, &state.chain, &state.job.inner);
    if number == 1 {
        state.job.inner = state.chain;
    }
}

/// Checks 8 to 10 on a signature's digest and the counter value: the first failing one's status.
fn check_signature(job: &Job, digest: &[u8; 32], value: u32) -> Result<(), u8> {
    let frame_type = job.kind.frame_type();
    let layout = &LAYOUTS[usize::from(frame_type)];
    let sent = &job.frame[layout.signature..layout.length];
    if sent != layout::signature_of(frame_type, digest) {
        return match frame_type {
            layout::ROOT_KEY => Err(0x02),
            _ => Err(0x04),
        };
    }
    if job.kind == Kind::Increment {
        if image::word(&job.frame, 4) != value {
            return Err(0x10);
        }
        if value == 0xFFFF_FFFF {
            return Err(0x20);
        }
    }
    Ok(())
}

/// What follows from the last block of an HMAC, if the step just done was one: the made key kept,
/// or checks 8 to 10 made and the value kept; else nothing.
fn after_hmac(state: &mut State, value: u32) -> Result<(), u8> {
    let digest = sha256::bytes(&state.chain);
    let job = &mut state.job;
    match (job.kind, job.step) {
        (Kind::SessionKey, 4) => job.made_key = digest,
        (Kind::SessionKey, 8) => check_signature(job, &digest, value)?,
        (_, 4) => {
            check_signature(job, &digest, value)?;
            match job.kind {
                Kind::Increment => job.kept = value + 1,
                Kind::Request => job.kept = value,
                _ => {}
            }
        }
        _ => {}
    }
    Ok(())
}

/// What a job leaves in the state when its last step is done, besides the status.
fn post(state: &mut State) {
    let job = state.job;
    let digest = sha256::bytes(&state.chain);
    match job.kind {
        Kind::SessionKey => {
            let key = SessionKey {
                there: true,
                bytes: job.made_key,
            };
            state.session_keys[usize::from(job.counter)] = key;
        }
        Kind::Request => {
            let mut bytes = [0; 48];
            bytes[..16].copy_from_slice(&tag_and_value(&job));
            bytes[16..].copy_from_slice(&digest);
            state.reply = Reply { there: true, bytes };
        }
        _ => {}
    }
}

fn end(state: &mut State, status: u8) {
    state.status = status;
    state.job = NO_JOB;
}

/// Does one step of the job that is there, in an image and a state that are not refused.
pub fn step(state: &mut State, image: &mut [u8]) {
    let slot = image::slot(image, state.job.counter);
    match next_store(&state.job) {
        Some((place, word)) => image::store(image, slot + place, word),
        None => hash_block(state),
    }
    state.job.step += 1;
    if let Err(status) = after_hmac(state, image::word(image, slot + VALUE)) {
        return end(state, status);
    }
    if state.job.step == state.job.kind.length() {
        post(state);
        end(state, SUCCESS);
    }
}
