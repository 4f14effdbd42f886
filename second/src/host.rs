//! The host end: the builders of the four OP1 frames, with refusals 5, 6 and 7, and the reader of a
//! reply, with refusals 6 and 8.

use crate::hmac;
use crate::layout::{self, INCREMENT, LAYOUTS, OP1, REQUEST, ROOT_KEY, SESSION_KEY};
use std::convert::TryFrom;

const LAST_COUNTER: u32 = 3;
const TAG: usize = 12;
const REPLY: usize = 49;

/// Builds a frame at the front of the output: the refusal number. `data` is what the signed message
/// has after the first four bytes.
fn build(frame_type: u8, counter: u32, key: &[u8], data: &[u8], output: &mut [u8]) -> u32 {
    let layout = &LAYOUTS[usize::from(frame_type)];
    if counter > LAST_COUNTER {
        return 5;
    }
    let key = match <&[u8; 32]>::try_from(key) {
        Ok(key) if data.len() == layout.message - 4 => key,
        _ => return 6,
    };
    if output.len() < layout.length {
        return 7;
    }
    let mut frame = vec![OP1, frame_type, counter as u8, 0];
    frame.extend_from_slice(data);
    let digest = if frame_type == SESSION_KEY {
        hmac::hmac(&hmac::hmac(key, data), &frame)
    } else {
        hmac::hmac(key, &frame)
    };
    if frame_type == ROOT_KEY {
        frame.extend_from_slice(key);
    }
    frame.extend_from_slice(layout::signature_of(frame_type, &digest));
    output[..frame.len()].copy_from_slice(&frame);
    0
}

/// Builds type 00, a root key write.
pub fn root_key(counter: u32, root_key: &[u8], output: &mut [u8]) -> u32 {
    build(ROOT_KEY, counter, root_key, &[], output)
}

/// Builds type 01, a session key update, signed under the session key that it makes.
pub fn session_key(counter: u32, root_key: &[u8], key_data: &[u8], output: &mut [u8]) -> u32 {
    build(SESSION_KEY, counter, root_key, key_data, output)
}

/// Builds type 02, an increment.
pub fn increment(counter: u32, session_key: &[u8], counter_data: &[u8], output: &mut [u8]) -> u32 {
    build(INCREMENT, counter, session_key, counter_data, output)
}

/// Builds type 03, a request.
pub fn request(counter: u32, session_key: &[u8], tag: &[u8], output: &mut [u8]) -> u32 {
    build(REQUEST, counter, session_key, tag, output)
}

/// What a host makes of a reply.
#[derive(PartialEq)]
pub enum Verdict {
    Refused(u32),
    Busy,
    Failed(u8),
    Tag,
    Signature,
    Good,
}

/// The verdict on a reply to the request with this tag, under the session key.
pub fn verdict(session_key: &[u8], tag: &[u8], reply: &[u8]) -> Verdict {
    let key = match <&[u8; 32]>::try_from(session_key) {
        Ok(key) if tag.len() == TAG => key,
        _ => return Verdict::Refused(6),
    };
    if reply.len() != REPLY {
        return Verdict::Refused(8);
    }
    let status = reply[0];
    if status & 1 != 0 {
        return Verdict::Busy;
    }
    if status != 0x80 {
        return Verdict::Failed(status);
    }
    if &reply[1..13] != tag {
        return Verdict::Tag;
    }
    if reply[17..49] != hmac::hmac(key, &reply[1..17]) {
        return Verdict::Signature;
    }
    Verdict::Good
}

/// The four counter bytes of a good reply, where they stand in it; empty unless good.
pub fn part<'a>(session_key: &[u8], tag: &[u8], reply: &'a [u8]) -> &'a [u8] {
    if verdict(session_key, tag, reply) == Verdict::Good {
        &reply[13..17]
    } else {
        &[]
    }
}
