//! Checks 1 to 7 of a taken OP1 frame, made on arrival, and the kind of job that it becomes.

use crate::image::{self, SET, UNSET};
use crate::layout::{INCREMENT, LAYOUTS, REQUEST, ROOT_KEY, SESSION_KEY};
use crate::state::{Kind, SessionKey};

const LAST_TYPE: u8 = REQUEST;

/// Checks 1 to 4, which need the frame and the image's count only: the status of the first that
/// fails. The frame has two bytes or more.
fn check_frame(frame: &[u8], count: u32) -> Result<(), u8> {
    let frame_type = frame[1];
    if frame_type > LAST_TYPE {
        return Err(0x04);
    }
    if frame.len() != LAYOUTS[usize::from(frame_type)].length {
        return Err(0x04);
    }
    if frame[3] != 0 {
        return Err(0x04);
    }
    if u32::from(frame[2]) >= count {
        return Err(if frame_type == ROOT_KEY { 0x06 } else { 0x04 });
    }
    Ok(())
}

/// Checks 5 to 7, which need the counter's slot and its session key.
fn check_slot(frame_type: u8, image: &[u8], slot: usize, key: &SessionKey) -> Result<(), u8> {
    let root = image::word(image, slot + image::ROOT_STATE);
    let counter = image::word(image, slot + image::COUNTER_STATE);
    if image::is_bad(image, slot) {
        return Err(0x20);
    }
    if (frame_type == ROOT_KEY && root == SET) || (frame_type == SESSION_KEY && counter == UNSET) {
        return Err(0x02);
    }
    let needs_key = frame_type == INCREMENT || frame_type == REQUEST;
    if needs_key && (counter == UNSET || !key.there) {
        return Err(0x08);
    }
    Ok(())
}

/// The kind of job of a frame that passed checks 1 to 7.
fn kind_of(frame: &[u8], image: &[u8], slot: usize) -> Kind {
    let counter_unset = image::word(image, slot + image::COUNTER_STATE) == UNSET;
    match frame[1] {
        SESSION_KEY => Kind::SessionKey,
        INCREMENT => Kind::Increment,
        REQUEST => Kind::Request,
        _ => {
            let all_ff = frame[4..36].iter().all(|byte| *byte == 0xFF);
            match (all_ff, counter_unset) {
                (false, true) => Kind::RootKeyAndCounter,
                (false, false) => Kind::RootKey,
                (true, true) => Kind::TemporaryKeyAndCounter,
                (true, false) => Kind::TemporaryKey,
            }
        }
    }
}

/// The kind of job that a frame of two bytes or more becomes, or the status of its first failing
/// check of 1 to 7.
pub fn arrival(frame: &[u8], image: &[u8], keys: &[SessionKey; 4]) -> Result<Kind, u8> {
    check_frame(frame, image::count(image))?;
    let counter = frame[2];
    let slot = image::slot(image, counter);
    check_slot(frame[1], image, slot, &keys[usize::from(counter)])?;
    Ok(kind_of(frame, image, slot))
}
