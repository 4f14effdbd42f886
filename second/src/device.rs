//! The device: power-up, frame and work, with refusals 1 to 4. A refused call changes nothing.

use crate::checks;
use crate::image;
use crate::layout::OP1;
use crate::state::{Job, State, NO_JOB, NO_REPLY, POWER_ON};
use crate::steps;

const RESET_ENABLE: u8 = 0x66;
const RESET: u8 = 0x99;
const READ: u8 = 0x96;

const BUSY: u8 = 0x01;

/// The refusal number of a frame or work call: the first of 1 to 4 that applies, or 0.
fn refusal(image: &[u8], state: &State) -> u32 {
    let number = image::refusal(image);
    if number != 0 {
        return number;
    }
    let job = &state.job;
    let fits = u32::from(job.counter) < image::count(image) && job.step < job.kind.length();
    if job.there && !fits {
        return 4;
    }
    0
}

/// Power-up: the refusal number and the power-on state, refused or not.
pub fn power_up(image: &[u8]) -> (u32, State) {
    (image::refusal(image), POWER_ON)
}

/// The read: fills the whole output.
fn read(state: &State, output: &mut [u8]) {
    if state.job.there {
        output.fill(BUSY);
        return;
    }
    let mut bytes = vec![state.status];
    if state.reply.there {
        bytes.extend_from_slice(&state.reply.bytes);
    }
    bytes.resize(bytes.len().max(output.len()), 0xFF);
    output.copy_from_slice(&bytes[..output.len()]);
}

/// Takes an OP1 frame of two bytes or more while idle: the reply is forgotten, and the frame
/// either fails on arrival or becomes a job.
fn take(image: &[u8], state: &mut State, frame: &[u8]) {
    state.reply = NO_REPLY;
    match checks::arrival(frame, image, &state.session_keys) {
        Err(status) => state.status = status,
        Ok(kind) => {
            let counter = frame[2];
            let root_key = image::root_key_in_use(image, image::slot(image, counter));
            let mut job = Job {
                there: true,
                kind,
                counter,
                root_key,
                ..NO_JOB
            };
            job.frame[..frame.len()].copy_from_slice(frame);
            state.job = job;
            state.status = BUSY;
        }
    }
}

/// A frame: the refusal number. Only the read writes the output, and no frame writes the image.
pub fn frame(image: &[u8], state: &mut State, frame: &[u8], output: &mut [u8]) -> u32 {
    let number = refusal(image, state);
    if number != 0 || frame.is_empty() {
        return number;
    }
    let reset_enabled = state.reset_enabled;
    state.reset_enabled = false;
    match frame {
        [RESET_ENABLE] => state.reset_enabled = true,
        [RESET] if reset_enabled => *state = POWER_ON,
        [READ, _dummy] => read(state, output),
        [OP1, _, ..] if !state.job.there => take(image, state, frame),
        _ => {}
    }
    0
}

/// Work: the refusal number and the steps done.
pub fn work(image: &mut [u8], state: &mut State, quota: u32) -> (u32, u32) {
    let number = refusal(image, state);
    if number != 0 {
        return (number, 0);
    }
    let mut done = 0;
    while done < quota && state.job.there {
        steps::step(state, image);
        done += 1;
    }
    (0, done)
}
