//! The device request lines, about any image and any state. Fields are separated by one blank; byte
//! strings are upper-case digits, `-` for none; a STATE is the 383 bytes of `state_bytes`:
//!
//! - `U IMAGE`: power-up; the answer is `NUMBER STATE`;
//! - `F IMAGE STATE FRAME OUT`: a frame, with the lent output before it; the answer is
//!   `NUMBER STATE IMAGE OUT`, all after it;
//! - `W IMAGE STATE QUOTA`: work; the answer is `NUMBER STEPS STATE IMAGE`.

use crate::decimal;
use crate::device;
use crate::hex;
use crate::state::State;
use crate::state_bytes;

fn read_state(field: &[u8]) -> Option<State> {
    state_bytes::read(&hex::read_upper(field)?)
}

fn write_state(state: &State) -> String {
    hex::write_upper(&state_bytes::write(state))
}

fn power_up(image: &[u8]) -> Option<String> {
    let (number, state) = device::power_up(&hex::read_upper(image)?);
    Some(format!("{} {}", number, write_state(&state)))
}

fn frame(image: &[u8], state: &[u8], frame: &[u8], output: &[u8]) -> Option<String> {
    let image = hex::read_upper(image)?;
    let mut state = read_state(state)?;
    let mut output = hex::read_upper(output)?;
    let number = device::frame(&image, &mut state, &hex::read_upper(frame)?, &mut output);
    let (image, output) = (hex::write_upper(&image), hex::write_upper(&output));
    Some(format!(
        "{} {} {} {}",
        number,
        write_state(&state),
        image,
        output
    ))
}

fn work(image: &[u8], state: &[u8], quota: &[u8]) -> Option<String> {
    let mut image = hex::read_upper(image)?;
    let mut state = read_state(state)?;
    let (number, steps) = device::work(&mut image, &mut state, decimal::read(quota, u32::MAX)?);
    Some(format!(
        "{} {} {} {}",
        number,
        steps,
        write_state(&state),
        hex::write_upper(&image)
    ))
}

/// The answer to a request line, or nothing if it is no request.
pub fn request(line: &[u8]) -> Option<String> {
    let fields: Vec<&[u8]> = line.split(|byte| *byte == b' ').collect();
    match fields.as_slice() {
        [b"U", image] => power_up(image),
        [b"F", image, state, sent, output] => frame(image, state, sent, output),
        [b"W", image, state, quota] => work(image, state, quota),
        _ => None,
    }
}
