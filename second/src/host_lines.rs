//! The host request lines. Fields are separated by one blank; byte strings are upper-case digits,
//! `-` for none:
//!
//! - `B TYPE COUNTER KEY DATA OUT`: builds a frame of type 0 to 3; DATA is `-` for type 0, the four
//!   bytes for types 1 and 2, the tag for type 3; the answer is `NUMBER OUT`, the output after it;
//! - `V KEY TAG REPLY`: reads a reply; the answer is `NUMBER VERDICT STATUS PART`: the refusal
//!   number, one of `refused busy failed tag signature good`, the status in decimal if failed
//!   (else 0), and the counter bytes.

use crate::decimal;
use crate::hex;
use crate::host::{self, Verdict};

fn build(fields: &[&[u8]; 5]) -> Option<String> {
    let [frame_type, counter, key, data, output] = *fields;
    let counter = decimal::read(counter, u32::MAX)?;
    let key = hex::read_upper(key)?;
    let data = hex::read_upper(data)?;
    let mut output = hex::read_upper(output)?;
    let number = match frame_type {
        b"0" if data.is_empty() => host::root_key(counter, &key, &mut output),
        b"1" => host::session_key(counter, &key, &data, &mut output),
        b"2" => host::increment(counter, &key, &data, &mut output),
        b"3" => host::request(counter, &key, &data, &mut output),
        _ => return None,
    };
    Some(format!("{} {}", number, hex::write_upper(&output)))
}

fn read(key: &[u8], tag: &[u8], reply: &[u8]) -> Option<String> {
    let key = hex::read_upper(key)?;
    let tag = hex::read_upper(tag)?;
    let reply = hex::read_upper(reply)?;
    let (number, name, status) = match host::verdict(&key, &tag, &reply) {
        Verdict::Refused(number) => (number, "refused", 0),
        Verdict::Busy => (0, "busy", 0),
        Verdict::Failed(status) => (0, "failed", status),
        Verdict::Tag => (0, "tag", 0),
        Verdict::Signature => (0, "signature", 0),
        Verdict::Good => (0, "good", 0),
    };
    let part = hex::write_upper(host::part(&key, &tag, &reply));
    Some(format!("{} {} {} {}", number, name, status, part))
}

/// The answer to a request line, or nothing if it is no request.
pub fn request(line: &[u8]) -> Option<String> {
    let fields: Vec<&[u8]> = line.split(|byte| *byte == b' ').collect();
    match fields.as_slice() {
        [b"B", frame_type, counter, key, data, output] => {
            build(&[frame_type, counter, key, data, output])
        }
        [b"V", key, tag, reply] => read(key, tag, reply),
        _ => None,
    }
}
