//! The second program: the project's functions written a second time, in plain Rust, from the
//! standards and the scope document alone. It shares no text with the proved library, and the
//! tests compare the answers of the two.
//!
//! The first argument chooses what the program does:
//!
//! - `second hash`: answers hash request lines on standard input (`lines`);
//! - `second digest`: the SHA-256 digest of each message on standard input, of any length;
//! - `second device`: answers device request lines, about any image and state (`device_lines`);
//! - `second host`: answers host request lines (`host_lines`);
//! - `second rpmcrun`: is the scope document's program `rpmcrun` (`rpmcrun`);
//! - `second bench N block|hmac`: does the same work N times, for the benchmark (`bench`).

#![forbid(unsafe_code)]

mod bench;
mod checks;
mod decimal;
mod device;
mod device_lines;
mod hash;
mod hex;
mod hmac;
mod host;
mod host_lines;
mod image;
mod layout;
mod lines;
mod rpmcrun;
mod sha256;
mod state;
mod state_bytes;
mod steps;

use std::process::ExitCode;

const USAGE: &str = "usage: second hash | digest | device | host | rpmcrun | bench N block|hmac";

fn run(arguments: &[&str]) -> Result<(), String> {
    match arguments {
        ["hash"] => lines::serve(lines::request),
        ["digest"] => lines::serve(lines::digest),
        ["device"] => lines::serve(device_lines::request),
        ["host"] => lines::serve(host_lines::request),
        ["rpmcrun"] => rpmcrun::run(),
        ["bench", count, kind] => bench::run(count, kind),
        _ => Err(USAGE.to_string()),
    }
}

fn main() -> ExitCode {
    let arguments: Vec<String> = std::env::args().skip(1).collect();
    let arguments: Vec<&str> = arguments.iter().map(String::as_str).collect();
    match run(&arguments) {
        Ok(()) => ExitCode::SUCCESS,
        Err(what) => {
            eprintln!("second: {}", what);
            ExitCode::from(2)
        }
    }
}
