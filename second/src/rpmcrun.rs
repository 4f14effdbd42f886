//! The program `rpmcrun`: a device with four counters, all slots FFh, driven by lines. A line is
//! taken as it stands: blanks at its ends, a CR, a lower-case digit or a leading zero make it
//! another line, answered by `?`. The last line may lack its newline. Each answer is sent at once.

use crate::decimal;
use crate::device;
use crate::hex;
use crate::image;
use crate::state::{State, POWER_ON};
use std::io::{self, BufRead, Write};

/// The longest line that is not answered by `?`: `F `, then two digits for each of 256 bytes.
const LONGEST_LINE: usize = 2 + 2 * LONGEST_FRAME;
const LONGEST_FRAME: usize = 256;

const HEADER: [u32; 4] = [4, 16, 48, 208];

struct Machine {
    image: Vec<u8>,
    state: State,
}

impl Machine {
    fn new() -> Machine {
        let mut image: Vec<u8> = HEADER.iter().flat_map(|word| word.to_be_bytes()).collect();
        image.resize(HEADER[3] as usize, 0xFF);
        Machine {
            image,
            state: POWER_ON,
        }
    }

    fn power_up(&mut self) -> String {
        let (number, state) = device::power_up(&self.image);
        self.state = state;
        format!("P {}", number)
    }

    fn frame(&mut self, digits: &[u8]) -> Option<String> {
        let frame = hex::read_upper_digits(digits)?;
        if frame.len() > LONGEST_FRAME {
            return None;
        }
        let number = device::frame(&self.image, &mut self.state, &frame, &mut []);
        Some(format!("F {}", number))
    }

    fn work(&mut self, quota: &[u8]) -> Option<String> {
        let quota = decimal::read(quota, 255)?;
        let (number, steps) = device::work(&mut self.image, &mut self.state, quota);
        Some(format!("S {} {}", number, steps))
    }

    fn read(&mut self, length: &[u8]) -> Option<String> {
        let length = decimal::read(length, 256)?;
        if length == 0 {
            return None;
        }
        let mut output = vec![0; length as usize];
        let number = device::frame(&self.image, &mut self.state, &[0x96, 0x00], &mut output);
        Some(format!("R {} {}", number, hex::write_upper(&output)))
    }

    /// The answer to a line, or nothing if it is any other line.
    fn answer(&mut self, line: &[u8]) -> Option<String> {
        match line {
            b"P" => Some(self.power_up()),
            [b'F', b' ', digits @ ..] => self.frame(digits),
            [b'S', b' ', quota @ ..] => self.work(quota),
            [b'R', b' ', length @ ..] => self.read(length),
            _ => None,
        }
    }
}

/// Reads the next line without its newline, and says whether there was one. Of a line above the
/// longest only the front is kept, one byte more than the longest.
fn next_line(input: &mut dyn BufRead, line: &mut Vec<u8>) -> io::Result<bool> {
    line.clear();
    loop {
        let buffer = match input.fill_buf() {
            Ok(buffer) => buffer,
            Err(error) if error.kind() == io::ErrorKind::Interrupted => continue,
            Err(error) => return Err(error),
        };
        if buffer.is_empty() {
            return Ok(!line.is_empty());
        }
        let newline = buffer.iter().position(|byte| *byte == b'\n');
        let piece = &buffer[..newline.unwrap_or(buffer.len())];
        let room = LONGEST_LINE + 1 - line.len();
        line.extend_from_slice(&piece[..piece.len().min(room)]);
        let used = piece.len() + usize::from(newline.is_some());
        input.consume(used);
        if newline.is_some() {
            return Ok(true);
        }
    }
}

fn converse() -> io::Result<()> {
    let mut input = io::stdin().lock();
    let mut output = io::stdout().lock();
    let mut machine = Machine::new();
    let mut line = Vec::new();
    writeln!(output, "counters {}", image::count(&machine.image))?;
    output.flush()?;
    while next_line(&mut input, &mut line)? {
        let text = machine.answer(&line).unwrap_or_else(|| "?".to_string());
        writeln!(output, "{}", text)?;
        output.flush()?;
    }
    Ok(())
}

/// Answers the lines of standard input until it ends.
pub fn run() -> Result<(), String> {
    converse().map_err(|error| error.to_string())
}
