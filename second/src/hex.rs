//! Bytes as they stand in request lines: two hexadecimal digits a byte, `-` for none. Hash lines
//! have lower-case digits; device and host lines and `rpmcrun` have upper-case ones.

fn digit(character: u8, letter_a: u8) -> Option<u8> {
    match character {
        b'0'..=b'9' => Some(character - b'0'),
        _ if character >= letter_a && character < letter_a + 6 => Some(character - letter_a + 10),
        _ => None,
    }
}

/// One byte or more as digits, or nothing if the field is not of this form.
fn read_digits(field: &[u8], letter_a: u8) -> Option<Vec<u8>> {
    if field.is_empty() || field.len() % 2 != 0 {
        return None;
    }
    field
        .chunks_exact(2)
        .map(|pair| Some(16 * digit(pair[0], letter_a)? + digit(pair[1], letter_a)?))
        .collect()
}

/// The bytes of a field, or nothing if it is not of this form.
pub fn read(field: &[u8]) -> Option<Vec<u8>> {
    if field == b"-" {
        return Some(Vec::new());
    }
    read_digits(field, b'a')
}

/// The bytes of a field in upper case, or nothing if it is not of this form.
pub fn read_upper(field: &[u8]) -> Option<Vec<u8>> {
    if field == b"-" {
        return Some(Vec::new());
    }
    read_upper_digits(field)
}

/// The same without the `-`: one byte or more.
pub fn read_upper_digits(field: &[u8]) -> Option<Vec<u8>> {
    read_digits(field, b'A')
}

/// Bytes as digits.
pub fn write(bytes: &[u8]) -> String {
    bytes.iter().map(|byte| format!("{:02x}", byte)).collect()
}

/// Bytes as digits in upper case, `-` for none.
pub fn write_upper(bytes: &[u8]) -> String {
    const DIGITS: &[u8; 16] = b"0123456789ABCDEF";
    if bytes.is_empty() {
        return "-".to_string();
    }
    let mut text = String::with_capacity(2 * bytes.len());
    for byte in bytes {
        text.push(char::from(DIGITS[usize::from(byte / 16)]));
        text.push(char::from(DIGITS[usize::from(byte % 16)]));
    }
    text
}
