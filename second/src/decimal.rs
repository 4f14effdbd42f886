//! Decimal numbers as they stand in lines: digits only, no sign, no leading zero.

/// The number of a field, or nothing if it is not of this form or is above `most`.
pub fn read(field: &[u8], most: u32) -> Option<u32> {
    if field.is_empty() || (field.len() > 1 && field[0] == b'0') {
        return None;
    }
    let mut number: u32 = 0;
    for character in field {
        if !character.is_ascii_digit() {
            return None;
        }
        number = number
            .checked_mul(10)?
            .checked_add(u32::from(character - b'0'))?;
    }
    if number > most {
        return None;
    }
    Some(number)
}
