//! The counter image: its header with refusals 1 to 3, its slots, and the root key in use.

/// A state word that is unset, and one that is set.
pub const UNSET: u32 = 0xFFFF_FFFF;
pub const SET: u32 = 0;

// Where the words of the header stand.
const COUNT: usize = 0;
const OFFSET: usize = 4;
const SLOT_SIZE: usize = 8;
const TOTAL: usize = 12;
const HEADER: usize = 16;

// Where the fields of a slot stand, from its first byte.
pub const ROOT_STATE: usize = 0;
pub const COUNTER_STATE: usize = 4;
pub const VALUE: usize = 8;
pub const ROOT_KEY: usize = 16;
const SLOT: usize = 48;

const LONGEST: usize = 65_536;
const MOST_COUNTERS: u32 = 4;

/// The word at a place, high byte first.
pub fn word(bytes: &[u8], place: usize) -> u32 {
    u32::from_be_bytes([
        bytes[place],
        bytes[place + 1],
        bytes[place + 2],
        bytes[place + 3],
    ])
}

/// Stores a word at a place, high byte first.
pub fn store(image: &mut [u8], place: usize, word: u32) {
    image[place..place + 4].copy_from_slice(&word.to_be_bytes());
}

/// The refusal number of an image: the first of 1 to 3 that applies, or 0.
pub fn refusal(image: &[u8]) -> u32 {
    if image.len() < HEADER || image.len() > LONGEST || word(image, TOTAL) as usize != image.len() {
        return 1;
    }
    let count = word(image, COUNT);
    if count == 0 || count > MOST_COUNTERS {
        return 2;
    }
    let offset = u64::from(word(image, OFFSET));
    let end = offset + SLOT as u64 * u64::from(count);
    if offset < HEADER as u64 || offset % 4 != 0 {
        return 3;
    }
    if word(image, SLOT_SIZE) as usize != SLOT || end > image.len() as u64 {
        return 3;
    }
    0
}

/// The number of counters of an image that is not refused.
pub fn count(image: &[u8]) -> u32 {
    word(image, COUNT)
}

/// The place of a counter's slot in an image that is not refused; the counter is below the count.
pub fn slot(image: &[u8], counter: u8) -> usize {
    word(image, OFFSET) as usize + SLOT * usize::from(counter)
}

/// Whether a state word of the slot is neither of the two, or root is set and counter is not.
pub fn is_bad(image: &[u8], slot: usize) -> bool {
    let root = word(image, slot + ROOT_STATE);
    let counter = word(image, slot + COUNTER_STATE);
    let is_state = |word: u32| word == SET || word == UNSET;
    !is_state(root) || !is_state(counter) || (root == SET && counter != SET)
}

/// The root key in use: 32 bytes of FFh while the root state is unset, whatever the slot holds.
pub fn root_key_in_use(image: &[u8], slot: usize) -> [u8; 32] {
    let mut key = [0xFF; 32];
    if word(image, slot + ROOT_STATE) != UNSET {
        key.copy_from_slice(&image[slot + ROOT_KEY..slot + SLOT]);
    }
    key
}
