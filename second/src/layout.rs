//! The layouts of the four OP1 frames, which both ends use. Byte 0 is 9Bh, byte 1 the type, byte 2
//! the counter, byte 3 reserved.

/// The first byte of an OP1 frame.
pub const OP1: u8 = 0x9B;

/// The type byte of each frame.
pub const ROOT_KEY: u8 = 0;
pub const SESSION_KEY: u8 = 1;
pub const INCREMENT: u8 = 2;
pub const REQUEST: u8 = 3;

/// A frame's length, the length of its signed message, which is its front, and the place where
/// its signature begins, which goes to its end.
pub struct Layout {
    pub length: usize,
    pub message: usize,
    pub signature: usize,
}

const fn layout(length: usize, message: usize, signature: usize) -> Layout {
    Layout {
        length,
        message,
        signature,
    }
}

/// The layouts by type.
pub static LAYOUTS: [Layout; 4] = [
    layout(64, 4, 36),
    layout(40, 8, 8),
    layout(40, 8, 8),
    layout(48, 16, 16),
];

/// The part of a digest that stands in a frame: its last bytes, 28 for type 00, else all 32.
pub fn signature_of(frame_type: u8, digest: &[u8; 32]) -> &[u8] {
    let layout = &LAYOUTS[usize::from(frame_type)];
    &digest[digest.len() - (layout.length - layout.signature)..]
}
