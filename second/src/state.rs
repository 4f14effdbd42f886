//! The state of the device between two calls: status, reset-enable, reply, session keys, chaining
//! words, and the job.

use crate::layout;

/// The kinds of job. The first four are a root key frame's, by its key and by whether it sets the counter.
#[derive(Clone, Copy, PartialEq)]
pub enum Kind {
    RootKeyAndCounter,
    RootKey,
    TemporaryKeyAndCounter,
    TemporaryKey,
    SessionKey,
    Increment,
    Request,
}

impl Kind {
    /// The steps of a job of this kind that fails no check.
    pub fn length(self) -> u8 {
        match self {
            Kind::RootKeyAndCounter => 15,
            Kind::RootKey => 13,
            Kind::TemporaryKeyAndCounter => 6,
            Kind::TemporaryKey => 4,
            Kind::SessionKey => 8,
            Kind::Increment => 5,
            Kind::Request => 8,
        }
    }

    /// The type of the frame that makes a job of this kind.
    pub fn frame_type(self) -> u8 {
        match self {
            Kind::SessionKey => layout::SESSION_KEY,
            Kind::Increment => layout::INCREMENT,
            Kind::Request => layout::REQUEST,
            _ => layout::ROOT_KEY,
        }
    }
}

/// The work on a taken frame that passed checks 1 to 7. While `there` is false the other fields
/// mean nothing.
#[derive(Clone, Copy)]
pub struct Job {
    pub there: bool,
    pub kind: Kind,
    pub counter: u8,
    /// The number of steps done.
    pub step: u8,
    /// From step 4 on: an increment's word to store, a request's value to report.
    pub kept: u32,
    /// The chaining words after the second block of the last HMAC that got so far.
    pub inner: [u32; 8],
    /// The frame, zero-filled.
    pub frame: [u8; 64],
    /// The root key in use when the frame arrived.
    pub root_key: [u8; 32],
    /// The new session key, from step 4 of a session key job on.
    pub made_key: [u8; 32],
}

/// No job.
pub const NO_JOB: Job = Job {
    there: false,
    kind: Kind::TemporaryKey,
    counter: 0,
    step: 0,
    kept: 0,
    inner: [0; 8],
    frame: [0; 64],
    root_key: [0; 32],
    made_key: [0; 32],
};

/// The reply to the last request: tag, counter value, signature. Zeros if it is not there.
#[derive(Clone, Copy)]
pub struct Reply {
    pub there: bool,
    pub bytes: [u8; 48],
}

/// No reply.
pub const NO_REPLY: Reply = Reply {
    there: false,
    bytes: [0; 48],
};

/// The session key of a counter. Zeros if it is not there.
#[derive(Clone, Copy)]
pub struct SessionKey {
    pub there: bool,
    pub bytes: [u8; 32],
}

/// No session key.
pub const NO_SESSION_KEY: SessionKey = SessionKey {
    there: false,
    bytes: [0; 32],
};

/// The state of the device.
#[derive(Clone, Copy)]
pub struct State {
    pub status: u8,
    pub reset_enabled: bool,
    pub job: Job,
    pub reply: Reply,
    pub session_keys: [SessionKey; 4],
    /// The chaining words after the last hash step.
    pub chain: [u32; 8],
}

/// The power-on state.
pub const POWER_ON: State = State {
    status: 0x00,
    reset_enabled: false,
    job: NO_JOB,
    reply: NO_REPLY,
    session_keys: [NO_SESSION_KEY; 4],
    chain: [0; 8],
};
