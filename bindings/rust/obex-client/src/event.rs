//! What a client waits for, how it ends, and why it refuses a call.
use std::error::Error;
use std::fmt::{self, Display, Formatter};

/// What the client waits for, or what came of an operation. It stays the same until a call is accepted.
#[derive(Debug, Clone, Copy, PartialEq, Eq)]
pub enum Event<'a> {
    /// An operation: [`connect`](crate::Client::connect), [`put`](crate::Client::put), [`get`](crate::Client::get),
    /// [`disconnect`](crate::Client::disconnect).
    Ready,
    /// A packet to be sent, whole, then [`request_sent`](crate::Client::request_sent).
    Send(&'a [u8]),
    /// [`bytes_offered`](crate::Client::bytes_offered) or [`stream_ended`](crate::Client::stream_ended).
    WantsBytes,
    /// [`body_given`](crate::Client::body_given).
    Read {
        /// How many bytes may be given. None at all end the body.
        room: usize,
    },
    /// A part of an object came, then [`part_taken`](crate::Client::part_taken).
    Part {
        /// The part's headers.
        headers: &'a [u8],
        /// The part's bytes of the body. Without a body header there are none.
        body: Option<&'a [u8]>,
    },
    /// The operation is over, with the server's code. The next one may be called.
    Done {
        /// The code, without its top bit: 0x20 to 0x2F are successes.
        code: u8,
        /// The response, whole.
        packet: &'a [u8],
    },
    /// The server ended a Put before its last packet. The next operation may be called.
    Stopped {
        /// The code, without its top bit.
        code: u8,
        /// The response, whole.
        packet: &'a [u8],
    },
    /// The operation was aborted. The next one may be called.
    Aborted {
        /// The server's last code, without its top bit.
        code: u8,
        /// The response, whole.
        packet: &'a [u8],
    },
    /// No call any more.
    End(End),
}

/// Why the client has ended.
#[derive(Debug, Clone, Copy, PartialEq, Eq, Hash)]
#[repr(u8)]
pub enum End {
    /// The server's stream ended between two responses.
    Disconnected = 1,
    /// The server's stream ended inside a response.
    Truncated = 2,
    /// A response's length field was under 3.
    LengthTooSmall = 3,
    /// A response could not be read.
    Unreadable = 23,
    /// The header store was changed inside an operation, which does not happen here.
    HeadersChanged = 24,
}

impl End {
    /// The number of the end in `docs/CLIENT.md`.
    pub fn number(self) -> u8 {
        self as u8
    }

    pub(crate) fn of(number: u64) -> End {
        match number {
            1 => End::Disconnected,
            2 => End::Truncated,
            3 => End::LengthTooSmall,
            23 => End::Unreadable,
            _ => End::HeadersChanged,
        }
    }
}

impl Display for End {
    fn fmt(&self, f: &mut Formatter<'_>) -> fmt::Result {
        f.write_str(match self {
            End::Disconnected => "the server's stream ended between two responses",
            End::Truncated => "the server's stream ended inside a response",
            End::LengthTooSmall => "a response's length field was under 3",
            End::Unreadable => "a response could not be read",
            End::HeadersChanged => "the header store was changed inside an operation",
        })?;
        write!(f, " (end {})", self.number())
    }
}

impl Error for End {}

/// A call that was refused. State, stores and event are as before.
#[derive(Debug, Clone, Copy, PartialEq, Eq, Hash)]
#[repr(u8)]
pub enum Refused {
    /// Headers that a user may not give: too long, not as the writer gives them, or the client's own.
    BadHeaders = 8,
    /// The call is not one that is awaited.
    WrongMoment = 9,
    /// A store is too short, which does not happen here.
    StoreTooShort = 10,
    /// A header is over what a packet to this server can carry.
    HeaderTooLong = 24,
}

impl Refused {
    /// The number of the refusal in `docs/CLIENT.md`.
    pub fn number(self) -> u8 {
        self as u8
    }

    pub(crate) fn of(number: u64) -> Refused {
        match number {
            8 => Refused::BadHeaders,
            9 => Refused::WrongMoment,
            10 => Refused::StoreTooShort,
            _ => Refused::HeaderTooLong,
        }
    }
}

impl Display for Refused {
    fn fmt(&self, f: &mut Formatter<'_>) -> fmt::Result {
        f.write_str(match self {
            Refused::BadHeaders => "the headers are none that a user may give",
            Refused::WrongMoment => "the call is not one that the client waits for",
            Refused::StoreTooShort => "a store is too short",
            Refused::HeaderTooLong => "a header is over what a packet to this server can carry",
        })?;
        write!(f, " (refusal {})", self.number())
    }
}

impl Error for Refused {}
