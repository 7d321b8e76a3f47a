//! What an engine waits for, how it ends, and why it refuses a call.
use std::error::Error;
use std::fmt::{self, Display, Formatter};

/// What the engine waits for. It stays the same until a call is accepted.
#[derive(Debug, Clone, Copy, PartialEq, Eq)]
pub enum Event<'a> {
    /// [`bytes_offered`](crate::Engine::bytes_offered) or [`stream_ended`](crate::Engine::stream_ended).
    WantsBytes,
    /// A packet to be sent, then [`reply_taken`](crate::Engine::reply_taken).
    Reply(&'a [u8]),
    /// The call that [`HostRequest`] names.
    Request(HostRequest<'a>),
    /// No call any more.
    End(End),
}

/// What the host is asked, with the call that answers it.
#[derive(Debug, Clone, Copy, PartialEq, Eq)]
pub enum HostRequest<'a> {
    /// [`reply_given`](crate::Engine::reply_given): is this Connect accepted?
    Connect {
        /// The client's packet, whole. Its headers start at byte 7.
        packet: &'a [u8],
    },
    /// [`reply_given`](crate::Engine::reply_given).
    Disconnect {
        /// The client's packet, whole. Its headers start at byte 3.
        packet: &'a [u8],
    },
    /// [`reply_given`](crate::Engine::reply_given).
    SetPath {
        /// The client's packet, whole. Its headers start at byte 5.
        packet: &'a [u8],
        /// Whether the client goes up a folder first.
        backup: bool,
        /// Whether a folder that is missing is not to be made.
        no_create: bool,
    },
    /// [`reply_given`](crate::Engine::reply_given). The Put is whole: this is its record.
    Put {
        /// The kept headers, as received.
        headers: &'a [u8],
        /// The body. Without a body header there is none.
        body: Option<&'a [u8]>,
    },
    /// [`reply_given`](crate::Engine::reply_given).
    Action {
        /// The kept headers, as received.
        headers: &'a [u8],
    },
    /// [`reply_given`](crate::Engine::reply_given).
    Session {
        /// The kept headers, as received.
        headers: &'a [u8],
    },
    /// [`reply_given`](crate::Engine::reply_given).
    UserDefined {
        /// Which of the sixteen operations: 0x10 to 0x1F.
        opcode: u8,
        /// The kept headers, as received.
        headers: &'a [u8],
    },
    /// [`object_given`](crate::Engine::object_given), or [`reply_given`](crate::Engine::reply_given) to refuse.
    Get {
        /// The kept headers, as received.
        headers: &'a [u8],
    },
    /// [`body_given`](crate::Engine::body_given), or [`body_failed`](crate::Engine::body_failed).
    Read {
        /// How many bytes may be given. None at all end the body.
        room: usize,
    },
    /// [`abort_acknowledged`](crate::Engine::abort_acknowledged).
    Abort {
        /// The client's packet, whole. Its headers start at byte 3.
        packet: &'a [u8],
    },
    /// [`password_given`](crate::Engine::password_given).
    Password {
        /// The user whom the client names.
        user_id: Option<&'a [u8]>,
    },
    /// [`nonce_given`](crate::Engine::nonce_given), with sixteen bytes that were never used.
    Nonce,
    /// [`credentials_given`](crate::Engine::credentials_given): the client challenges this server.
    Credentials {
        /// The Connect that carries the challenge.
        packet: &'a [u8],
        /// The challenge's nonce.
        nonce: [u8; 16],
        /// Whether the answer has to name a user.
        user_id_required: bool,
        /// Whether access is read only.
        read_only: bool,
        /// The challenge's realm, its charset byte first.
        realm: Option<&'a [u8]>,
    },
}

impl HostRequest<'_> {
    /// Says whether [`reply_given`](crate::Engine::reply_given) answers this request. It does not for
    /// `Read`, `Abort`, `Password`, `Nonce` and `Credentials`, which have calls of their own.
    pub fn takes_reply(&self) -> bool {
        !matches!(
            self,
            HostRequest::Read { .. } | HostRequest::Abort { .. } | HostRequest::Password { .. } | HostRequest::Nonce | HostRequest::Credentials { .. }
        )
    }
}

/// Why the engine has ended.
#[derive(Debug, Clone, Copy, PartialEq, Eq, Hash)]
#[repr(u8)]
pub enum End {
    /// The client's stream ended between two packets.
    Disconnected = 1,
    /// The client's stream ended inside a packet.
    Truncated = 2,
    /// A packet's length field was under 3.
    LengthTooSmall = 3,
    /// A packet inside an open operation could not be read; [`last_packet`](crate::Engine::last_packet) has it.
    Unreadable = 4,
    /// A packet inside an open operation had another opcode.
    OtherOperation = 5,
    /// An operation's kept headers were over 65,535 bytes.
    HeadersTooLarge = 6,
    /// A reply was over 65,535 bytes.
    ReplyTooLarge = 7,
}

impl End {
    /// The number of the end in `docs/PROTOCOL.md`.
    pub fn number(self) -> u8 {
        self as u8
    }

    pub(crate) fn of(number: u64) -> End {
        match number {
            1 => End::Disconnected,
            2 => End::Truncated,
            3 => End::LengthTooSmall,
            4 => End::Unreadable,
            5 => End::OtherOperation,
            6 => End::HeadersTooLarge,
            _ => End::ReplyTooLarge,
        }
    }
}

impl Display for End {
    fn fmt(&self, f: &mut Formatter<'_>) -> fmt::Result {
        f.write_str(match self {
            End::Disconnected => "the client's stream ended between two packets",
            End::Truncated => "the client's stream ended inside a packet",
            End::LengthTooSmall => "a packet's length field was under 3",
            End::Unreadable => "a packet inside an open operation could not be read",
            End::OtherOperation => "a packet inside an open operation had another opcode",
            End::HeadersTooLarge => "an operation's kept headers were over 65,535 bytes",
            End::ReplyTooLarge => "a reply was over 65,535 bytes",
        })?;
        write!(f, " (end {})", self.number())
    }
}

impl Error for End {}

/// A call that was refused. State, stores and event are as before.
#[derive(Debug, Clone, Copy, PartialEq, Eq, Hash)]
#[repr(u8)]
pub enum Refused {
    /// The answer is none that a host may give: a code that is none, header bytes that are too long or
    /// not as the writer gives them, a user id over 255 bytes, a realm over 254.
    BadAnswer = 8,
    /// The call is not the one that the event asks for.
    WrongMoment = 9,
    /// A store is too short, which does not happen here.
    StoreTooShort = 10,
    /// The nonce is one of the last 32 that were taken.
    NonceUsed = 15,
    /// Over 64 ids are to be closed together.
    TooManyIds = 19,
    /// An id that is to be closed is not open.
    IdNotOpen = 20,
    /// An id that is to be closed occurs twice.
    IdRepeated = 21,
}

impl Refused {
    /// The number of the refusal in `docs/PROTOCOL.md`.
    pub fn number(self) -> u8 {
        self as u8
    }

    pub(crate) fn of(number: u64) -> Refused {
        match number {
            8 => Refused::BadAnswer,
            9 => Refused::WrongMoment,
            10 => Refused::StoreTooShort,
            15 => Refused::NonceUsed,
            19 => Refused::TooManyIds,
            20 => Refused::IdNotOpen,
            _ => Refused::IdRepeated,
        }
    }
}

impl Display for Refused {
    fn fmt(&self, f: &mut Formatter<'_>) -> fmt::Result {
        f.write_str(match self {
            Refused::BadAnswer => "the answer cannot be sent as it is",
            Refused::WrongMoment => "the call is not the one that the engine waits for",
            Refused::StoreTooShort => "a store is too short",
            Refused::NonceUsed => "the nonce is one of the last 32 that were taken",
            Refused::TooManyIds => "over 64 ids are to be closed together",
            Refused::IdNotOpen => "an id that is to be closed is not open",
            Refused::IdRepeated => "an id that is to be closed occurs twice",
        })?;
        write!(f, " (refusal {})", self.number())
    }
}

impl Error for Refused {}

/// The Target of a connection, at most 16 bytes.
#[derive(Debug, Clone, Copy, PartialEq, Eq)]
pub struct Target {
    pub(crate) bytes: [u8; 16],
    pub(crate) length: usize,
}

impl Target {
    /// The Target's bytes.
    pub fn as_bytes(&self) -> &[u8] {
        &self.bytes[..self.length]
    }
}
