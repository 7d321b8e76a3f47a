//! [`Engine`]: the exported calls as methods.
use std::fmt::{self, Debug, Formatter};

use crate::event::{End, Event, HostRequest, Refused, Target};
use crate::raw;
use crate::settings::Settings;

/// The longest packet, and the length of three of the stores.
const LONGEST: usize = 65_535;
/// The length of the table store.
const TABLES: usize = 320;

// Places of the numbers (crates/engine_c/specs/Words.antt).
const LAYOUT: usize = 10;
const OPEN_IDS: usize = 12;
const WINDOW: usize = 14;
const OPERATION: usize = 24;
const TARGET: usize = 36;
pub(crate) const BEGUN: usize = 41;
pub(crate) const LENGTH: usize = 42;
const TAKEN: usize = 43;
const OUTCOME: usize = 44;

/// An engine with its state and its stores.
pub struct Engine {
    // The calls write these in place. They are on the heap, so that an engine moves by its pointers.
    pub(crate) words: Box<raw::Words>,
    tables: Box<[u64]>,
    packet: Box<[u8]>,
    headers: Box<[u8]>,
    body: Box<[u8]>,
    reply: Box<[u8]>,
    realm: Box<[u8]>,
    /// The outcome of the last call that was not refused.
    last: [u64; 8],
}

macro_rules! call {
    ($self:ident, $name:ident, [$($arg:expr),*], stores) => {
        call!($self, $name, [
            $($arg,)*
            $self.packet.as_mut_ptr(), $self.packet.len(),
            $self.headers.as_mut_ptr(), $self.headers.len(),
            $self.body.as_mut_ptr(), $self.body.len(),
            $self.reply.as_mut_ptr(), $self.reply.len()
        ])
    };
    ($self:ident, $name:ident, [$($arg:expr),*]) => {{
        // SAFETY: the arguments are those that raw.rs declares. Every store is owned by `self`,
        // which is borrowed mutably, so none overlaps another or an argument; the function keeps
        // no pointer, and reads and writes nothing else (proved).
        unsafe { raw::$name(&mut *$self.words, $($arg),*) }
        $self.done()
    }};
}

impl Engine {
    /// Starts an engine with stores of its own: some 200 KB and the Put limit. The operating
    /// system gives no memory for what is never written.
    pub fn start(settings: &Settings) -> Result<Engine, Refused> {
        assert_eq!(raw::obex_engine_version(), raw::VERSION, "obex-engine: libengine_c.a is of another version");
        let realm = settings.authentication.as_ref().and_then(|a| a.realm.as_ref());
        let zeros = |n: usize| vec![0u8; n].into_boxed_slice();
        let mut engine = Engine {
            words: Box::new([0; 64]),
            tables: vec![0; TABLES].into_boxed_slice(),
            packet: zeros(LONGEST),
            headers: zeros(LONGEST),
            body: zeros(settings.max_object_size as usize),
            reply: zeros(LONGEST),
            realm: realm.map_or_else(Box::default, |(_, bytes)| bytes.clone().into_boxed_slice()),
            last: [0; 8],
        };
        engine.words[..10].copy_from_slice(&settings.numbers());
        engine.words[LAYOUT] = raw::VERSION;
        call!(engine, obex_engine_start, [engine.realm.as_ptr(), engine.realm.len(), engine.tables.as_ptr(), engine.tables.len()], stores)?;
        Ok(engine)
    }

    /// Reads what the last call left.
    #[inline]
    fn done(&mut self) -> Result<usize, Refused> {
        if self.words[OUTCOME] == 3 {
            return Err(Refused::of(self.words[OUTCOME + 1]));
        }
        self.last.copy_from_slice(&self.words[OUTCOME..OUTCOME + 8]);
        Ok(self.words[TAKEN] as usize)
    }

    /// Says what the engine waits for.
    #[inline]
    pub fn event(&self) -> Event<'_> {
        let [kind, a, b, c, d, e, f, g] = self.last;
        let n = a as usize;
        Event::Request(match kind {
            0 => return Event::WantsBytes,
            1 => return Event::Reply(&self.reply[..n]),
            2 => return Event::End(End::of(a)),
            4 => HostRequest::Connect { packet: &self.packet[..n] },
            5 => HostRequest::Disconnect { packet: &self.packet[..n] },
            6 => HostRequest::SetPath { packet: &self.packet[..n], backup: b == 1, no_create: c == 1 },
            7 => HostRequest::Abort { packet: &self.packet[..n] },
            8 => HostRequest::Put { headers: &self.headers[..n], body: (b == 1).then(|| &self.body[..c as usize]) },
            9 => HostRequest::Get { headers: &self.headers[..n] },
            10 => HostRequest::Action { headers: &self.headers[..n] },
            11 => HostRequest::Session { headers: &self.headers[..n] },
            12 => HostRequest::UserDefined { opcode: b as u8, headers: &self.headers[..n] },
            13 => HostRequest::Password { user_id: self.found(a, b, c) },
            14 => HostRequest::Nonce,
            15 => HostRequest::Credentials {
                packet: self.last_packet(),
                nonce: octets(a, b),
                user_id_required: c == 1,
                read_only: d == 1,
                realm: self.found(e, f, g),
            },
            _ => HostRequest::Read { room: n },
        })
    }

    /// The name of the event.
    fn awaits(&self) -> &'static str {
        match self.event() {
            Event::WantsBytes => "WantsBytes",
            Event::Reply(_) => "Reply",
            Event::End(_) => "End",
            Event::Request(request) => match request {
                HostRequest::Connect { .. } => "Connect",
                HostRequest::Disconnect { .. } => "Disconnect",
                HostRequest::SetPath { .. } => "SetPath",
                HostRequest::Put { .. } => "Put",
                HostRequest::Action { .. } => "Action",
                HostRequest::Session { .. } => "Session",
                HostRequest::UserDefined { .. } => "UserDefined",
                HostRequest::Get { .. } => "Get",
                HostRequest::Read { .. } => "Read",
                HostRequest::Abort { .. } => "Abort",
                HostRequest::Password { .. } => "Password",
                HostRequest::Nonce => "Nonce",
                HostRequest::Credentials { .. } => "Credentials",
            },
        }
    }

    fn found(&self, there: u64, start: u64, end: u64) -> Option<&[u8]> {
        (there == 1).then(|| &self.packet[start as usize..end as usize])
    }

    /// Returns the last whole packet.
    pub fn last_packet(&self) -> &[u8] {
        &self.packet[..self.words[LENGTH] as usize]
    }

    /// Returns the Target under which the last packet goes, which is the one that a request names; none
    /// if its connection has none, or one of over 16 bytes.
    pub fn target(&self) -> Option<Target> {
        let length = self.words[TARGET] as usize;
        (length <= 16).then(|| Target { bytes: octets(self.words[TARGET + 1], self.words[TARGET + 2]), length })
    }

    /// Tells whether no operation is open and no packet has begun.
    #[inline]
    pub fn is_at_rest(&self) -> bool {
        matches!(self.words[OPERATION], 0 | 7) && self.words[BEGUN] == 0
    }

    /// Returns how many bytes of the next packet have come. It is 0 after a packet came whole.
    #[inline]
    pub fn bytes_begun(&self) -> usize {
        self.words[BEGUN] as usize
    }

    /// Returns the ids of the connections that are open, which [`Engine::connections_closed`] takes.
    pub fn open_ids(&self) -> impl Iterator<Item = u32> + '_ {
        self.tables.iter().take(self.words[OPEN_IDS] as usize).map(|&id| id as u32)
    }

    /// Returns how many of the last 64 checks of a password were wrong. From eight on a Connect with an
    /// answer to a challenge is stopped, and the host is not asked.
    pub fn wrong_passwords(&self) -> u32 {
        self.words[WINDOW].count_ones()
    }

    /// Offers bytes of the client and returns how many were taken, never past the end of a packet.
    /// The host offers the rest again when bytes are wanted.
    #[inline]
    pub fn bytes_offered(&mut self, input: &[u8]) -> Result<usize, Refused> {
        call!(self, obex_engine_bytes_offered, [input.as_ptr(), input.len(), self.tables.as_ptr(), self.tables.len()], stores)
    }

    /// The client's stream has ended.
    pub fn stream_ended(&mut self) -> Result<(), Refused> {
        call!(self, obex_engine_stream_ended, [], stores).map(drop)
    }

    /// The reply was sent, whole.
    #[inline]
    pub fn reply_taken(&mut self) -> Result<(), Refused> {
        call!(self, obex_engine_reply_taken, [], stores).map(drop)
    }

    /// Gives a code without its top bit, and header bytes as the writer gives them.
    pub fn reply_given(&mut self, code: u8, headers: &[u8]) -> Result<(), Refused> {
        call!(self, obex_engine_reply_given, [code, headers.as_ptr(), headers.len(), self.tables.as_mut_ptr(), self.tables.len()], stores).map(drop)
    }

    /// Gives an object for a Get.
    pub fn object_given(&mut self, headers: &[u8], has_body: bool) -> Result<(), Refused> {
        call!(self, obex_engine_object_given, [headers.as_ptr(), headers.len(), has_body], stores).map(drop)
    }

    /// Gives bytes of the object's body, at most as many as there is room; none at its end.
    pub fn body_given(&mut self, chunk: &[u8]) -> Result<(), Refused> {
        call!(self, obex_engine_body_given, [chunk.as_ptr(), chunk.len()], stores).map(drop)
    }

    /// The object's body cannot be read on.
    pub fn body_failed(&mut self) -> Result<(), Refused> {
        call!(self, obex_engine_body_failed, [], stores).map(drop)
    }

    /// The host has heard of an Abort, which has no other answer.
    pub fn abort_acknowledged(&mut self) -> Result<(), Refused> {
        call!(self, obex_engine_abort_acknowledged, [], stores).map(drop)
    }

    /// Gives the password of the user, or none if the host knows no such user.
    pub fn password_given(&mut self, password: Option<&[u8]>) -> Result<(), Refused> {
        let bytes = password.unwrap_or(&[]);
        call!(self, obex_engine_password_given, [password.is_some(), bytes.as_ptr(), bytes.len()], stores).map(drop)
    }

    /// Gives sixteen fresh bytes. One of the last 32 nonces is refused with [`Refused::NonceUsed`].
    pub fn nonce_given(&mut self, nonce: [u8; 16]) -> Result<(), Refused> {
        let half = |from: usize| u64::from_be_bytes(nonce[from..from + 8].try_into().unwrap());
        let (first, second) = (half(0), half(8));
        call!(self, obex_engine_nonce_given, [
            first, second, self.realm.as_ptr(), self.realm.len(), self.tables.as_mut_ptr(), self.tables.len()
        ], stores).map(drop)
    }

    /// Gives a user id, if there is one, and a password.
    pub fn credentials_given(&mut self, given: Option<(Option<&[u8]>, &[u8])>) -> Result<(), Refused> {
        let (user, password) = given.unwrap_or((None, &[]));
        let id = user.unwrap_or(&[]);
        call!(self, obex_engine_credentials_given, [
            given.is_some(), user.is_some(), id.as_ptr(), id.len(), password.as_ptr(), password.len()
        ], stores).map(drop)
    }

    /// Closes these connections together, all or none. Bytes must be wanted, and no operation may be
    /// open; the client is not told.
    pub fn connections_closed(&mut self, ids: &[u32]) -> Result<(), Refused> {
        call!(self, obex_engine_connections_closed, [ids.as_ptr(), ids.len(), self.tables.as_mut_ptr(), self.tables.len()]).map(drop)
    }
}

/// Shows what is awaited and the open ids, and no byte of a store.
impl Debug for Engine {
    fn fmt(&self, f: &mut Formatter<'_>) -> fmt::Result {
        f.debug_struct("Engine")
            .field("awaits", &self.awaits())
            .field("is_at_rest", &self.is_at_rest())
            .field("bytes_begun", &self.bytes_begun())
            .field("open_ids", &self.open_ids().collect::<Vec<_>>())
            .field("wrong_passwords", &self.wrong_passwords())
            .finish_non_exhaustive()
    }
}

/// Returns sixteen bytes of their two halves.
fn octets(first: u64, second: u64) -> [u8; 16] {
    let mut bytes = [0; 16];
    bytes[..8].copy_from_slice(&first.to_be_bytes());
    bytes[8..].copy_from_slice(&second.to_be_bytes());
    bytes
}
