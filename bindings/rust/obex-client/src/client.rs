//! [`Client`]: the exported calls as methods.
use std::fmt::{self, Debug, Formatter};

use crate::event::{End, Event, Refused};
use crate::raw;

/// The settings at the start, which stay.
#[derive(Debug, Clone, Copy, PartialEq, Eq)]
pub struct Settings {
    /// The largest packet that this side takes, as Connect tells the server.
    pub max_packet_length: u16,
    /// Whether Single Response Mode is asked for in each Put and Get.
    pub single_response_mode: bool,
}

impl Default for Settings {
    /// Packets of 65,535 bytes, without Single Response Mode.
    fn default() -> Settings {
        Settings { max_packet_length: u16::MAX, single_response_mode: false }
    }
}

/// The length of each store.
const LONGEST: usize = 65_535;

// Places of the numbers (crates/client_c/specs/Words.antt).
const LAYOUT: usize = 2;
const CONNECTION_ID: usize = 5;
const TAKEN: usize = 24;
const OUTCOME: usize = 25;

/// A client with its state and its stores.
pub struct Client {
    // The calls write these in place. They are on the heap, so that a client moves by its pointers.
    words: Box<raw::Words>,
    packet: Box<[u8]>,
    headers: Box<[u8]>,
    body: Box<[u8]>,
    request: Box<[u8]>,
    /// The outcome of the last call that was not refused.
    last: [u64; 4],
}

macro_rules! call {
    ($self:ident, $name:ident, [$($arg:expr),*]) => {{
        // SAFETY: the arguments are those that raw.rs declares. Every store is owned by `self`,
        // which is borrowed mutably, so none overlaps another or an argument; the function keeps
        // no pointer, and reads and writes nothing else (proved).
        unsafe {
            raw::$name(
                &mut *$self.words, $($arg,)*
                $self.packet.as_mut_ptr(), $self.packet.len(),
                $self.headers.as_mut_ptr(), $self.headers.len(),
                $self.body.as_mut_ptr(), $self.body.len(),
                $self.request.as_mut_ptr(), $self.request.len(),
            )
        }
        $self.done()
    }};
}

impl Client {
    /// Starts a client with stores of its own, some 260 KB.
    pub fn start(settings: &Settings) -> Result<Client, Refused> {
        assert_eq!(raw::obex_client_version(), raw::VERSION, "obex-client: libclient_c.a is of another version");
        let store = || vec![0u8; LONGEST].into_boxed_slice();
        let mut client =
            Client { words: Box::new([0; 32]), packet: store(), headers: store(), body: store(), request: store(), last: [0; 4] };
        client.words[0] = settings.max_packet_length.into();
        client.words[1] = settings.single_response_mode.into();
        client.words[LAYOUT] = raw::VERSION;
        call!(client, obex_client_start, [])?;
        Ok(client)
    }

    /// Reads what the last call left.
    fn done(&mut self) -> Result<usize, Refused> {
        if self.words[OUTCOME] == 3 {
            return Err(Refused::of(self.words[OUTCOME + 1]));
        }
        self.last.copy_from_slice(&self.words[OUTCOME..OUTCOME + 4]);
        Ok(self.words[TAKEN] as usize)
    }

    /// Says what the client waits for, or what came of an operation.
    pub fn event(&self) -> Event<'_> {
        let [kind, a, b, c] = self.last;
        let (code, packet) = (a as u8, |length: u64| &self.packet[..length as usize]);
        match kind {
            0 => Event::WantsBytes,
            1 => Event::Send(&self.request[..a as usize]),
            2 => Event::End(End::of(a)),
            4 => Event::Ready,
            5 => Event::Read { room: a as usize },
            6 => Event::Part { headers: &self.headers[..a as usize], body: (b == 1).then(|| &self.body[..c as usize]) },
            7 => Event::Done { code, packet: packet(b) },
            8 => Event::Stopped { code, packet: packet(b) },
            _ => Event::Aborted { code, packet: packet(b) },
        }
    }

    /// Returns the id of the connection, if the server gave one.
    pub fn connection_id(&self) -> Option<u32> {
        (self.words[CONNECTION_ID] == 1).then_some(self.words[CONNECTION_ID + 1] as u32)
    }

    /// Begins a Connect with these headers.
    pub fn connect(&mut self, headers: &[u8]) -> Result<(), Refused> {
        call!(self, obex_client_connect, [headers.as_ptr(), headers.len()]).map(drop)
    }

    /// Begins a Disconnect with these headers.
    pub fn disconnect(&mut self, headers: &[u8]) -> Result<(), Refused> {
        call!(self, obex_client_disconnect, [headers.as_ptr(), headers.len()]).map(drop)
    }

    /// Begins a Put with these headers, with a body or without.
    pub fn put(&mut self, headers: &[u8], has_body: bool) -> Result<(), Refused> {
        call!(self, obex_client_put, [headers.as_ptr(), headers.len(), has_body]).map(drop)
    }

    /// Begins a Get with these headers.
    pub fn get(&mut self, headers: &[u8]) -> Result<(), Refused> {
        call!(self, obex_client_get, [headers.as_ptr(), headers.len()]).map(drop)
    }

    /// The packet was sent, whole.
    pub fn request_sent(&mut self) -> Result<(), Refused> {
        call!(self, obex_client_request_sent, []).map(drop)
    }

    /// Gives bytes of the body that is put, at most as many as there is room; none at its end.
    pub fn body_given(&mut self, bytes: &[u8]) -> Result<(), Refused> {
        call!(self, obex_client_body_given, [bytes.as_ptr(), bytes.len()]).map(drop)
    }

    /// Offers bytes of the server and returns how many were taken, never past the end of a response.
    /// The user offers the rest again when bytes are wanted.
    pub fn bytes_offered(&mut self, input: &[u8]) -> Result<usize, Refused> {
        call!(self, obex_client_bytes_offered, [input.as_ptr(), input.len()])
    }

    /// The server's stream has ended.
    pub fn stream_ended(&mut self) -> Result<(), Refused> {
        call!(self, obex_client_stream_ended, []).map(drop)
    }

    /// The user has taken the part of an object.
    pub fn part_taken(&mut self) -> Result<(), Refused> {
        call!(self, obex_client_part_taken, []).map(drop)
    }

    /// Gives the operation up. Where a packet waits, no byte of it may have been written.
    pub fn abort(&mut self) -> Result<(), Refused> {
        call!(self, obex_client_abort, []).map(drop)
    }
}

/// Shows what is awaited, and no byte of a store.
impl Debug for Client {
    fn fmt(&self, f: &mut Formatter<'_>) -> fmt::Result {
        let awaits = match self.event() {
            Event::Ready => "Ready",
            Event::Send(_) => "Send",
            Event::WantsBytes => "WantsBytes",
            Event::Read { .. } => "Read",
            Event::Part { .. } => "Part",
            Event::Done { .. } => "Done",
            Event::Stopped { .. } => "Stopped",
            Event::Aborted { .. } => "Aborted",
            Event::End(_) => "End",
        };
        f.debug_struct("Client").field("awaits", &awaits).field("connection_id", &self.connection_id()).finish_non_exhaustive()
    }
}
