//! [`Server`], by the original's names.
use std::fmt::{self, Debug, Formatter};
use std::io::{self, Read, Write};

use obex_engine::{Authentication as EngineAuthentication, End, Engine, Event, HostRequest, Refused, Settings};
use obex_protocol::auth::{generate_nonce, DigestChallenge};
use obex_protocol::error::{Error, Result};
use obex_protocol::header::Headers;
use obex_protocol::opcode::Opcode;
use obex_protocol::packet::{Request, Response, MAXIMUM_PACKET_LENGTH, MINIMUM_PACKET_LENGTH};
pub use obex_protocol::server::{Authentication, Body, Handler, Object};

use crate::observer::{Observer, Record};

/// As the original's, so that sequenced packet sockets never truncate a message.
const READ_BUFFER_LENGTH: usize = u16::MAX as usize + 1;

/// Answers OBEX requests arriving over `T` and hands complete operations to `H`. What a [`Handler`] is
/// not told, `O` is: see [`Server::with_observer`].
pub struct Server<T, H, O = ()> {
    transport: T,
    handler: H,
    observer: O,
    settings: Settings,
    user_id_enforced: bool,
    /// Made at the first call that reads, so that no store is allocated before the settings are final.
    engine: Option<Engine>,
    /// What was read, and which part of it is not taken yet.
    input: Box<[u8]>,
    from: usize,
    to: usize,
    /// Header bytes for the engine, and body bytes.
    scratch: Vec<u8>,
    /// An error or a panic left the session where it cannot go on.
    broken: bool,
    nonces: fn() -> [u8; 16],
}

impl<T: Read + Write, H: Handler> Server<T, H> {
    /// Creates a server that talks over `transport` and hands requests to `handler`.
    pub fn new(transport: T, handler: H) -> Server<T, H> {
        Server {
            transport,
            handler,
            observer: (),
            settings: Settings::default(),
            user_id_enforced: false,
            engine: None,
            input: vec![0; READ_BUFFER_LENGTH].into_boxed_slice(),
            from: 0,
            to: 0,
            scratch: Vec::new(),
            broken: false,
            nonces: generate_nonce,
        }
    }
}

impl<T: Read + Write, H: Handler, O: Observer> Server<T, H, O> {
    /// Sets the observer, which is told of packets, records, wrong passwords and the end. Not in the original.
    pub fn with_observer<P: Observer>(self, observer: P) -> Server<T, H, P> {
        Server {
            transport: self.transport,
            handler: self.handler,
            observer,
            settings: self.settings,
            user_id_enforced: self.user_id_enforced,
            engine: self.engine,
            input: self.input,
            from: self.from,
            to: self.to,
            scratch: self.scratch,
            broken: self.broken,
            nonces: self.nonces,
        }
    }

    /// Sets where nonces come from: each must be new. Not in the original, which makes its own; so does
    /// this, by the same function, where nothing else is set.
    pub fn with_nonces(mut self, nonces: fn() -> [u8; 16]) -> Self {
        self.nonces = nonces;
        self
    }

    /// Sets the largest packet that this side takes, at least 255.
    pub fn with_max_packet_length(mut self, max_packet_length: u16) -> Self {
        self.settings.max_packet_length = max_packet_length.max(MINIMUM_PACKET_LENGTH);
        self
    }

    /// Sets whether Single Response Mode is granted to a client that asks for it.
    pub fn with_single_response_mode(mut self, enabled: bool) -> Self {
        self.settings.single_response_mode = enabled;
        self
    }

    /// Requires a password, which [`Handler::password`] gives.
    pub fn with_authentication(mut self, authentication: Authentication) -> Self {
        self.settings.authentication = Some(EngineAuthentication {
            realm: authentication.realm.map(|realm| (realm.charset, realm.value)),
            user_id_required: authentication.user_id_required,
            read_only: authentication.read_only,
            user_id_enforced: false,
        });
        self
    }

    /// Sets the largest Put body. Above 4,294,967,295 it is taken as that.
    pub fn with_max_object_size(mut self, max_object_size: usize) -> Self {
        self.settings.max_object_size = max_object_size.try_into().unwrap_or(u32::MAX);
        self
    }

    /// Sets whether packets that trail a Put that was too long are refused with it. If not, their bodies
    /// reach the handler as a record of their own. An archive wants it on. Not in the original.
    pub fn with_refuse_trailing(mut self, enabled: bool) -> Self {
        self.settings.refuse_trailing = enabled;
        self
    }

    /// Sets whether a response without a user id fails if [`Authentication`] requires one. Not in the original.
    pub fn with_user_id_enforced(mut self, enabled: bool) -> Self {
        self.user_id_enforced = enabled;
        self
    }

    /// The settings with which the engine starts, or has started.
    pub fn settings(&self) -> Settings {
        let mut settings = self.settings.clone();
        if let Some(authentication) = &mut settings.authentication {
            authentication.user_id_enforced = self.user_id_enforced;
        }
        settings
    }

    /// Returns the handler.
    pub fn handler(&self) -> &H {
        &self.handler
    }

    /// Returns the handler, to change it.
    pub fn handler_mut(&mut self) -> &mut H {
        &mut self.handler
    }

    /// Returns the observer.
    pub fn observer(&self) -> &O {
        &self.observer
    }

    /// Returns the transport.
    pub fn get_ref(&self) -> &T {
        &self.transport
    }

    /// Takes the server apart.
    pub fn into_parts(self) -> (T, H) {
        (self.transport, self.handler)
    }

    /// Returns the ids of the connections that are open; none before the first packet. Not in the original.
    pub fn open_ids(&self) -> Vec<u32> {
        self.engine.as_ref().map_or(Vec::new(), |engine| engine.open_ids().collect())
    }

    /// Closes these connections together, all or none, between two calls of [`Server::handle_next`]; the
    /// client is not told. Not in the original.
    pub fn connections_closed(&mut self, ids: &[u32]) -> std::result::Result<(), Refused> {
        match &mut self.engine {
            Some(engine) if !self.broken => {
                engine.connections_closed(ids)?;
                self.observer.connections_closed(ids);
                Ok(())
            }
            _ => Err(Refused::WrongMoment),
        }
    }

    /// Serves requests until the client closes the transport.
    pub fn run(&mut self) -> Result<()> {
        loop {
            match self.handle_next() {
                Ok(()) => {}
                Err(Error::Disconnected) => return Ok(()),
                Err(error) => return Err(error),
            }
        }
    }

    /// Reads one request and serves the operation it starts.
    pub fn handle_next(&mut self) -> Result<()> {
        if self.broken {
            return Err(Error::Protocol("the server has ended"));
        }
        // Stays so if the handler panics or the transport fails.
        self.broken = true;
        let mut engine = match self.engine.take() {
            Some(engine) => engine,
            None => self.start()?,
        };
        let result = self.operation(&mut engine);
        self.broken = result.is_err();
        self.engine = Some(engine);
        result
    }

    /// Starts the engine with the settings, which are final then.
    fn start(&mut self) -> Result<Engine> {
        let settings = self.settings();
        let engine = Engine::start(&settings).map_err(|_| Error::Protocol("the realm is over 254 bytes"))?;
        self.observer.started(&settings);
        Ok(engine)
    }

    /// Up to the end of one operation.
    fn operation(&mut self, engine: &mut Engine) -> Result<()> {
        let mut begun = false;
        // The body of the object that is being sent. It lives as long as its operation, so that a
        // server is Send where transport and handler are, as the original is.
        let mut object: Option<Box<dyn Read>> = None;
        loop {
            match engine.event() {
                Event::WantsBytes => {
                    if begun && engine.is_at_rest() {
                        return Ok(());
                    }
                    if self.from == self.to && !self.fill()? {
                        engine.stream_ended().map_err(refused)?;
                        continue;
                    }
                    let taken = engine.bytes_offered(&self.input[self.from..self.to]).map_err(refused)?;
                    tell(&mut self.observer, engine, &self.input[self.from..self.from + taken]);
                    self.from += taken;
                    begun = true;
                }
                Event::Reply(bytes) => {
                    self.transport.write_all(bytes)?;
                    self.transport.flush()?;
                    self.observer.reply_sent(bytes);
                    engine.reply_taken().map_err(refused)?;
                }
                Event::Request(_) => self.answer(engine, &mut object)?,
                Event::End(end) => {
                    self.observer.ended(end);
                    return Err(error(end, engine));
                }
            }
        }
    }

    /// Reads once; whether there were bytes.
    fn fill(&mut self) -> Result<bool> {
        loop {
            match self.transport.read(&mut self.input) {
                Ok(read) => {
                    self.from = 0;
                    self.to = read;
                    return Ok(read > 0);
                }
                Err(error) if error.kind() == io::ErrorKind::Interrupted => {}
                Err(error) => return Err(error.into()),
            }
        }
    }

    fn answer(&mut self, engine: &mut Engine, object: &mut Option<Box<dyn Read>>) -> Result<()> {
        let Event::Request(request) = engine.event() else { return Ok(()) };
        let handler = &mut self.handler;
        let response = match request {
            HostRequest::Connect { packet } => handler.connect(&parsed(packet)?),
            HostRequest::Disconnect { packet } => handler.disconnect(&parsed(packet)?),
            HostRequest::SetPath { packet, .. } => handler.set_path(&parsed(packet)?),
            HostRequest::Put { headers, body } => {
                self.observer.record(Record { headers, body, target: engine.target() });
                handler.put(&gathered(Opcode::Put, headers)?, body.map(<[u8]>::to_vec))
            }
            HostRequest::Action { headers } => handler.action(&gathered(Opcode::Action, headers)?),
            HostRequest::Session { headers } => handler.session(&gathered(Opcode::Session, headers)?),
            HostRequest::UserDefined { opcode, headers } => handler.user_defined(&gathered(Opcode::UserDefined(opcode), headers)?),
            HostRequest::Get { headers } => match handler.get(&gathered(Opcode::Get, headers)?) {
                Ok(Object { headers, body }) => {
                    self.scratch.clear();
                    headers.encode(&mut self.scratch)?;
                    *object = body.map(|body| match body {
                        Body::Bytes(bytes) => Box::new(io::Cursor::new(bytes)) as Box<dyn Read>,
                        Body::Reader(reader) => reader,
                    });
                    engine.object_given(&self.scratch, object.is_some()).map_err(refused)?;
                    self.observer.object_given();
                    return Ok(());
                }
                Err(response) => response,
            },
            HostRequest::Read { room } => return self.read_object(engine, room, object),
            HostRequest::Abort { packet } => {
                handler.abort(&parsed(packet)?);
                *object = None;
                return engine.abort_acknowledged().map_err(refused);
            }
            HostRequest::Password { user_id } => {
                let password = handler.password(user_id);
                let user_id = user_id.map(<[u8]>::to_vec);
                engine.password_given(password.as_deref()).map_err(refused)?;
                // A wrong password is followed by another challenge.
                let right = engine.event() != Event::Request(HostRequest::Nonce);
                self.observer.password_checked(user_id.as_deref(), right);
                return Ok(());
            }
            HostRequest::Nonce => return self.challenge(engine),
            HostRequest::Credentials { packet, .. } => {
                let request = parsed(packet)?;
                let challenge = DigestChallenge::find_all(&request.headers).ok().and_then(|all| all.into_iter().next());
                let credentials = challenge.and_then(|challenge| handler.credentials(&challenge));
                let given = credentials.as_ref().map(|c| (c.user_id.as_deref(), c.password.as_slice()));
                return engine.credentials_given(given).map_err(refused);
            }
        };
        self.respond(engine, response)
    }

    fn respond(&mut self, engine: &mut Engine, response: Response) -> Result<()> {
        self.scratch.clear();
        response.headers.encode(&mut self.scratch)?;
        if self.scratch.len() > usize::from(MAXIMUM_PACKET_LENGTH) {
            return Err(Error::PacketTooLarge { length: 3 + self.scratch.len(), maximum: MAXIMUM_PACKET_LENGTH.into() });
        }
        engine.reply_given(response.code.into(), &self.scratch).map_err(refused)?;
        self.observer.reply_given(response.code.into(), &self.scratch);
        Ok(())
    }

    /// Gives a nonce. One of the last 32 is refused, so among 33 different ones one is taken.
    fn challenge(&mut self, engine: &mut Engine) -> Result<()> {
        for _ in 0..33 {
            let nonce = (self.nonces)();
            match engine.nonce_given(nonce) {
                Err(Refused::NonceUsed) => {}
                Err(other) => return Err(refused(other)),
                Ok(()) => {
                    self.observer.nonce_given(nonce);
                    return Ok(());
                }
            }
        }
        Err(Error::Protocol("the source of nonces gives the same ones again"))
    }

    fn read_object(&mut self, engine: &mut Engine, room: usize, object: &mut Option<Box<dyn Read>>) -> Result<()> {
        if self.scratch.len() < room {
            self.scratch.resize(room, 0);
        }
        let Some(object) = object.as_mut() else {
            return engine.body_given(&[]).map_err(refused);
        };
        loop {
            match object.read(&mut self.scratch[..room]) {
                Ok(read) => return engine.body_given(&self.scratch[..read]).map_err(refused),
                Err(error) if error.kind() == io::ErrorKind::Interrupted => {}
                Err(_) => return engine.body_failed().map_err(refused),
            }
        }
    }
}

/// Shows the settings and the engine; the transport, handler and observer need not be Debug.
impl<T, H, O> Debug for Server<T, H, O> {
    fn fmt(&self, f: &mut Formatter<'_>) -> fmt::Result {
        f.debug_struct("Server")
            .field("settings", &self.settings)
            .field("user_id_enforced", &self.user_id_enforced)
            .field("engine", &self.engine)
            .field("has_ended", &self.broken)
            .finish_non_exhaustive()
    }
}

/// Tells the observer of bytes that the engine took, and of the packet that they made whole. A Connect
/// that was stopped after eight wrong passwords is the only packet that is replied to with 0x53 and
/// Connect's fields without a request (docs/PROTOCOL.md#eight-wrong).
fn tell(observer: &mut impl Observer, engine: &Engine, taken: &[u8]) {
    observer.bytes_taken(taken);
    if engine.bytes_begun() > 0 || engine.event() == Event::End(End::LengthTooSmall) {
        return;
    }
    observer.packet_received(engine.last_packet());
    if matches!(engine.event(), Event::Reply([0xD3, 0, 7, ..])) {
        observer.connect_stopped();
    }
}

/// A packet that the engine found readable.
fn parsed(packet: &[u8]) -> Result<Request> {
    let (_, request) = Request::parse(packet)?;
    Ok(request)
}

/// The kept headers of an operation, as the original hands them over.
fn gathered(opcode: Opcode, headers: &[u8]) -> Result<Request> {
    let (_, headers) = Headers::parse(headers)?;
    Ok(Request::new(opcode, true, headers))
}

/// Only a handler's answer can be refused: calls come when their event asks for them.
fn refused(refused: Refused) -> Error {
    Error::Protocol(match refused {
        Refused::BadAnswer => "the handler's answer cannot be sent as it is",
        Refused::WrongMoment => "a call at a wrong moment",
        _ => "a store is too short",
    })
}

/// The original's error for an end.
fn error(end: End, engine: &Engine) -> Error {
    match end {
        End::Disconnected => Error::Disconnected,
        End::Truncated => Error::Io(io::ErrorKind::UnexpectedEof.into()),
        End::LengthTooSmall => Error::Malformed(nom::error::ErrorKind::LengthValue),
        End::Unreadable => match Request::parse(engine.last_packet()) {
            Ok(_) => Error::Malformed(nom::error::ErrorKind::Verify),
            Err(error) => error.into(),
        },
        End::OtherOperation => Error::Protocol("a new operation started before the last one ended"),
        End::HeadersTooLarge => Error::Protocol("an operation's headers are over 65,535 bytes"),
        End::ReplyTooLarge => Error::PacketTooLarge { length: usize::from(MAXIMUM_PACKET_LENGTH) + 1, maximum: MAXIMUM_PACKET_LENGTH.into() },
    }
}
