//! [`Connection`]: a client that reads and writes, and waits for the end of each operation.
use std::fmt::{self, Display, Formatter};
use std::io::{self, Read, Write};

use obex_headers::{find, id, Challenge, Headers};

use crate::client::{Client, Settings};
use crate::event::{End, Event, Refused};

/// A code without its top bit that says that a password is wanted.
const UNAUTHORIZED: u8 = 0x41;

/// Where headers begin in a response, and in the response to a Connect.
const HEADERS: usize = 3;
const CONNECT_HEADERS: usize = 7;

/// A client over a transport. Each method returns when its operation is over.
#[derive(Debug)]
pub struct Connection<T> {
    transport: T,
    client: Client,
    /// What was read, and which part of it is not taken yet.
    input: Box<[u8]>,
    from: usize,
    to: usize,
    /// Body bytes on their way to the client.
    scratch: Vec<u8>,
    /// The transport has failed inside an operation, so nothing can follow.
    broken: bool,
}

/// The server's answer to an operation that it granted.
#[derive(Debug, Clone, PartialEq, Eq)]
pub struct Answer {
    /// The code without its top bit, a success.
    pub code: u8,
    /// The headers of the last response.
    pub headers: Vec<u8>,
}

/// An object that came whole.
#[derive(Debug, Clone, PartialEq, Eq)]
pub struct Object {
    /// The headers of all its parts, in order, without body headers.
    pub headers: Vec<u8>,
    /// Its body. Without a body header it has none.
    pub body: Option<Vec<u8>>,
}

/// Why an operation did not succeed.
#[derive(Debug)]
pub enum Error {
    /// The transport, the body that was to be sent, or the place for the object failed. After a failure of
    /// the transport nothing can follow; after the other two the operation was aborted.
    Io(io::Error),
    /// The server answered with another code than a success. A further operation may follow.
    Answered {
        /// The code without its top bit.
        code: u8,
        /// The headers of that response.
        headers: Vec<u8>,
        /// Whether the server ended a Put before its last packet.
        stopped: bool,
    },
    /// The client has ended.
    Ended(End),
    /// The client refuses the headers, or has ended before.
    Refused(Refused),
    /// The server wants a password, and its challenge cannot be answered.
    Challenge(&'static str),
}

impl Display for Error {
    fn fmt(&self, f: &mut Formatter<'_>) -> fmt::Result {
        match self {
            Error::Io(error) => write!(f, "input or output failed: {error}"),
            Error::Answered { code, stopped: false, .. } => write!(f, "the server answered with 0x{code:02X}"),
            Error::Answered { code, stopped: true, .. } => write!(f, "the server ended the Put with 0x{code:02X} before its last packet"),
            Error::Ended(end) => write!(f, "{end}"),
            Error::Refused(refused) => write!(f, "{refused}"),
            Error::Challenge(why) => write!(f, "the server wants a password, and {why}"),
        }
    }
}

impl std::error::Error for Error {
    fn source(&self) -> Option<&(dyn std::error::Error + 'static)> {
        match self {
            Error::Io(error) => Some(error),
            Error::Ended(end) => Some(end),
            Error::Refused(refused) => Some(refused),
            Error::Answered { .. } | Error::Challenge(_) => None,
        }
    }
}

impl From<io::Error> for Error {
    fn from(error: io::Error) -> Error {
        Error::Io(error)
    }
}

impl From<Refused> for Error {
    fn from(refused: Refused) -> Error {
        Error::Refused(refused)
    }
}

/// Takes a part of an object: its headers and its bytes of the body.
type Sink<'a> = &'a mut dyn FnMut(&[u8], Option<&[u8]>) -> io::Result<()>;

impl<T: Read + Write> Connection<T> {
    /// Starts a client over `transport`. Nothing is sent.
    pub fn new(transport: T, settings: &Settings) -> Result<Connection<T>, Error> {
        let client = Client::start(settings)?;
        Ok(Connection { transport, client, input: vec![0; 65_536].into_boxed_slice(), from: 0, to: 0, scratch: Vec::new(), broken: false })
    }

    /// Connects, with a Target among `headers` if a service is meant.
    pub fn connect(&mut self, headers: &[u8]) -> Result<Answer, Error> {
        self.client.connect(headers)?;
        self.finish(CONNECT_HEADERS, &mut io::empty(), &mut |_, _| Ok(()))
    }

    /// Connects, and answers the server's challenge if it has one.
    pub fn connect_with_password(&mut self, headers: &Headers, user_id: Option<&[u8]>, password: &[u8]) -> Result<Answer, Error> {
        match self.connect(headers) {
            Err(Error::Answered { code: UNAUTHORIZED, headers: theirs, .. }) => {
                let value = find(&theirs, id::AUTHENTICATE_CHALLENGE).ok_or(Error::Challenge("has no challenge"))?;
                let challenge = Challenge::read(value).ok_or(Error::Challenge("its challenge is malformed"))?;
                if challenge.user_id_required && user_id.is_none() {
                    return Err(Error::Challenge("a user id, which was not given"));
                }
                let answer = headers.clone().answer(&challenge, user_id, password).map_err(|_| Error::Challenge("the user id is over 255 bytes"))?;
                self.connect(&answer)
            }
            result => result,
        }
    }

    /// Puts an object with these headers and the bytes of `body`. If reading them fails, the Put is aborted,
    /// and the server has no record of it.
    pub fn put(&mut self, headers: &[u8], mut body: impl Read) -> Result<Answer, Error> {
        self.client.put(headers, true)?;
        self.finish(HEADERS, &mut body, &mut |_, _| Ok(()))
    }

    /// Puts headers without a body, which asks the server to delete the object.
    pub fn put_headers(&mut self, headers: &[u8]) -> Result<Answer, Error> {
        self.client.put(headers, false)?;
        self.finish(HEADERS, &mut io::empty(), &mut |_, _| Ok(()))
    }

    /// Gets the object that these headers name.
    pub fn get(&mut self, headers: &[u8]) -> Result<Object, Error> {
        let mut object = Object { headers: Vec::new(), body: None };
        self.client.get(headers)?;
        self.finish(HEADERS, &mut io::empty(), &mut |headers, body| {
            object.headers.extend_from_slice(headers);
            if let Some(bytes) = body {
                object.body.get_or_insert_with(Vec::new).extend_from_slice(bytes);
            }
            Ok(())
        })?;
        Ok(object)
    }

    /// Gets the object that these headers name, and writes its body to `place`. If that fails, the Get is
    /// aborted. If the server's last code is no success, what was written is not the whole object.
    pub fn get_into(&mut self, headers: &[u8], place: &mut impl Write) -> Result<Answer, Error> {
        self.client.get(headers)?;
        self.finish(HEADERS, &mut io::empty(), &mut |_, body| place.write_all(body.unwrap_or_default()))
    }

    /// Disconnects. The transport stays open.
    pub fn disconnect(&mut self, headers: &[u8]) -> Result<Answer, Error> {
        self.client.disconnect(headers)?;
        self.finish(HEADERS, &mut io::empty(), &mut |_, _| Ok(()))
    }

    /// Returns the id of the connection, if the server gave one.
    pub fn connection_id(&self) -> Option<u32> {
        self.client.connection_id()
    }

    /// Returns the transport.
    pub fn get_ref(&self) -> &T {
        &self.transport
    }

    /// Takes the connection apart.
    pub fn into_inner(self) -> T {
        self.transport
    }

    /// Goes on to the end of the operation. Headers begin at byte `headers` of its last response.
    fn finish(&mut self, headers: usize, body: &mut dyn Read, sink: Sink<'_>) -> Result<Answer, Error> {
        if self.broken {
            return Err(Error::Refused(Refused::WrongMoment));
        }
        // Why the operation is being aborted, which is told once the server has answered the Abort.
        let mut failed = None;
        loop {
            let (code, packet, stopped) = match self.client.event() {
                Event::Read { room } => {
                    match read_some(body, &mut self.scratch, room) {
                        Ok(read) => self.client.body_given(&self.scratch[..read])?,
                        Err(error) => {
                            failed = Some(error);
                            self.client.abort()?;
                        }
                    }
                    continue;
                }
                Event::Part { headers, body } => {
                    match sink(headers, body) {
                        Ok(()) => self.client.part_taken()?,
                        Err(error) => {
                            failed = Some(error);
                            // The last part of an object can only be taken: no Abort follows it.
                            self.client.abort().or_else(|_| self.client.part_taken())?;
                        }
                    }
                    continue;
                }
                Event::Done { code, packet } | Event::Aborted { code, packet } => (code, packet, false),
                Event::Stopped { code, packet } => (code, packet, true),
                Event::End(end) => return Err(Error::Ended(end)),
                Event::Ready => return Err(Error::Refused(Refused::WrongMoment)),
                Event::Send(_) | Event::WantsBytes => {
                    self.exchange()?;
                    continue;
                }
            };
            if let Some(error) = failed {
                return Err(Error::Io(error));
            }
            let headers = packet.get(headers..).unwrap_or_default().to_vec();
            return match code {
                0x20..=0x2F if !stopped => Ok(Answer { code, headers }),
                _ => Err(Error::Answered { code, headers, stopped }),
            };
        }
    }

    /// Writes the packet that waits, or reads on. A transport that fails leaves the client where nothing
    /// can follow.
    fn exchange(&mut self) -> Result<(), Error> {
        self.broken = true;
        match self.client.event() {
            Event::Send(packet) => {
                self.transport.write_all(packet)?;
                self.transport.flush()?;
                self.client.request_sent()?;
            }
            _ if self.from < self.to => self.from += self.client.bytes_offered(&self.input[self.from..self.to])?,
            _ => {
                (self.from, self.to) = (0, read_once(&mut self.transport, &mut self.input)?);
                if self.to == 0 {
                    self.client.stream_ended()?;
                }
            }
        }
        self.broken = false;
        Ok(())
    }
}

/// Reads at most `room` bytes to the front of `scratch`.
fn read_some(body: &mut dyn Read, scratch: &mut Vec<u8>, room: usize) -> io::Result<usize> {
    if scratch.len() < room {
        scratch.resize(room, 0);
    }
    read_once(body, &mut scratch[..room])
}

/// Reads once, and again if it was interrupted.
fn read_once(from: &mut (impl Read + ?Sized), room: &mut [u8]) -> io::Result<usize> {
    loop {
        match from.read(room) {
            Err(error) if error.kind() == io::ErrorKind::Interrupted => {}
            result => return result,
        }
    }
}
