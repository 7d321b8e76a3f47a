//! Both neighbours of the engine, the peer's transport and the host's handler, played
//! from a session of a script. Whatever passes between them and the engine is logged.

use std::cell::RefCell;
use std::future::{ready, Future};
use std::io::{self, Write};
use std::rc::Rc;

use crate::auth::{request_digest, Credentials, DigestChallenge};
use crate::engine::io::{Sink, Source};
use crate::engine::server::EngineHandler;
use crate::header::Headers;
use crate::hex;
use crate::md5;
use crate::packet::{Request, Response};
use crate::response::ResponseCode;
use crate::script::{Answer, BodyRead, Mark, Session, MARK_LENGTH};
use crate::show::{self, put};

/// How events are printed.
#[derive(Clone, Copy)]
pub struct Options {
    /// Byte strings longer than this are given by length and MD5.
    pub longest: usize,
    /// Every piece is printed when it is sent, not only those that depend on a nonce.
    pub all_sent: bool,
}

/// The events of a session as text.
pub struct Log {
    pub text: Vec<u8>,
    pub options: Options,
}

impl Log {
    pub fn word(&mut self, word: &str) {
        self.text.extend_from_slice(word.as_bytes());
    }

    pub fn end_line(&mut self) {
        self.text.push(b'\n');
    }

    pub fn bytes(&mut self, bytes: &[u8]) {
        if bytes.len() > self.options.longest {
            put!(self.text, "#{}:", bytes.len());
            hex::push(&mut self.text, &md5::digest(&[bytes]));
        } else {
            hex::push(&mut self.text, bytes);
        }
    }

    fn headers(&mut self, headers: &Headers) {
        match show::rewritten(headers) {
            Ok(bytes) => self.bytes(&bytes),
            Err(shown) => self.text.extend_from_slice(&shown),
        }
    }

    fn optional(&mut self, bytes: Option<&[u8]>) {
        match bytes {
            Some(bytes) => self.bytes(bytes),
            None => self.word("none"),
        }
    }

    fn flag(&mut self, word: &str, flag: bool) {
        self.word(word);
        self.word(if flag { "1" } else { "0" });
    }
}

/// What transport, handler and bodies of one session share.
pub struct World {
    pub session: Session,
    pub log: Log,
    /// Where the log's last `out` line begins.
    pub last_out: Option<usize>,
    /// The nonces of this session's challenges, the last one at the end.
    pub nonces: Vec<[u8; MARK_LENGTH]>,
}

pub type Shared = Rc<RefCell<World>>;

/// What a marked place of a piece holds; zeros stand for a nonce that there is not yet.
fn marked(mark: &Mark, nonces: &[[u8; MARK_LENGTH]]) -> [u8; MARK_LENGTH] {
    let nonce = nonces
        .iter()
        .rev()
        .nth(mark.age)
        .copied()
        .unwrap_or_default();
    let mut value = match &mark.password {
        Some(password) => request_digest(&nonce, password),
        None => nonce,
    };
    if let Some(bit) = mark.flipped {
        value[bit / 8] ^= 0x80 >> (bit % 8);
    }
    value
}

impl World {
    /// The peer's next bytes; none at the end of the script's pieces.
    fn deliver(&mut self, room: &mut [u8]) -> usize {
        // A read of no bytes is the end of the stream, so empty pieces are passed over.
        while self
            .session
            .pieces
            .front()
            .is_some_and(|piece| piece.sent == piece.bytes.len())
        {
            self.session.pieces.pop_front();
        }

        let read = match self.session.pieces.front_mut() {
            Some(piece) => {
                if piece.sent == 0 {
                    for mark in &piece.marks {
                        piece.bytes[mark.place..mark.place + MARK_LENGTH]
                            .copy_from_slice(&marked(mark, &self.nonces));
                    }
                    if self.log.options.all_sent || !piece.marks.is_empty() {
                        self.log.word("sent ");
                        self.log.bytes(&piece.bytes);
                        self.log.end_line();
                    }
                }

                let cut = match piece.cuts.len() {
                    0 => usize::MAX,
                    count => piece.cuts[piece.reads % count],
                };
                let rest = &piece.bytes[piece.sent..];
                let read = rest.len().min(room.len()).min(cut);
                room[..read].copy_from_slice(&rest[..read]);
                piece.sent += read;
                piece.reads += 1;
                read
            }
            None => 0,
        };

        put!(self.log.text, "read {read}\n");
        read
    }

    fn request(&mut self, method: &str, request: &Request) {
        let log = &mut self.log;
        log.word(method);
        log.flag(" final=", request.is_final);
        log.word(" headers=");
        log.headers(&request.headers);
    }

    /// Logs a request without fields of its own.
    fn plain_request(&mut self, method: &str, request: &Request) {
        self.request(method, request);
        self.log.end_line();
    }

    fn log_reply(&mut self, response: &Response) {
        put!(
            self.log.text,
            "answer reply {:02x} ",
            u8::from(response.code)
        );
        self.log.headers(&response.headers);
        self.log.end_line();
    }

    /// The next reply of the script, whatever objects stand before it.
    fn reply(&mut self) -> Response {
        let answers = &mut self.session.answers;
        let place = answers
            .iter()
            .position(|answer| matches!(answer, Answer::Reply(_)));
        let response = match place.and_then(|place| answers.remove(place)) {
            Some(Answer::Reply(response)) => response,
            _ => Response::new(ResponseCode::Success),
        };
        self.log_reply(&response);
        response
    }

    /// The next reply or object of the script.
    fn object(&mut self) -> Result<(Headers, bool), Response> {
        match self.session.answers.pop_front() {
            Some(Answer::Object(headers, has_body)) => {
                self.log.word("answer object ");
                self.log.headers(&headers);
                self.log
                    .word(if has_body { " body\n" } else { " nobody\n" });
                Ok((headers, has_body))
            }
            Some(Answer::Reply(response)) => {
                self.log_reply(&response);
                Err(response)
            }
            None => {
                let response = Response::new(ResponseCode::Success);
                self.log_reply(&response);
                Err(response)
            }
        }
    }

    fn body_read(&mut self, room: &mut [u8]) -> io::Result<usize> {
        put!(self.log.text, "body-read {}\n", room.len());

        let read = match self.session.body_reads.front_mut() {
            Some(BodyRead::Bytes(bytes, given)) => {
                let rest = &bytes[*given..];
                let read = rest.len().min(room.len());
                room[..read].copy_from_slice(&rest[..read]);
                *given += read;

                // What the room does not hold stays for the next read.
                if *given == bytes.len() {
                    self.session.body_reads.pop_front();
                }
                read
            }
            Some(BodyRead::Failure) => {
                self.session.body_reads.pop_front();
                self.log.word("answer readfail\n");
                return Err(io::ErrorKind::Other.into());
            }
            None => 0,
        };

        self.log.word("answer read ");
        self.log.bytes(&room[..read]);
        self.log.end_line();
        Ok(read)
    }

    fn password(&mut self, user_id: Option<&[u8]>) -> Option<Vec<u8>> {
        self.log.word("password ");
        self.log.optional(user_id);

        let password = self.session.passwords.pop_front().flatten();
        self.log.word("\nanswer password ");
        self.log.optional(password.as_deref());
        self.log.end_line();
        password
    }

    fn credentials(&mut self, challenge: &DigestChallenge) -> Option<Credentials> {
        self.log.word("credentials ");
        show::challenge(&mut self.log.text, challenge);

        let credentials = self.session.credentials.pop_front().flatten();
        self.log.word("\nanswer credentials ");
        match &credentials {
            Some(credentials) => {
                match &credentials.user_id {
                    Some(user_id) => self.log.bytes(user_id),
                    None => self.log.word("nouser"),
                }
                self.log.word(" ");
                self.log.bytes(&credentials.password);
            }
            None => self.log.word("none"),
        }
        self.log.end_line();
        credentials
    }
}

/// The peer: its pieces come in, the engine's replies go out.
pub struct Transport(pub Shared);

impl Source for Transport {
    fn read(&mut self, buf: &mut [u8]) -> impl Future<Output = io::Result<usize>> {
        ready(Ok(self.0.borrow_mut().deliver(buf)))
    }
}

impl Sink for Transport {
    fn write_all(&mut self, buf: &[u8]) -> impl Future<Output = io::Result<()>> {
        let world = &mut *self.0.borrow_mut();
        world.last_out = Some(world.log.text.len());
        world.log.word("out ");
        world.log.bytes(buf);
        world.log.end_line();
        ready(Ok(()))
    }

    fn flush(&mut self) -> impl Future<Output = io::Result<()>> {
        ready(Ok(()))
    }
}

/// The reader of an object's body.
pub struct Body(Shared);

impl Source for Body {
    fn read(&mut self, buf: &mut [u8]) -> impl Future<Output = io::Result<usize>> {
        ready(self.0.borrow_mut().body_read(buf))
    }
}

/// The host.
pub struct Host(pub Shared);

impl Host {
    fn answer(&mut self, method: &str, request: &Request) -> impl Future<Output = Response> {
        let mut world = self.0.borrow_mut();
        world.plain_request(method, request);
        ready(world.reply())
    }
}

impl EngineHandler for Host {
    type Body = Body;

    fn connect(&mut self, request: &Request) -> impl Future<Output = Response> {
        let mut world = self.0.borrow_mut();
        world.request("connect", request);
        world.log.word(" fields=");
        let fields = request.connect.map(show::connect_fields);
        world
            .log
            .optional(fields.as_ref().map(|fields| fields.as_slice()));
        world.log.end_line();
        ready(world.reply())
    }

    fn disconnect(&mut self, request: &Request) -> impl Future<Output = Response> {
        self.answer("disconnect", request)
    }

    fn put(&mut self, request: &Request, body: Option<Vec<u8>>) -> impl Future<Output = Response> {
        let mut world = self.0.borrow_mut();
        world.request("put", request);
        world.log.word(" body=");
        world.log.optional(body.as_deref());
        world.log.end_line();
        ready(world.reply())
    }

    fn get(
        &mut self,
        request: &Request,
    ) -> impl Future<Output = Result<(Headers, Option<Body>), Response>> {
        let mut world = self.0.borrow_mut();
        world.plain_request("get", request);
        ready(
            world
                .object()
                .map(|(headers, has_body)| (headers, has_body.then(|| Body(self.0.clone())))),
        )
    }

    fn set_path(&mut self, request: &Request) -> impl Future<Output = Response> {
        let mut world = self.0.borrow_mut();
        world.request("set_path", request);
        let flags = request.set_path.unwrap_or_default();
        world.log.flag(" backup=", flags.backup);
        world.log.flag(" no_create=", flags.no_create);
        world.log.end_line();
        ready(world.reply())
    }

    fn action(&mut self, request: &Request) -> impl Future<Output = Response> {
        self.answer("action", request)
    }

    fn session(&mut self, request: &Request) -> impl Future<Output = Response> {
        self.answer("session", request)
    }

    fn user_defined(&mut self, request: &Request) -> impl Future<Output = Response> {
        let mut world = self.0.borrow_mut();
        world.request("user_defined", request);
        put!(world.log.text, " opcode={:02x}\n", request.opcode.value());
        ready(world.reply())
    }

    fn abort(&mut self, request: &Request) -> impl Future<Output = ()> {
        self.0.borrow_mut().plain_request("abort", request);
        ready(())
    }

    fn password(&mut self, user_id: Option<&[u8]>) -> impl Future<Output = Option<Vec<u8>>> {
        ready(self.0.borrow_mut().password(user_id))
    }

    fn credentials(
        &mut self,
        challenge: &DigestChallenge,
    ) -> impl Future<Output = Option<Credentials>> {
        ready(self.0.borrow_mut().credentials(challenge))
    }
}
