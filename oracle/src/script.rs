//! The scripts of `oracle engine`: the sessions' settings, the peer's pieces and the
//! host's answers.

use std::collections::VecDeque;
use std::io::BufRead;
use std::rc::Rc;

use crate::auth::{Credentials, Realm};
use crate::header::Headers;
use crate::hex;
use crate::leaf::{credentials, parse_headers};
use crate::lines::{Lines, Stop};
use crate::packet::Response;
use crate::response::ResponseCode;
use crate::server::Authentication;

/// What is set at the start of a session. `None`: as the source starts.
#[derive(Default)]
pub struct Settings {
    pub max_packet_length: Option<u16>,
    pub srm_supported: bool,
    pub authentication: Option<Authentication>,
    pub max_object_size: Option<usize>,
    /// The number from which ids are counted up.
    pub counter: Option<u32>,
}

/// Bytes that the peer sends, in one or several reads.
pub struct Piece {
    pub bytes: Vec<u8>,
    /// What is put in place when the piece is sent.
    pub marks: Vec<Mark>,
    /// The lengths of the reads, used in turn; empty: as much as is asked for.
    pub cuts: Rc<[usize]>,
    /// How many bytes and reads there were already.
    pub sent: usize,
    pub reads: usize,
}

/// Sixteen bytes of a piece that depend on a nonce the engine made.
pub struct Mark {
    pub place: usize,
    /// 0 for the last nonce of the session, 1 for the one before it, and so on.
    pub age: usize,
    /// A bit to turn over, counted from the first byte's highest.
    pub flipped: Option<usize>,
    /// The digest of nonce and password; without a password the nonce itself.
    pub password: Option<Vec<u8>>,
}

/// The length of a nonce and of a digest.
pub const MARK_LENGTH: usize = 16;

/// An answer to a handler's method that makes a reply.
pub enum Answer {
    Reply(Response),
    Object(Headers, bool),
}

/// What a read of an object's body gives.
pub enum BodyRead {
    /// Bytes, and how many of them were given already.
    Bytes(Vec<u8>, usize),
    Failure,
}

#[derive(Default)]
pub struct Session {
    /// What followed the word `session`, as it was given.
    pub settings_words: String,
    pub settings: Settings,
    pub pieces: VecDeque<Piece>,
    pub answers: VecDeque<Answer>,
    pub body_reads: VecDeque<BodyRead>,
    pub passwords: VecDeque<Option<Vec<u8>>>,
    pub credentials: VecDeque<Option<Credentials>>,
}

/// Reads the sessions of a script one by one, so that a script may be of any length.
pub struct Script<R> {
    lines: Lines<R>,
    /// The line read last is the `session` line of the next session.
    at_session: bool,
}

impl<R: BufRead> Script<R> {
    pub fn new(input: R) -> Script<R> {
        Script {
            lines: Lines::new(input),
            at_session: false,
        }
    }

    /// The next session, or `None` at the end of the script.
    pub fn next_session(&mut self) -> Result<Option<Session>, Stop> {
        let mut session: Option<Session> = None;
        let mut cuts: Rc<[usize]> = Rc::new([]);

        loop {
            if !self.at_session && !self.lines.advance()? {
                return Ok(session);
            }
            self.at_session = false;

            let line = self.lines.text();
            if line.is_empty() || line.starts_with('#') {
                continue;
            }

            let words: Vec<&str> = line.split(' ').collect();
            if words[0] == "session" {
                if session.is_some() {
                    self.at_session = true;
                    return Ok(session);
                }
                session = Some(Session {
                    settings_words: line["session".len()..].to_string(),
                    settings: settings(&words[1..]).ok_or_else(|| self.lines.bad())?,
                    ..Session::default()
                });
            } else {
                session
                    .as_mut()
                    .and_then(|session| directive(session, &words, &mut cuts))
                    .ok_or_else(|| self.lines.bad())?;
            }
        }
    }
}

/// The `KEY=VALUE` words of a `session` line.
fn settings(words: &[&str]) -> Option<Settings> {
    let mut settings = Settings::default();
    let mut requires_authentication = false;
    let mut authentication = Authentication::default();
    let mut charset: Option<u8> = None;

    for word in words {
        let (key, value) = word.split_once('=')?;
        match key {
            "name" => {}
            "max_packet_length" => settings.max_packet_length = Some(value.parse().ok()?),
            "max_object_size" => settings.max_object_size = Some(value.parse().ok()?),
            "counter" => settings.counter = Some(value.parse().ok()?),
            "srm" => settings.srm_supported = flag(value)?,
            "auth" => requires_authentication = flag(value)?,
            "realm" => {
                authentication.realm = Some(Realm {
                    charset: 0,
                    value: hex::parse(value)?,
                })
            }
            "charset" => charset = hex::parse_array(value).map(|[byte]| Some(byte))?,
            "user_id_required" => authentication.user_id_required = flag(value)?,
            "read_only" => authentication.read_only = flag(value)?,
            _ => return None,
        }
    }

    if let Some(charset) = charset {
        authentication.realm.as_mut()?.charset = charset;
    }

    if requires_authentication {
        settings.authentication = Some(authentication);
    } else if authentication != Authentication::default() {
        return None;
    }

    Some(settings)
}

fn flag(value: &str) -> Option<bool> {
    match value {
        "0" => Some(false),
        "1" => Some(true),
        _ => None,
    }
}

/// Adds a line that is no `session` line to its session.
fn directive(session: &mut Session, words: &[&str], cuts: &mut Rc<[usize]>) -> Option<()> {
    match *words {
        ["bytes", piece] => session.pieces.push_back(self::piece(piece, cuts.clone())?),
        ["cut", lengths] => *cuts = self::cuts(lengths)?,
        ["reply", code, headers] => {
            session
                .answers
                .push_back(Answer::Reply(reply(code, headers)?));
        }
        ["object", headers, body] => {
            let has_body = match body {
                "body" => true,
                "nobody" => false,
                _ => return None,
            };
            let headers = parse_headers(&hex::parse(headers)?)?;
            session.answers.push_back(Answer::Object(headers, has_body));
        }
        ["read", bytes] => session
            .body_reads
            .push_back(BodyRead::Bytes(hex::parse(bytes)?, 0)),
        ["readfail"] => session.body_reads.push_back(BodyRead::Failure),
        ["password", "none"] => session.passwords.push_back(None),
        ["password", password] => session.passwords.push_back(Some(hex::parse(password)?)),
        ["credentials", "none"] => session.credentials.push_back(None),
        ["credentials", user, password] => {
            session
                .credentials
                .push_back(Some(credentials(user, password)?));
        }
        _ => return None,
    }

    Some(())
}

/// A reply of the host: the code without its top bit, and headers that can be read.
fn reply(code: &str, headers: &str) -> Option<Response> {
    let [code] = hex::parse_array(code)?;
    if code >= 0x80 {
        return None;
    }

    Some(Response::with_headers(
        ResponseCode::try_from(code).ok()?,
        parse_headers(&hex::parse(headers)?)?,
    ))
}

/// `N,N,…`, or `-` for no cuts.
fn cuts(lengths: &str) -> Option<Rc<[usize]>> {
    if lengths == "-" {
        return Some(Rc::new([]));
    }

    lengths
        .split(',')
        .map(|length| length.parse().ok().filter(|length| *length > 0))
        .collect::<Option<Vec<usize>>>()
        .map(Rc::from)
}

/// Bytes with marks in square brackets.
fn piece(text: &str, cuts: Rc<[usize]>) -> Option<Piece> {
    let mut bytes = Vec::with_capacity(text.len() / 2);
    let mut marks = Vec::new();

    let mut parts = text.split('[');
    let start = parts.next()?;
    if start != "-" {
        hex::parse_run(start, &mut bytes)?;
    }

    for part in parts {
        let (mark, rest) = part.split_once(']')?;
        marks.push(self::mark(mark, bytes.len())?);
        bytes.resize(bytes.len() + MARK_LENGTH, 0);
        hex::parse_run(rest, &mut bytes)?;
    }

    Some(Piece {
        bytes,
        marks,
        cuts,
        sent: 0,
        reads: 0,
    })
}

/// `nonce` or `digest=PASSWORD`, after the name `.AGE` and `^BIT` at will.
fn mark(text: &str, place: usize) -> Option<Mark> {
    let (name, password) = match text.split_once('=') {
        Some((name, password)) => (name, Some(hex::parse(password)?)),
        None => (text, None),
    };
    let (name, flipped) = match name.split_once('^') {
        Some((name, bit)) => {
            let bit = bit.parse().ok().filter(|bit| *bit < MARK_LENGTH * 8)?;
            (name, Some(bit))
        }
        None => (name, None),
    };
    let (name, age) = match name.split_once('.') {
        Some((name, age)) => (name, age.parse().ok()?),
        None => (name, 0),
    };

    match (name, &password) {
        ("nonce", None) | ("digest", Some(_)) => Some(Mark {
            place,
            age,
            flipped,
            password,
        }),
        _ => None,
    }
}
