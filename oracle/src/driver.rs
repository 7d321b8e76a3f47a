//! `oracle engine`: runs the sessions of a script through the source's engine.

use std::cell::RefCell;
use std::io::{self, BufRead, Write};
use std::panic::{catch_unwind, AssertUnwindSafe};
use std::rc::Rc;

use crate::engine::io::block_on;
use crate::engine::server::ServerEngine;
use crate::error::Error;
use crate::hex;
use crate::host::{Host, Log, Options, Shared, Transport, World};
use crate::lines::Stop;
use crate::script::{Script, Session};
use crate::show::{self, put};

/// The log is handed on when it has grown to this length.
const FULL: usize = 1 << 16;

type Engine = ServerEngine<Transport, Host>;

/// The options of the command line, each a word.
pub fn options(words: &[&str]) -> Option<Options> {
    let mut options = Options {
        longest: usize::MAX,
        all_sent: false,
    };

    for word in words {
        match word.split_once('=')? {
            ("digest", longest) => options.longest = longest.parse().ok()?,
            ("sent", "all") => options.all_sent = true,
            _ => return None,
        }
    }
    Some(options)
}

/// Runs the script and prints its events.
pub fn run(input: impl BufRead, output: &mut impl Write, options: Options) -> Result<(), Stop> {
    let mut script = Script::new(input);
    let mut log = Log {
        text: Vec::with_capacity(2 * FULL),
        options,
    };

    loop {
        let session = match script.next_session() {
            Ok(session) => session,
            Err(stop) => {
                output.write_all(&log.text)?;
                return Err(stop);
            }
        };
        let Some(session) = session else { break };

        log = run_session(session, log);
        if log.text.len() > FULL {
            output.write_all(&log.text)?;
            log.text.clear();
        }
    }

    output.write_all(&log.text)?;
    Ok(())
}

/// Runs one session with an engine of its own, to its end.
fn run_session(session: Session, mut log: Log) -> Log {
    // Not the word `session`, which is a method of the handler too.
    log.word("start");
    log.word(&session.settings_words);
    log.end_line();

    let shared = Rc::new(RefCell::new(World {
        session,
        log,
        last_out: None,
        nonces: Vec::new(),
    }));
    let mut engine = engine(&shared);

    loop {
        shared.borrow_mut().last_out = None;
        let before = nonce(&engine);

        // A panic of the source would be a finding; it must not hide the other sessions.
        let result = catch_unwind(AssertUnwindSafe(|| block_on(engine.handle_next())));

        let world = &mut *shared.borrow_mut();
        if let Some(nonce) = nonce(&engine).filter(|nonce| Some(*nonce) != before) {
            log_nonce(world, nonce);
        }

        let end = match result {
            Ok(Ok(())) => None,
            Ok(Err(error)) => Some(number(&error)),
            Err(_) => Some("? panic".to_string()),
        };
        if let Some(end) = &end {
            put!(world.log.text, "end {end}\n");
        }
        log_state(&mut world.log.text, &engine);

        if end.is_some() {
            break;
        }
    }

    let log = &mut shared.borrow_mut().log;
    Log {
        text: std::mem::take(&mut log.text),
        options: log.options,
    }
}

fn engine(shared: &Shared) -> Engine {
    let mut engine = ServerEngine::new(Transport(shared.clone()), Host(shared.clone()));
    let settings = &mut shared.borrow_mut().session.settings;

    if let Some(length) = settings.max_packet_length {
        engine.max_packet_length = length;
    }
    if let Some(size) = settings.max_object_size {
        engine.max_object_size = size;
    }
    if let Some(counter) = settings.counter {
        engine.count_from(counter);
    }
    engine.srm_supported = settings.srm_supported;
    engine.authentication = settings.authentication.take();
    engine
}

fn nonce(engine: &Engine) -> Option<[u8; 16]> {
    engine.inspect().challenge.map(|challenge| challenge.nonce)
}

/// Logs a nonce that the engine made. It is seen only afterwards, and the reply may not
/// show it (0x41 can have become 0x50), but its place is before that reply.
fn log_nonce(world: &mut World, nonce: [u8; 16]) {
    let text = &mut world.log.text;
    let reply = text.split_off(world.last_out.unwrap_or(text.len()));

    text.extend_from_slice(b"nonce ");
    hex::push(text, &nonce);
    text.push(b'\n');
    text.extend_from_slice(&reply);

    world.nonces.push(nonce);
}

fn log_state(out: &mut Vec<u8>, engine: &Engine) {
    let state = engine.inspect();
    put!(
        out,
        "state remote_max={} srm={} authenticated={} ids=",
        state.remote_max_packet_length,
        u8::from(state.srm_enabled),
        u8::from(state.authenticated)
    );

    let mut ids: Vec<u32> = state.connections.iter().copied().collect();
    ids.sort_unstable();
    if ids.is_empty() {
        out.push(b'-');
    }
    for (place, id) in ids.iter().enumerate() {
        put!(out, "{}{id:08x}", if place > 0 { "," } else { "" });
    }

    put!(out, " next={:08x} challenge=", state.next_connection_id);
    show::optional(
        out,
        state.challenge.map(|challenge| challenge.nonce.as_slice()),
    );
    out.push(b'\n');
}

/// The number that stands for an end of the engine.
fn number(error: &Error) -> String {
    let number = match error {
        Error::Disconnected => 1,
        Error::Io(error) if error.kind() == io::ErrorKind::UnexpectedEof => 2,
        // The one place where the source gives this kind is the framing of packets.
        Error::Malformed(nom::error::ErrorKind::LengthValue) => 3,
        Error::Malformed(_) => 4,
        Error::Protocol(_) => 5,
        Error::PacketTooLarge { .. } => 7,
        error => return format!("? {}", show::error(error)),
    };
    number.to_string()
}
