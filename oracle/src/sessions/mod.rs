//! `oracle sessions`: scripts of sessions for `oracle engine`, made so that each rule of the
//! engine is reached often, at its edges more than elsewhere.
//!
//! A draft follows what the engine will hold (limit, ids, SRM, password) only to choose
//! what is to the point; where its guess is wrong a session means something else, and is
//! compared all the same.

mod connect;
mod headers;
mod large;
mod operations;
mod passwords;
mod random;
mod transfer;
mod wire;

use std::fmt::Write as _;
use std::io::{self, Write};

use random::Random;
use wire::{hex, long, Wire};

pub const CONNECT: u8 = 0;
pub const DISCONNECT: u8 = 1;
pub const PUT: u8 = 2;
pub const GET: u8 = 3;
pub const SET_PATH: u8 = 5;
pub const ACTION: u8 = 6;
pub const SESSION: u8 = 7;
pub const USER: u8 = 0x10;
pub const ABORT: u8 = 0x7F;
pub const FINAL: u8 = 0x80;

/// Bytes of a session that is not large. As kept headers are fewer, the port's own limit
/// for them (number 6) is never met.
const LONGEST: usize = 60_000;

/// More Connects are never sent, so there are never more than 64 ids, the port's limit.
const CONNECTS: usize = 64;

const LIMITS: [u16; 16] = [
    0, 1, 2, 254, 255, 255, 256, 257, 258, 300, 511, 1024, 1024, 65534, 65535, 65535,
];

const OBJECT_SIZES: [usize; 16] = [
    0, 0, 1, 1, 2, 3, 4, 10, 100, 249, 255, 256, 1000, 65535, 100_000, 1_048_575,
];

/// Which sessions are made.
pub struct Options {
    seed: u64,
    count: u64,
    first: u64,
}

/// `SEED COUNT [FIRST]`.
pub fn options(words: &[&str]) -> Option<Options> {
    let (seed, count, first) = match *words {
        [seed, count] => (seed, count, "0"),
        [seed, count, first] => (seed, count, first),
        _ => return None,
    };
    Some(Options {
        seed: seed.parse().ok()?,
        count: count.parse().ok()?,
        first: first.parse().ok()?,
    })
}

pub fn run(options: Options, output: &mut impl Write) -> io::Result<()> {
    for session in options.first..options.first + options.count {
        let draft = Draft::new(options.seed, session);
        output.write_all(draft.session().as_bytes())?;
    }
    Ok(())
}

/// What is asked of a peer's password, as the session's settings have it.
struct Authentication {
    realm: Option<Vec<u8>>,
    charset: Option<u8>,
    user_id_required: bool,
    read_only: bool,
}

/// A session while it is made.
struct Draft {
    random: Random,
    name: String,
    srm_supported: bool,
    own_limit: u16,
    max_object_size: usize,
    /// The number from which ids are counted up, if it is not 1.
    counter: Option<u32>,
    authentication: Option<Authentication>,

    packets: Vec<Wire>,
    /// The host's answers, a line each.
    answers: String,
    length: usize,
    connects: usize,
    large: bool,
    /// Whether it is one with eight wrong passwords and more.
    wrong: bool,

    // What the engine is thought to hold.
    limit: usize,
    ids: Vec<u32>,
    next_id: u32,
    srm: bool,
    authenticated: bool,
    challenges: usize,
    challenged: bool,
    /// The last operation comes to the host.
    admitted: bool,
    /// Nothing is read any more.
    ended: bool,
}

impl Draft {
    fn new(seed: u64, session: u64) -> Draft {
        let mut random = Random::new(seed, session);
        let counter = Draft::counter(seed, session);
        Draft {
            name: format!("{seed}.{session}"),
            srm_supported: !random.one_in(3),
            own_limit: random.pick(&LIMITS),
            max_object_size: random.pick(&OBJECT_SIZES),
            counter,
            authentication: None,
            random,
            packets: Vec::new(),
            answers: String::new(),
            length: 0,
            connects: 0,
            large: false,
            // By numbers of its own, so that all other sessions stay as they are.
            wrong: Random::new(!seed, session).one_in(200),
            limit: 255,
            ids: Vec::new(),
            next_id: counter.unwrap_or(1),
            srm: false,
            authenticated: false,
            challenges: 0,
            challenged: false,
            admitted: true,
            ended: false,
        }
    }

    /// In one of 50 sessions ids are counted up from just before the wrap, or from 0. By
    /// numbers of its own, so that all other sessions stay as they are.
    fn counter(seed: u64, session: u64) -> Option<u32> {
        let mut random = Random::new(!seed.rotate_left(32), session);
        let last = u32::MAX;
        random
            .one_in(50)
            .then(|| random.pick(&[0, last - 40, last - 2, last - 1, last]))
    }

    /// The script of the session.
    fn session(mut self) -> String {
        if self.wrong {
            self.wrong_passwords();
            self.break_off();
        } else if self.random.one_in(500) {
            self.large_session();
        } else {
            match self.random.below(24) {
                0..=4 => self.transfers(),
                5..=8 => self.puts(),
                9..=12 => self.gets(),
                13..=16 => self.passwords(),
                17 | 18 => self.connections(),
                19 | 20 => self.turned_away(),
                21 => self.small_operations(),
                22 => self.garbage(),
                _ => self.replies(),
            }
            self.break_off();
        }
        self.written()
    }

    /// Sends a packet: its first byte, the fields that some have, headers.
    fn send(&mut self, first: u8, fields: &[u8], headers: &Wire) {
        let mut rest = Wire::from(fields.to_vec());
        rest.append(headers);
        self.send_raw(long(first, &rest));
    }

    fn send_raw(&mut self, packet: Wire) {
        if self.ended || (!self.large && self.length + packet.len() > LONGEST) {
            return;
        }
        self.length += packet.len();
        self.packets.push(packet);
    }

    fn answer(&mut self, line: &str) {
        self.answers.push_str(line);
        self.answers.push('\n');
    }

    fn answer_reply(&mut self, code: u8, headers: &[u8]) {
        self.answer(&format!("reply {code:02x} {}", hex(headers)));
    }

    /// The stream may end inside the last packet.
    fn break_off(&mut self) {
        if !self.random.one_in(12) {
            return;
        }
        if let Some(last) = self.packets.last_mut() {
            let whole = last.len();
            let length = match self.random.below(5) {
                0 => 1,
                1 => 2,
                2 => 3,
                3 => whole - 1,
                _ => self.random.below(whole),
            };
            last.truncate(length.min(whole));
        }
    }

    fn written(mut self) -> String {
        let pieces = self.pieces();
        let mut out = self.settings_line();
        out.push_str(&self.cut_line());

        // The host's answers may stand anywhere.
        let answers = std::mem::take(&mut self.answers);
        out.push_str(&answers);
        for piece in pieces.iter().filter(|piece| piece.len() > 0) {
            out.push_str("bytes ");
            piece.write(&mut out);
            out.push('\n');
        }
        out
    }

    fn settings_line(&self) -> String {
        let mut out = format!(
            "session name={} max_packet_length={} srm={} max_object_size={}",
            self.name,
            self.own_limit,
            u8::from(self.srm_supported),
            self.max_object_size
        );
        if let Some(counter) = self.counter {
            let _ = write!(out, " counter={counter}");
        }
        if let Some(authentication) = &self.authentication {
            out.push_str(" auth=1");
            if let Some(realm) = &authentication.realm {
                let _ = write!(out, " realm={}", hex(realm));
            }
            if let Some(charset) = authentication.charset {
                let _ = write!(out, " charset={charset:02x}");
            }
            let _ = write!(
                out,
                " user_id_required={} read_only={}",
                u8::from(authentication.user_id_required),
                u8::from(authentication.read_only)
            );
        }
        out.push('\n');
        out
    }

    /// How pieces are cut into reads. Large ones are not cut small: a line for each read
    /// would make the transcripts long.
    fn cut_line(&mut self) -> String {
        const SMALL: [&str; 14] = [
            "1", "2", "3", "4", "5", "7", "13", "31", "1,2", "2,1", "3,1", "1,1,5", "64", "255,1",
        ];
        const LARGE: [&str; 5] = ["4099", "65535", "65534,1", "32768", "3,65535"];

        if !self.random.one_in(3) {
            return String::new();
        }
        let small = self.length < 3000 && !self.large;
        let cut = self.random.pick(if small { &SMALL[..] } else { &LARGE });
        format!("cut {cut}\n")
    }

    /// The packets as pieces: one each, or joined, or split where that makes no sense.
    fn pieces(&mut self) -> Vec<Wire> {
        let mut pieces: Vec<Wire> = Vec::new();
        let join = self.random.pick(&[0, 0, 0, 1, 2, 20]);

        for packet in std::mem::take(&mut self.packets) {
            // A mark is put in place when its piece is sent, so what came before it must
            // have been answered.
            let joined = !packet.has_marks() && join > 0 && !self.random.one_in(join + 1);
            match pieces.last_mut() {
                Some(last) if joined && last.len() + packet.len() < 65_536 => last.append(&packet),
                _ => pieces.push(packet),
            }
        }
        if self.random.one_in(4) {
            self.split(pieces)
        } else {
            pieces
        }
    }

    fn split(&mut self, pieces: Vec<Wire>) -> Vec<Wire> {
        let mut parts = Vec::new();
        for piece in pieces {
            if piece.has_marks() || piece.len() < 2 || self.random.one_in(2) {
                parts.push(piece);
                continue;
            }
            let place = match self.random.below(3) {
                0 => self.random.between(1, 3).min(piece.len() - 1),
                1 => piece.len() - 1,
                _ => self.random.between(1, piece.len() - 1),
            };
            let (start, end) = piece.bytes.split_at(place);
            parts.push(Wire::from(start.to_vec()));
            parts.push(Wire::from(end.to_vec()));
        }
        parts
    }
}
