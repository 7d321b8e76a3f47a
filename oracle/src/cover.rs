//! `oracle cover`: counts how often a transcript of `oracle engine sent=all` shows what each
//! rule of the engine leads to, so that a rule which no session reaches is seen.

use std::io::{BufRead, Write};

use crate::hex;
use crate::lines::{Lines, Stop};
use crate::opcode::Opcode;
use crate::packet::{packet_length, Request};
use crate::rules::{CODES, ENDS, RULES};

/// The engine's state as a `state` line has it.
#[derive(Clone, Default)]
pub struct State {
    pub limit: usize,
    pub srm: bool,
    pub authenticated: bool,
    pub ids: Vec<u32>,
    pub next: u32,
    pub challenged: bool,
}

impl State {
    fn fresh() -> State {
        State {
            limit: 255,
            next: 1,
            ..State::default()
        }
    }

    fn parse(line: &str) -> Option<State> {
        let ids = value(line, "ids")?;
        let ids = ids.split(',').filter(|id| *id != "-");
        Some(State {
            limit: value(line, "remote_max")?.parse().ok()?,
            srm: value(line, "srm")? == "1",
            authenticated: value(line, "authenticated")? == "1",
            ids: ids.map(id).collect::<Option<_>>()?,
            next: id(value(line, "next")?)?,
            challenged: value(line, "challenge")? != "none",
        })
    }
}

fn id(text: &str) -> Option<u32> {
    u32::from_str_radix(text, 16).ok()
}

/// The value of `KEY=VALUE` in a line.
pub fn value<'a>(line: &'a str, key: &str) -> Option<&'a str> {
    line.split(' ')
        .find_map(|word| word.strip_prefix(key)?.strip_prefix('='))
}

/// Everything from one `state` line to the next.
#[derive(Default)]
pub struct Operation {
    /// The session's `start` line.
    pub settings: String,
    /// The events, without what was sent and read.
    pub lines: Vec<String>,
    /// The packets that were read, if it is known which they are.
    pub packets: Vec<Vec<u8>>,
    /// The bytes of a packet that is not complete.
    pub begun: usize,
    pub before: State,
    pub after: State,
}

impl Operation {
    pub fn set(&self, key: &str) -> bool {
        value(&self.settings, key) == Some("1")
    }

    /// The first event that begins with `word`.
    pub fn event(&self, word: &str) -> Option<&str> {
        self.lines
            .iter()
            .map(String::as_str)
            .find(|line| line.starts_with(word))
    }

    pub fn has(&self, word: &str) -> bool {
        self.event(word).is_some()
    }

    pub fn count(&self, word: &str) -> usize {
        let begins = |line: &&String| line.starts_with(word);
        self.lines.iter().filter(begins).count()
    }

    /// The last reply.
    pub fn out(&self) -> &str {
        let reply = |line: &'_ &String| line.starts_with("out ");
        self.lines.iter().rfind(reply).map_or("", |line| &line[4..])
    }

    pub fn ends(&self, number: u8) -> bool {
        self.has(&format!("end {number}"))
    }

    /// The packet at a place, if it can be read.
    pub fn request(&self, place: usize) -> Option<Request> {
        Request::parse(self.packets.get(place)?)
            .ok()
            .map(|(_, request)| request)
    }

    pub fn last(&self) -> Option<Request> {
        self.request(self.packets.len().checked_sub(1)?)
    }

    pub fn begins(&self, opcode: Opcode) -> bool {
        self.request(0)
            .is_some_and(|request| request.opcode == opcode)
    }

    /// The first packet is turned away, for want of the password or an open id.
    pub fn is_turned_away(&self) -> bool {
        self.request(0).is_some_and(|request| {
            let known = |id| self.before.ids.contains(&id);
            let password = self.set("auth") && !self.before.authenticated;
            match request.opcode {
                Opcode::Connect | Opcode::Abort => false,
                Opcode::Disconnect => !request.headers.connection_id().is_none_or(known),
                _ => password || !request.headers.connection_id().is_none_or(known),
            }
        })
    }

    /// It is turned away with what follows it, up to a final packet.
    pub fn is_drained(&self) -> bool {
        self.is_turned_away()
            && self.before.srm
            && self.request(0).is_some_and(|request| {
                !request.is_final && matches!(request.opcode, Opcode::Put | Opcode::Get)
            })
    }
}

/// The peer's bytes, as packets of operations.
#[derive(Default)]
struct Stream {
    sent: Vec<u8>,
    used: usize,
    packet: Vec<u8>,
    /// A read went past a packet's end, so it is not known any more which operation a
    /// packet belongs to.
    lost: bool,
}

impl Stream {
    fn read(&mut self, count: usize, operation: &mut Operation) {
        let end = (self.used + count).min(self.sent.len());
        self.packet.extend_from_slice(&self.sent[self.used..end]);
        self.used = end;

        match packet_length(&self.packet) {
            Some(length) if length == self.packet.len() && !self.lost => {
                operation.packets.push(std::mem::take(&mut self.packet));
            }
            Some(length) if length >= 3 && length < self.packet.len() => self.lost = true,
            _ => {}
        }
        if self.lost {
            operation.packets.clear();
        }
        operation.begun = self.packet.len();
    }
}

/// The counts, in the order in which they are printed.
struct Counts {
    rules: Vec<u64>,
    codes: Vec<u64>,
    ends: Vec<u64>,
    sessions: u64,
}

impl Counts {
    fn new() -> Counts {
        Counts {
            rules: vec![0; RULES.len()],
            codes: vec![0; CODES.len()],
            ends: vec![0; ENDS.len()],
            sessions: 0,
        }
    }

    fn add(&mut self, operation: &Operation) {
        for (count, (_, holds)) in self.rules.iter_mut().zip(RULES) {
            *count += u64::from(holds(operation));
        }
        for (count, code) in self.codes.iter_mut().zip(CODES) {
            *count += operation.count(&format!("out {:02x}", code | 0x80)) as u64;
        }
        for (count, end) in self.ends.iter_mut().zip(ENDS) {
            *count += u64::from(operation.ends(*end));
        }
    }

    fn print(&self, output: &mut impl Write) -> std::io::Result<()> {
        writeln!(output, "{:>9} sessions", self.sessions)?;
        for (count, code) in self.codes.iter().zip(CODES) {
            writeln!(output, "{count:>9} reply {:02x}", code | 0x80)?;
        }
        for (count, end) in self.ends.iter().zip(ENDS) {
            writeln!(output, "{count:>9} end {end}")?;
        }
        for (count, (name, _)) in self.rules.iter().zip(RULES) {
            writeln!(output, "{count:>9} {name}")?;
        }
        let all = self.rules.iter().chain(&self.codes).chain(&self.ends);
        let missing = all.filter(|count| **count == 0).count();
        writeln!(output, "kinds {} missing {missing}", self.kinds())
    }

    fn kinds(&self) -> usize {
        self.rules.len() + self.codes.len() + self.ends.len()
    }
}

/// A transcript while it is read.
struct Cover {
    counts: Counts,
    operation: Operation,
    stream: Stream,
}

impl Cover {
    /// `None` for a line that is not of a transcript.
    fn line(&mut self, line: &str) -> Option<()> {
        let (word, rest) = line.split_once(' ').unwrap_or((line, ""));
        match word {
            "start" => {
                self.counts.sessions += 1;
                self.stream = Stream::default();
                self.begin(rest.to_string(), State::fresh());
            }
            "sent" => {
                self.stream.sent = hex::parse(rest)?;
                self.stream.used = 0;
            }
            "read" => self.stream.read(rest.parse().ok()?, &mut self.operation),
            "state" => {
                let state = State::parse(line)?;
                self.operation.after = state.clone();
                self.counts.add(&self.operation);
                let settings = std::mem::take(&mut self.operation.settings);
                self.begin(settings, state);
            }
            _ => self.operation.lines.push(line.to_string()),
        }
        Some(())
    }

    fn begin(&mut self, settings: String, before: State) {
        self.operation = Operation {
            settings,
            before,
            ..Operation::default()
        };
    }
}

/// Reads a transcript and prints a line for each kind of event.
pub fn run(input: impl BufRead, output: &mut impl Write) -> Result<(), Stop> {
    let mut lines = Lines::new(input);
    let mut cover = Cover {
        counts: Counts::new(),
        operation: Operation::default(),
        stream: Stream::default(),
    };

    while lines.advance()? {
        cover.line(lines.text()).ok_or_else(|| lines.bad())?;
    }
    Ok(cover.counts.print(output)?)
}
