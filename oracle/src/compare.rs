//! `oracle compare`: the transcripts of the original and of the port, session by session.

use std::io::{self, BufRead, BufReader, Write};

use crate::ahead::Ahead;
use crate::hex;
use crate::leaf::parse_headers;
use crate::lines::Stop;
use crate::show::rewritten;
use crate::stops::first_stop;

/// How many differing sessions are shown, and how much of a line of theirs.
const SHOWN: usize = 5;
const WIDTH: usize = 400;

/// A progress line is printed each time so many sessions were compared.
const PROGRESS: usize = 50_000;

/// The sessions of a transcript, one after the other.
struct Sessions<R> {
    input: R,
    /// The session read last, or the next one's first line.
    text: Vec<u8>,
    next: Vec<u8>,
}

impl<R: BufRead> Sessions<R> {
    fn new(input: R) -> Sessions<R> {
        Sessions {
            input,
            text: Vec::new(),
            next: Vec::new(),
        }
    }

    /// Reads the next session, from its `start` line on; `false` if there is none.
    fn advance(&mut self) -> io::Result<bool> {
        self.text.clear();
        self.text.append(&mut self.next);

        loop {
            let place = self.text.len();
            if self.input.read_until(b'\n', &mut self.text)? == 0 {
                return Ok(!self.text.is_empty());
            }
            if !self.text[place..].starts_with(b"start") {
                // What stands before the first session belongs to none.
                if place == 0 {
                    self.text.clear();
                }
                continue;
            }
            if place > 0 {
                self.next = self.text.split_off(place);
                return Ok(true);
            }
        }
    }

    /// The lines that are compared, of the first `count`: what the engine did, without what
    /// it was given, and nothing after the end and its state.
    fn events(&self, count: usize) -> Vec<&[u8]> {
        let mut events = Vec::new();
        let mut ended = false;
        for line in lines(&self.text).take(count) {
            if is_given(line) {
                continue;
            }
            events.push(line);
            if ended {
                break;
            }
            ended = line.starts_with(b"end ");
        }
        events
    }
}

fn lines(text: &[u8]) -> impl Iterator<Item = &[u8]> {
    text.split(|byte| *byte == b'\n')
        .filter(|line| !line.is_empty())
}

fn is_given(line: &[u8]) -> bool {
    [&b"sent "[..], b"answer ", b"nonce "]
        .iter()
        .any(|word| line.starts_with(word))
}

/// A session in which the two part.
struct Finding {
    original: Vec<u8>,
    /// The lines there, `None` where one side has none any more.
    expected: Option<Vec<u8>>,
    found: Option<Vec<u8>>,
}

/// Compares the transcripts at two paths, prints what differs and the count.
pub fn run(original: &str, port: &str, output: &mut impl Write) -> Result<(), Stop> {
    let mut original = Sessions::new(BufReader::with_capacity(1 << 18, Ahead::open(original)));
    let mut port = Sessions::new(BufReader::with_capacity(1 << 18, Ahead::open(port)));
    let mut findings = Vec::new();
    let (mut compared, mut different, mut cut) = (0, 0, 0);

    loop {
        let more = (original.advance()?, port.advance()?);
        if more == (false, false) {
            break;
        }
        compared += 1;
        let stop = first_stop(&lines(&original.text).collect::<Vec<_>>());
        cut += usize::from(stop.is_some());
        if let Some(finding) = difference(&original, &port, stop) {
            different += 1;
            keep(&mut findings, finding);
        }
        if compared % PROGRESS == 0 {
            eprintln!("{compared} sessions, {different} different");
        }
    }

    for finding in &findings {
        show(finding, output)?;
    }
    writeln!(output, "cut {cut}")?;
    writeln!(output, "compared {compared} different {different}")?;
    match different {
        0 => Ok(()),
        _ => Err(Stop::Different),
    }
}

/// Where two sessions part, if they do, up to the line `stop` of the original, if there is
/// one. An end of the original without a number is a finding too.
fn difference<R: BufRead>(
    original: &Sessions<R>,
    port: &Sessions<R>,
    stop: Option<usize>,
) -> Option<Finding> {
    let expected = original.events(stop.unwrap_or(usize::MAX));
    let mut found = port.events(usize::MAX);
    if stop.is_some() {
        found.truncate(expected.len());
    }
    let place = (0..expected.len().max(found.len())).find(|place| {
        let (expected, found) = (expected.get(*place), found.get(*place));
        !expected.zip(found).is_some_and(|(e, f)| same(e, f))
            || expected.is_some_and(|line| line.starts_with(b"end ?"))
    })?;

    Some(Finding {
        original: original.text.clone(),
        expected: expected.get(place).map(|line| line.to_vec()),
        found: found.get(place).map(|line| line.to_vec()),
    })
}

fn same(expected: &[u8], found: &[u8]) -> bool {
    expected == found || normalised(found).is_some_and(|found| expected == found)
}

/// A request line of the port with its headers, which are the bytes that the peer sent, as
/// the original prints them. `None` for a line without headers.
fn normalised(line: &[u8]) -> Option<Vec<u8>> {
    let line = std::str::from_utf8(line).ok()?;
    let (before, rest) = line.split_once("headers=")?;
    let (headers, after) = match rest.split_once(' ') {
        Some((headers, after)) => (headers, Some(after)),
        None => (rest, None),
    };

    let mut out = format!("{before}headers=").into_bytes();
    match rewritten(&parse_headers(&hex::parse(headers)?)?) {
        Ok(bytes) => hex::push(&mut out, &bytes),
        Err(shown) => out.extend_from_slice(&shown),
    }
    if let Some(after) = after {
        out.push(b' ');
        out.extend_from_slice(after.as_bytes());
    }
    Some(out)
}

/// Keeps the smallest findings, in order.
fn keep(findings: &mut Vec<Finding>, finding: Finding) {
    let length = finding.original.len();
    let place = findings.partition_point(|kept| kept.original.len() <= length);
    if place < SHOWN {
        findings.insert(place, finding);
        findings.truncate(SHOWN);
    }
}

fn show(finding: &Finding, output: &mut impl Write) -> io::Result<()> {
    writeln!(output, "--- the original's session")?;
    for line in lines(&finding.original) {
        write_line(output, "  ", line)?;
    }
    writeln!(output, "--- they part at")?;
    write_line(
        output,
        "original ",
        finding.expected.as_deref().unwrap_or(b"(nothing)"),
    )?;
    write_line(
        output,
        "port     ",
        finding.found.as_deref().unwrap_or(b"(nothing)"),
    )
}

fn write_line(output: &mut impl Write, before: &str, line: &[u8]) -> io::Result<()> {
    let shown = String::from_utf8_lossy(&line[..line.len().min(WIDTH)]);
    let more = if line.len() > WIDTH { "..." } else { "" };
    writeln!(output, "{before}{shown}{more}")
}
