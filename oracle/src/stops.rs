//! Where the port's rule of eight wrong passwords first acts in a session of the original,
//! which has no such rule: the comparison of the session ends there.

use crate::header::Header;
use crate::hex;
use crate::opcode::Opcode;
use crate::packet::Request;

/// Over how many checks of passwords the wrong ones are counted, and from how many of them on
/// a Connect with an AuthenticateResponse is stopped.
const WINDOW: usize = 64;
const TOO_MANY: usize = 8;

/// The lines of a session up to the operation that the port stops, by the session's
/// transcript, which has every piece that the peer sent; `None` if it stops none.
///
/// If a password is required, each Connect that can be read is an operation with a `password`
/// or a `nonce` line, and no other operation has one. So these operations and the stream's
/// Connects go together in order, but for Connects that a drain swallowed: a session with a
/// drain has the peer's SRM on, and those with many wrong passwords are made without it.
pub fn first_stop(lines: &[&[u8]]) -> Option<usize> {
    let checks = lines.iter().filter(|line| line.starts_with(b"password "));
    if checks.count() < TOO_MANY || !requires_password(lines.first()?) {
        return None;
    }
    let stream = stream(lines)?;
    let mut connects = packets(&stream).filter_map(carries_response);
    let mut wrong = Vec::new();
    let mut start = 1;

    while start < lines.len() {
        let rest = &lines[start..];
        let end = start + rest.iter().position(|l| l.starts_with(b"state "))? + 1;
        let operation = &lines[start..end];
        if has(operation, b"password ") || has(operation, b"nonce ") {
            let recent = &wrong[wrong.len().saturating_sub(WINDOW)..];
            let count = recent.iter().filter(|wrong| **wrong).count();
            if connects.next()? && count >= TOO_MANY {
                return Some(start);
            }
            if has(operation, b"password ") {
                wrong.push(has(operation, b"nonce "));
            }
        }
        start = end;
    }
    None
}

fn requires_password(start: &[u8]) -> bool {
    start
        .split(|byte| *byte == b' ')
        .any(|word| word == b"auth=1")
}

fn has(operation: &[&[u8]], word: &[u8]) -> bool {
    operation.iter().any(|line| line.starts_with(word))
}

/// All that the peer sent; `None` if a piece is told by its digest.
fn stream(lines: &[&[u8]]) -> Option<Vec<u8>> {
    let mut bytes = Vec::new();
    for piece in lines.iter().filter_map(|l| l.strip_prefix(b"sent ")) {
        bytes.extend(hex::parse(std::str::from_utf8(piece).ok()?)?);
    }
    Some(bytes)
}

/// The packets of a stream, up to one that is not whole or has a length under 3.
fn packets(stream: &[u8]) -> impl Iterator<Item = &[u8]> {
    let mut rest = stream;
    std::iter::from_fn(move || {
        let length = usize::from(u16::from_be_bytes([*rest.get(1)?, *rest.get(2)?]));
        if length < 3 || rest.len() < length {
            return None;
        }
        let (packet, after) = rest.split_at(length);
        rest = after;
        Some(packet)
    })
}

/// Of a Connect that can be read, whether it carries an AuthenticateResponse; `None` for any
/// other packet.
fn carries_response(packet: &[u8]) -> Option<bool> {
    let (_, request) = Request::parse(packet).ok()?;
    let response = |header: &Header| matches!(header, Header::AuthenticateResponse(_));
    (request.opcode == Opcode::Connect).then(|| request.headers.iter().any(response))
}
