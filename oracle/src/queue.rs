//! The question `queue` of `oracle leaf`: an object that is still to be sent, by the source's
//! `engine::body::Outgoing`, step by step.

use std::io::Cursor;

use crate::engine::body::Outgoing;
use crate::engine::io::{block_on, Blocking};
use crate::header::{Header, Headers};
use crate::hex;
use crate::packet::PACKET_PREFIX_LENGTH;

/// Answers with a word for each step, after the word `steps`. `None` for a step that does not
/// follow the grammar.
pub fn answer(
    limit: u16,
    headers: Headers,
    body: Option<Vec<u8>>,
    steps: &str,
    out: &mut Vec<u8>,
) -> Option<()> {
    let headers: Vec<Header> = headers.into();
    let body = body.map(|bytes| Blocking(Cursor::new(bytes)));
    let mut queue = Outgoing::new(headers, body);
    // The headers of the packet that was made last and not put back.
    let mut packet: Vec<Header> = Vec::new();

    out.extend_from_slice(b"steps");
    for step in steps.split(',') {
        out.push(b' ');
        match step {
            "n" => {
                let next = queue.next_packet(limit.into(), PACKET_PREFIX_LENGTH);
                packet = match block_on(next) {
                    Ok((packet, last)) => {
                        made(&packet, last, out);
                        packet
                    }
                    Err(_) => {
                        out.extend_from_slice(b"large");
                        Vec::new()
                    }
                };
            }
            "r" => {
                queue.rewind(std::mem::take(&mut packet));
                out.push(b'r');
            }
            _ => {
                queue.insert_early(one_header(step.strip_prefix("i:")?)?);
                out.push(b'i');
            }
        }
    }
    Some(())
}

/// `last:HEX` or `more:HEX`, the headers as the source's writer gives them.
fn made(packet: &[Header], last: bool, out: &mut Vec<u8>) {
    out.extend_from_slice(if last { b"last:" } else { b"more:" });

    let mut bytes = Vec::new();
    for header in packet {
        // What fits a packet can be written.
        header.encode(&mut bytes).unwrap();
    }
    hex::push(out, &bytes);
}

/// The one header that fills the bytes.
fn one_header(text: &str) -> Option<Header> {
    let bytes = hex::parse(text)?;
    let (_, headers) = Headers::parse(&bytes).ok()?;
    let headers: Vec<Header> = headers.into();

    match <[Header; 1]>::try_from(headers) {
        Ok([header]) => Some(header),
        Err(_) => None,
    }
}
