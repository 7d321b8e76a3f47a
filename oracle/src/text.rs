//! `oracle text`: text as the source's headers read and write it.

use crate::error::Error;
use crate::header::Header;
use crate::hex;

/// The bytes of a header before its payload: id and length.
const PREFIX: usize = 3;

const NAME: u8 = 0x01;
const TYPE: u8 = 0x42;

pub fn answer(line: &str, out: &mut Vec<u8>) -> Option<()> {
    let (command, argument) = line.split_once(' ')?;
    let bytes = hex::parse(argument)?;

    match command {
        "utf16" => decoded(NAME, &bytes, out),
        "utf8" => decoded(TYPE, &bytes, out),
        "encode16" => encoded(Header::Name, bytes, out),
        "encode8" => encoded(Header::Type, bytes, out),
        "encodetime" => encoded(Header::Time, bytes, out),
        _ => None,
    }
}

/// Reads `payload` as the header `id` and gives the text's UTF-8.
fn decoded(id: u8, payload: &[u8], out: &mut Vec<u8>) -> Option<()> {
    let length = u16::try_from(PREFIX + payload.len()).ok()?;
    let mut header = vec![id];
    header.extend_from_slice(&length.to_be_bytes());
    header.extend_from_slice(payload);

    match Header::parse(&header) {
        Ok(([], Header::Name(text) | Header::Type(text))) => {
            hex::push(out, text.as_bytes());
            Some(())
        }
        _ => None,
    }
}

/// Writes the text, given as its UTF-8, as a header and gives the payload.
fn encoded(header: fn(String) -> Header, utf8: Vec<u8>, out: &mut Vec<u8>) -> Option<()> {
    match header(String::from_utf8(utf8).ok()?).to_bytes() {
        Ok(bytes) => hex::push(out, &bytes[PREFIX..]),
        Err(Error::HeaderTooLarge { length, .. }) => {
            out.extend_from_slice(format!("error HeaderTooLarge {length}").as_bytes())
        }
        Err(_) => return None,
    }
    Some(())
}
