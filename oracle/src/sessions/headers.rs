//! Headers of every class: readable, canonical, broken.

use super::random::Random;
use super::wire::{long, Wire};
use crate::leaf::parse_headers;
use crate::show::rewritten;

pub const TARGET: u8 = 0x46;
pub const BODY: u8 = 0x48;
pub const END_OF_BODY: u8 = 0x49;
pub const WHO: u8 = 0x4A;
pub const CHALLENGE: u8 = 0x4D;
pub const RESPONSE: u8 = 0x4E;
pub const SRM: u8 = 0x97;
pub const SRM_PARAMETER: u8 = 0x98;
pub const CONNECTION_ID: u8 = 0xCB;

/// Ids by class, the known ones and some that are not.
const TEXT: [u8; 7] = [0x01, 0x05, 0x15, 0x00, 0x30, 0x3F, 0x02];
const BYTES: [u8; 10] = [0x46, 0x47, 0x48, 0x49, 0x4A, 0x50, 0x51, 0x40, 0x70, 0x7F];
const TAGS: [u8; 4] = [0x4C, 0x4D, 0x4E, 0x52];
const ONE: [u8; 7] = [0x93, 0x94, 0x97, 0x98, 0xB0, 0x80, 0xBF];
const FOUR: [u8; 9] = [0xC0, 0xC3, 0xC4, 0xCF, 0xD6, 0xF0, 0xC1, 0xFF, 0xD6];

/// What UTF-16 text is made of: letters, both halves of a pair, their edges.
const UNITS: [u16; 11] = [
    0x61, 0x62, 0xE9, 0x20AC, 0xD800, 0xDBFF, 0xDC00, 0xDFFF, 0xD7FF, 0xE000, 0xFFFD,
];

/// What UTF-8 text is made of: lead and following bytes, and their edges.
const UTF8: [u8; 20] = [
    0x61, 0x7F, 0x80, 0x8F, 0x90, 0x9F, 0xA0, 0xBF, 0xC0, 0xC2, 0xDF, 0xE0, 0xE1, 0xED, 0xEF, 0xF0,
    0xF1, 0xF4, 0xF5, 0xFF,
];

pub fn with(id: u8, payload: Vec<u8>) -> Vec<u8> {
    long(id, &Wire::from(payload)).bytes
}

pub fn number(id: u8, value: u32) -> Vec<u8> {
    let mut bytes = vec![id];
    bytes.extend_from_slice(&value.to_be_bytes());
    bytes
}

/// A header that can be read, but for ConnectionID, which has a meaning of its own.
pub fn any(random: &mut Random) -> Vec<u8> {
    match random.below(10) {
        0..=2 => with(random.pick(&TEXT), utf16(random)),
        3 => with(random.pick(&[0x42, 0x44]), utf8(random)),
        4 | 5 => {
            let length = random.pick(&[0, 1, 2, 3, 8, 20]);
            with(random.pick(&BYTES), random.bytes(length))
        }
        6 => with(random.pick(&TAGS), tags(random)),
        7 => one(random),
        _ => number(random.pick(&FOUR), random.next() as u32),
    }
}

/// Up to three of them.
pub fn some(random: &mut Random) -> Vec<u8> {
    let count = random.pick(&[0, 0, 1, 1, 2, 3]);
    (0..count).flat_map(|_| any(random)).collect()
}

fn one(random: &mut Random) -> Vec<u8> {
    let id = random.pick(&ONE);
    let value = match id {
        0x94 => random.pick(&[0x00, 0x01, 0x02, 0x80, 0xFF]),
        SRM | SRM_PARAMETER => random.pick(&[0, 1, 2]),
        _ => random.byte(),
    };
    vec![id, value]
}

/// UTF-16 with and without a terminator, with more behind it, with an odd byte.
fn utf16(random: &mut Random) -> Vec<u8> {
    let count = random.pick(&[0, 0, 1, 2, 3, 5]);
    let mut bytes: Vec<u8> = (0..count)
        .flat_map(|_| random.pick(&UNITS).to_be_bytes())
        .collect();
    match random.below(8) {
        0 => {}
        1 => bytes.push(random.byte()),
        2 => bytes.extend_from_slice(&[0, 0, 0, 0x61]),
        3 => bytes.extend_from_slice(&[0, 0, 0]),
        _ => bytes.extend_from_slice(&[0, 0]),
    }
    bytes
}

/// UTF-8, mostly ill-formed, with a zero at the end, inside or nowhere.
fn utf8(random: &mut Random) -> Vec<u8> {
    let count = random.below(7);
    let mut bytes: Vec<u8> = (0..count).map(|_| random.pick(&UTF8)).collect();
    match random.below(5) {
        0 => {}
        1 => bytes.extend_from_slice(&[0, 0x61]),
        2 => bytes.extend_from_slice(&[0, 0x61, 0]),
        _ => bytes.push(0),
    }
    bytes
}

fn tags(random: &mut Random) -> Vec<u8> {
    let mut bytes = Vec::new();
    for _ in 0..random.below(4) {
        let length = random.pick(&[0, 1, 1, 2, 4, 15, 16, 17]);
        bytes.extend_from_slice(&[random.pick(&[0, 1, 2, 3, 0xFF]), length as u8]);
        bytes.extend(random.bytes(length));
    }
    bytes
}

/// Bytes that no header begins with, or that are no whole header.
pub fn broken(random: &mut Random) -> Vec<u8> {
    match random.below(9) {
        0 => vec![
            random.pick(&[0x01, 0x48, 0x46, 0x42]),
            0,
            random.pick(&[0, 1, 2]),
        ],
        1 => vec![random.byte()],
        2 => vec![random.pick(&[0x01, 0x48, 0x49, 0x70]), 0],
        3 => vec![random.pick(&[0x01, 0x48, 0x49, 0x70]), 0, 5, 0x61],
        4 => vec![random.pick(&[0x46, 0x49]), 0xFF, 0xFF, 0x61],
        5 => number(CONNECTION_ID, 1)[..random.between(1, 4)].to_vec(),
        6 => vec![
            random.pick(&[SRM, SRM_PARAMETER]),
            random.pick(&[3, 4, 0x80, 0xFF]),
        ],
        7 => vec![0x94, random.pick(&[0x03, 0x04, 0x7F])],
        _ => with(random.pick(&TAGS), broken_tags(random)),
    }
}

/// A tag alone, a value cut short, something after a good list.
fn broken_tags(random: &mut Random) -> Vec<u8> {
    let mut list = tags(random);
    match random.below(3) {
        0 => list.push(random.byte()),
        1 => list.extend_from_slice(&[0, 1]),
        _ => list.extend_from_slice(&[0, 0x10, 1, 2, 3]),
    }
    list
}

/// What the source's writer gives for what its reader reads. The host's headers are made
/// by it, so its bytes are of this form.
pub fn canonical(bytes: &[u8]) -> Vec<u8> {
    parse_headers(bytes)
        .and_then(|headers| rewritten(&headers).ok())
        .unwrap_or_default()
}

/// Canonical headers of exactly `length` bytes together; none for 1, which there is not.
pub fn of_length(random: &mut Random, length: usize) -> Vec<u8> {
    let mut headers = Vec::new();
    let mut left = length;
    while left > 12 && headers.len() < 60 && random.one_in(3) {
        let header = canonical(&any(random));
        // What is left over must not be a single byte.
        if header.len() + 2 <= left {
            left -= header.len();
            headers.extend(header);
        }
    }
    headers.extend(single(random, left));
    headers
}

/// One canonical header of `length` bytes.
pub fn single(random: &mut Random, length: usize) -> Vec<u8> {
    match length {
        0 | 1 => Vec::new(),
        2 => vec![0xB1, random.byte()],
        3 => vec![random.pick(&[0x01, 0x46, 0x44, 0x70]), 0, 3],
        // An id that the host names means something in its answer to a Connect alone.
        5 => number(
            random.pick(&[0xC0, 0xC3, 0xF1, CONNECTION_ID]),
            random.pick(&[1, 2, 0x4711, 0x8000_0000]),
        ),
        4 => with(0x42, vec![0]),
        _ => longer(random, length - 3),
    }
}

fn longer(random: &mut Random, payload: usize) -> Vec<u8> {
    match random.below(6) {
        0 => {
            let mut text = vec![b'x'; payload - 1];
            text.push(0);
            with(0x42, text)
        }
        1 => with(0x44, vec![b'9'; payload]),
        2 if payload % 2 == 0 && payload >= 4 => {
            let mut text = [0, b'n'].repeat(payload / 2 - 1);
            text.extend_from_slice(&[0, 0]);
            with(random.pick(&[0x01, 0x30]), text)
        }
        _ => with(
            random.pick(&[0x46, 0x47, WHO, 0x70]),
            random.filler(payload),
        ),
    }
}
