//! Bytes of the peer, with marks for those that are known only when they are sent.

use std::fmt::Write;

use crate::script::MARK_LENGTH;

/// Equal bytes in a row are written as a group from this number on.
const GROUP: usize = 12;

#[derive(Clone, Default)]
pub struct Wire {
    pub bytes: Vec<u8>,
    /// The script's marks, each with the place of its first byte.
    marks: Vec<(usize, String)>,
}

impl From<Vec<u8>> for Wire {
    fn from(bytes: Vec<u8>) -> Wire {
        Wire {
            bytes,
            marks: Vec::new(),
        }
    }
}

impl Wire {
    pub fn len(&self) -> usize {
        self.bytes.len()
    }

    pub fn has_marks(&self) -> bool {
        !self.marks.is_empty()
    }

    pub fn add(&mut self, bytes: &[u8]) {
        self.bytes.extend_from_slice(bytes);
    }

    pub fn append(&mut self, other: &Wire) {
        let start = self.len();
        self.add(&other.bytes);
        for (place, mark) in &other.marks {
            self.marks.push((start + place, mark.clone()));
        }
    }

    pub fn mark(&mut self, mark: String) {
        self.marks.push((self.len(), mark));
        self.add(&[0; MARK_LENGTH]);
    }

    /// A mark that does not fit any more leaves its zeros.
    pub fn truncate(&mut self, length: usize) {
        self.bytes.truncate(length);
        self.marks
            .retain(|(place, _)| place + MARK_LENGTH <= length);
    }

    /// A tag with its value.
    pub fn tag(&mut self, tag: u8, value: &Wire) {
        self.add(&[tag, value.len() as u8]);
        self.append(value);
    }

    /// Writes the bytes as a script has them.
    pub fn write(&self, out: &mut String) {
        let mut from = 0;
        for (place, mark) in &self.marks {
            write_hex(&self.bytes[from..*place], out);
            let _ = write!(out, "[{mark}]");
            from = place + MARK_LENGTH;
        }
        write_hex(&self.bytes[from..], out);
    }
}

/// A header with a length, or a packet without its first byte's meaning: what comes first,
/// the length of the whole, and the rest.
pub fn long(first: u8, rest: &Wire) -> Wire {
    let [high, low] = ((rest.len() + 3) as u16).to_be_bytes();
    let mut wire = Wire::from(vec![first, high, low]);
    wire.append(rest);
    wire
}

pub fn hex(bytes: &[u8]) -> String {
    if bytes.is_empty() {
        return "-".to_string();
    }
    let mut out = String::new();
    write_hex(bytes, &mut out);
    out
}

fn write_hex(bytes: &[u8], out: &mut String) {
    let mut rest = bytes;
    while let Some(first) = rest.first() {
        let run = rest.iter().take_while(|byte| *byte == first).count();
        if run >= GROUP {
            let _ = write!(out, "({first:02x}*{run})");
            rest = &rest[run..];
        } else {
            let _ = write!(out, "{first:02x}");
            rest = &rest[1..];
        }
    }
}
