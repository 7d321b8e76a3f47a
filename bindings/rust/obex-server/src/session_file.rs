//! [`SessionFile`]: an observer that writes what `docs/ARCHIVE.md` of the project asks to be filed of a
//! session.
use std::io::{self, Write};

use obex_engine::{End, Settings};

use crate::observer::Observer;

/// Writes the session file of `docs/ARCHIVE.md`: one line for each event, bytes in hexadecimal.
/// `tools/run/read-session` of the project prints the records of such a file.
#[derive(Debug)]
pub struct SessionFile<W> {
    to: W,
    /// The first write that failed; nothing is written after it.
    failed: Option<io::Error>,
}

impl<W: Write> SessionFile<W> {
    /// Writes to `to`, which is best buffered.
    pub fn new(to: W) -> SessionFile<W> {
        SessionFile { to, failed: None }
    }

    /// Flushes what was written and returns where it went, or the first error.
    pub fn finish(mut self) -> io::Result<W> {
        match self.failed.take() {
            Some(error) => Err(error),
            None => self.to.flush().map(|()| self.to),
        }
    }

    /// Returns the first error, if one happened: the file is not whole then.
    pub fn error(&self) -> Option<&io::Error> {
        self.failed.as_ref()
    }

    fn line(&mut self, line: std::fmt::Arguments<'_>) {
        if self.failed.is_none() {
            self.failed = writeln!(self.to, "{line}").err();
        }
    }
}

/// Bytes in hexadecimal, `-` for none.
fn hex(bytes: &[u8]) -> String {
    if bytes.is_empty() {
        return "-".to_string();
    }
    bytes.iter().map(|byte| format!("{byte:02x}")).collect()
}

impl<W: Write> Observer for SessionFile<W> {
    fn started(&mut self, settings: &Settings) {
        self.line(format_args!("setting max_object_size {}", settings.max_object_size));
        self.line(format_args!("setting srm_supported {}", u8::from(settings.single_response_mode)));
        self.line(format_args!("setting authentication {}", u8::from(settings.authentication.is_some())));
        self.line(format_args!("setting refuse_trailing {}", u8::from(settings.refuse_trailing)));
    }

    fn bytes_taken(&mut self, bytes: &[u8]) {
        self.line(format_args!("in {}", hex(bytes)));
    }

    fn reply_sent(&mut self, packet: &[u8]) {
        self.line(format_args!("out {}", hex(packet)));
    }

    fn password_checked(&mut self, _: Option<&[u8]>, right: bool) {
        self.line(format_args!("password {}", if right { "right" } else { "wrong" }));
    }

    fn nonce_given(&mut self, nonce: [u8; 16]) {
        self.line(format_args!("nonce {}", hex(&nonce)));
    }

    fn reply_given(&mut self, code: u8, headers: &[u8]) {
        self.line(format_args!("reply {code:02x} {}", hex(headers)));
    }

    fn object_given(&mut self) {
        self.line(format_args!("object"));
    }

    fn connections_closed(&mut self, ids: &[u32]) {
        let ids: Vec<String> = ids.iter().map(|id| format!("{id:08x}")).collect();
        self.line(format_args!("close {}", ids.join(",")));
    }

    fn ended(&mut self, end: End) {
        self.line(format_args!("end {}", end.number()));
    }
}
