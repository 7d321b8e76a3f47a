//! Header bytes of OBEX packets: found, read and written by the proved functions of `headers_c`, so
//! that no host writes UTF-16 or a length field by hand.
//!
//! ```
//! use obex_headers::{find, id, text, Headers};
//!
//! let headers = Headers::new().name("log")?.length(3)?.content_type("text/plain")?;
//! assert_eq!(headers[..11], [0x01, 0, 11, 0, b'l', 0, b'o', 0, b'g', 0, 0]);
//! assert_eq!(text(find(&headers, id::NAME).unwrap()), "log");
//! assert_eq!(find(&headers, id::DESCRIPTION), None);
//! # Ok::<(), obex_headers::TooLong>(())
//! ```
#![warn(missing_docs)]

pub mod id;
mod raw;
#[cfg(test)]
mod tests;

use std::error::Error;
use std::fmt::{self, Display, Formatter};
use std::ops::Deref;

/// Returns the value of the first header `id` among `headers`: the bytes behind the id, and behind the
/// length field if it has one. `headers` are those of a request or a response, without the fields in front.
pub fn find(headers: &[u8], id: u8) -> Option<&[u8]> {
    // SAFETY: the arguments are those that raw.rs declares; the function reads `headers` alone (proved).
    let place = unsafe { raw::obex_header_find(headers.as_ptr(), headers.len(), 0, id) };
    (place.found == 1).then(|| &headers[place.start..place.end])
}

/// Returns the text of a Name or a Description, by the value that [`find`] gave. What is not UTF-16 is
/// replaced, and a zero ends the text.
pub fn text(value: &[u8]) -> String {
    // Two bytes are one unit, which takes three bytes at most.
    read(2 * value.len() + 4, |store| {
        // SAFETY: as above; the function writes `store` alone (proved).
        unsafe { raw::obex_header_text(value.as_ptr(), value.len(), store.as_mut_ptr(), store.len()) }
    })
}

/// Returns the text of a Type or a Time, by the value that [`find`] gave.
pub fn ascii(value: &[u8]) -> String {
    // A byte that is not UTF-8 takes three.
    read(3 * value.len() + 4, |store| {
        // SAFETY: as above.
        unsafe { raw::obex_header_ascii(value.as_ptr(), value.len(), store.as_mut_ptr(), store.len()) }
    })
}

/// Decodes into a store of `room` bytes, which is enough.
fn read(room: usize, decode: impl Fn(&mut [u8]) -> raw::Wrote) -> String {
    let mut store = vec![0; room];
    let end = decode(&mut store).end;
    store.truncate(end);
    String::from_utf8_lossy(&store).into_owned()
}

/// Returns the number in the value of a Length, a Count or a ConnectionID.
pub fn number(value: &[u8]) -> Option<u32> {
    value.try_into().ok().map(u32::from_be_bytes)
}

/// A header over 65,535 bytes, or a user id over 255: nothing was written.
#[derive(Debug, Clone, Copy, PartialEq, Eq)]
pub struct TooLong;

impl Display for TooLong {
    fn fmt(&self, f: &mut Formatter<'_>) -> fmt::Result {
        f.write_str("a header is over 65,535 bytes, or a user id over 255")
    }
}

impl Error for TooLong {}

/// Header bytes as the engine and the client take them, one header after another.
#[derive(Debug, Clone, Default, PartialEq, Eq)]
pub struct Headers(Vec<u8>);

impl Headers {
    /// No headers.
    pub fn new() -> Headers {
        Headers::default()
    }

    /// Adds a Name.
    pub fn name(self, name: &str) -> Result<Headers, TooLong> {
        self.text(id::NAME, name)
    }

    /// Adds a Length.
    pub fn length(self, length: u32) -> Result<Headers, TooLong> {
        self.number(id::LENGTH, length)
    }

    /// Adds a Type.
    pub fn content_type(self, text: &str) -> Result<Headers, TooLong> {
        // SAFETY: the arguments are those that raw.rs declares; the function writes `store` alone (proved).
        self.written(text.len() + 4, |store, at| unsafe {
            raw::obex_header_put_type(store.as_mut_ptr(), store.len(), at, text.as_ptr(), text.len())
        })
    }

    /// Adds a ConnectionID. The client adds its own.
    pub fn connection_id(self, connection: u32) -> Result<Headers, TooLong> {
        self.number(id::CONNECTION_ID, connection)
    }

    /// Adds a Target.
    pub fn target(self, target: &[u8]) -> Result<Headers, TooLong> {
        self.bytes(id::TARGET, target)
    }

    /// Adds a text header, an id from 0x00 to 0x3F.
    pub fn text(self, id: u8, text: &str) -> Result<Headers, TooLong> {
        // SAFETY: as above.
        self.written(2 * text.len() + 5, |store, at| unsafe {
            raw::obex_header_put_text(store.as_mut_ptr(), store.len(), at, id, text.as_ptr(), text.len())
        })
    }

    /// Adds a header of bytes, an id from 0x40 to 0x7F.
    pub fn bytes(self, id: u8, value: &[u8]) -> Result<Headers, TooLong> {
        // SAFETY: as above.
        self.written(value.len() + 3, |store, at| unsafe {
            raw::obex_header_put_bytes(store.as_mut_ptr(), store.len(), at, id, value.as_ptr(), value.len())
        })
    }

    /// Adds a header of one byte, an id from 0x80 to 0xBF.
    pub fn byte(self, id: u8, value: u8) -> Result<Headers, TooLong> {
        // SAFETY: as above.
        self.written(2, |store, at| unsafe { raw::obex_header_put_u8(store.as_mut_ptr(), store.len(), at, id, value) })
    }

    /// Adds a header of a number, an id from 0xC0 to 0xFF.
    pub fn number(self, id: u8, value: u32) -> Result<Headers, TooLong> {
        // SAFETY: as above.
        self.written(5, |store, at| unsafe { raw::obex_header_put_u32(store.as_mut_ptr(), store.len(), at, id, value) })
    }

    /// Adds the answer to a challenge, an AuthenticateResponse.
    pub fn answer(self, challenge: &Challenge, user_id: Option<&[u8]>, password: &[u8]) -> Result<Headers, TooLong> {
        let (first, second) = challenge.halves();
        let user = user_id.unwrap_or(&[]);
        // A digest, a user id and a nonce, each behind a tag and a length.
        let mut tags = Headers(vec![]).written(user.len() + 38, |store, at| unsafe {
            // SAFETY: as above.
            raw::obex_challenge_answer(
                store.as_mut_ptr(), store.len(), at, first, second, user_id.is_some(), user.as_ptr(), user.len(), password.as_ptr(), password.len(),
            )
        })?;
        self.bytes(id::AUTHENTICATE_RESPONSE, &std::mem::take(&mut tags.0))
    }

    /// Writes a header of at most `room` bytes behind the others.
    fn written(mut self, room: usize, put: impl Fn(&mut [u8], usize) -> raw::Wrote) -> Result<Headers, TooLong> {
        let at = self.0.len();
        self.0.resize(at + room, 0);
        let wrote = put(&mut self.0, at);
        if wrote.number != 0 {
            return Err(TooLong);
        }
        self.0.truncate(wrote.end);
        Ok(self)
    }
}

impl Deref for Headers {
    type Target = [u8];

    fn deref(&self) -> &[u8] {
        &self.0
    }
}

impl AsRef<[u8]> for Headers {
    fn as_ref(&self) -> &[u8] {
        &self.0
    }
}

/// A challenge, by the value of an AuthenticateChallenge.
#[derive(Debug, Clone, Copy, PartialEq, Eq)]
pub struct Challenge<'a> {
    /// The nonce.
    pub nonce: [u8; 16],
    /// Whether the answer has to name a user.
    pub user_id_required: bool,
    /// Whether access is read only.
    pub read_only: bool,
    /// The realm, its charset byte first.
    pub realm: Option<&'a [u8]>,
}

impl Challenge<'_> {
    /// Reads the value of an AuthenticateChallenge; none if it is malformed.
    pub fn read(value: &[u8]) -> Option<Challenge<'_>> {
        // SAFETY: the arguments are those that raw.rs declares; the function reads `value` alone (proved).
        let read = unsafe { raw::obex_challenge_read(value.as_ptr(), value.len()) };
        (read.readable == 1).then(|| Challenge {
            nonce: ((u128::from(read.first) << 64) | u128::from(read.second)).to_be_bytes(),
            user_id_required: read.user_id_required == 1,
            read_only: read.read_only == 1,
            realm: (read.has_realm == 1).then(|| &value[read.realm_start..read.realm_end]),
        })
    }

    /// The nonce in two halves, the first byte the highest.
    fn halves(&self) -> (u64, u64) {
        let nonce = u128::from_be_bytes(self.nonce);
        ((nonce >> 64) as u64, nonce as u64)
    }
}
