//! The source's values as words of a line.

use std::io::Write;

use crate::auth::{DigestChallenge, DigestResponse};
use crate::error::Error;
use crate::header::{Header, HeaderValue, Headers};
use crate::hex;
use crate::opcode::Opcode;
use crate::packet::{ConnectParameters, SetPathFlags};
use crate::tlv::TagLengthValue;

/// Appends formatted text; writing to a `Vec` cannot fail.
macro_rules! put {
    ($out:expr, $($argument:tt)*) => {
        let _ = write!($out, $($argument)*);
    };
}
pub(crate) use put;

/// The name of the handler's method that an operation ends in.
pub fn opcode(opcode: Opcode) -> &'static str {
    match opcode {
        Opcode::Connect => "connect",
        Opcode::Disconnect => "disconnect",
        Opcode::Put => "put",
        Opcode::Get => "get",
        Opcode::SetPath => "set_path",
        Opcode::Action => "action",
        Opcode::Session => "session",
        Opcode::Abort => "abort",
        Opcode::UserDefined(_) => "user_defined",
    }
}

/// An error's name in the source and the length it complains of.
pub fn error(error: &Error) -> String {
    match error {
        Error::Io(error) => format!("Io {:?}", error.kind()),
        Error::Disconnected => "Disconnected".to_string(),
        Error::Malformed(kind) => format!("Malformed {kind:?}"),
        Error::HeaderTooLarge { length, .. } => format!("HeaderTooLarge {length}"),
        Error::PacketTooLarge { length, .. } => format!("PacketTooLarge {length}"),
        Error::ValueTooLarge { length, .. } => format!("ValueTooLarge {length}"),
        Error::Response(_) => "Response".to_string(),
        Error::Protocol(reason) => format!("Protocol {reason}"),
        Error::AuthenticationFailed => "AuthenticationFailed".to_string(),
    }
}

/// `VERSION`, `FLAGS` and `MAXIMUM` as the four bytes that they are in a packet.
pub fn connect_fields(parameters: ConnectParameters) -> [u8; 4] {
    let [high, low] = parameters.max_packet_length.to_be_bytes();
    [parameters.version, parameters.flags, high, low]
}

/// The flags byte that the source writes for `flags`.
pub fn set_path_flags(flags: SetPathFlags) -> [u8; 1] {
    [flags.into()]
}

/// `COUNT ID:KIND:VALUE … = REWRITTEN`.
pub fn headers(out: &mut Vec<u8>, headers: &Headers) {
    put!(out, "{}", headers.len());
    for header in headers {
        out.push(b' ');
        self::header(out, header);
    }
    out.extend_from_slice(b" = ");
    match rewritten(headers) {
        Ok(bytes) => hex::push(out, &bytes),
        Err(shown) => out.extend_from_slice(&shown),
    }
}

/// `ID:KIND:VALUE`.
fn header(out: &mut Vec<u8>, header: &Header) {
    put!(out, "{:02x}:", header.id());

    match header {
        Header::Name(text)
        | Header::Description(text)
        | Header::DestName(text)
        | Header::Type(text)
        | Header::Time(text) => self::text(out, text),
        Header::Target(bytes)
        | Header::HTTP(bytes)
        | Header::Body(bytes)
        | Header::EndOfBody(bytes)
        | Header::Who(bytes)
        | Header::WANUUID(bytes)
        | Header::ObjectClass(bytes) => self::bytes(out, bytes),
        Header::ApplicationParameters(parameters) => tag_list(out, &parameters.0),
        Header::AuthenticateChallenge(tlvs)
        | Header::AuthenticateResponse(tlvs)
        | Header::SessionParameters(tlvs) => tag_list(out, tlvs),
        Header::SessionSequenceNumber(value) => one_byte(out, *value),
        Header::ActionID(value) => one_byte(out, (*value).into()),
        Header::SingleResponseMode(value) => one_byte(out, (*value).into()),
        Header::SingleResponseModeParameters(value) => one_byte(out, (*value).into()),
        Header::Count(value)
        | Header::Length(value)
        | Header::LegacyTime(value)
        | Header::ConnectionID(value)
        | Header::CreatorID(value) => four_bytes(out, *value),
        Header::Permissions(value) => four_bytes(out, (*value).into()),
        Header::Other { value, .. } => match value {
            HeaderValue::Unicode(text) => self::text(out, text),
            HeaderValue::Bytes(bytes) => self::bytes(out, bytes),
            HeaderValue::U8(value) => one_byte(out, *value),
            HeaderValue::U32(value) => four_bytes(out, *value),
        },
    }
}

fn text(out: &mut Vec<u8>, text: &str) {
    out.extend_from_slice(b"text:");
    hex::push(out, text.as_bytes());
}

fn bytes(out: &mut Vec<u8>, bytes: &[u8]) {
    out.extend_from_slice(b"bytes:");
    hex::push(out, bytes);
}

fn one_byte(out: &mut Vec<u8>, value: u8) {
    put!(out, "u8:{value:02x}");
}

fn four_bytes(out: &mut Vec<u8>, value: u32) {
    put!(out, "u32:{value:08x}");
}

fn tag_list(out: &mut Vec<u8>, tlvs: &[TagLengthValue]) {
    out.extend_from_slice(b"tags:");
    tags(out, tlvs, b';');
}

/// `TAG=VALUE` of each triplet, `-` if there are none.
pub fn tags(out: &mut Vec<u8>, tlvs: &[TagLengthValue], separator: u8) {
    if tlvs.is_empty() {
        out.push(b'-');
    }
    for (place, tlv) in tlvs.iter().enumerate() {
        if place > 0 {
            out.push(separator);
        }
        put!(out, "{:02x}=", tlv.tag);
        hex::push(out, &tlv.value);
    }
}

/// The bytes that the source's writer gives for `headers`.
///
/// Replacing ill-formed UTF-8 makes text longer, so a Type or Time that was read may be
/// too long to be written. Then `Err` holds what to print: the hexadecimal of the
/// headers that can be written, and `<ID:TEXT>` for those that cannot.
pub fn rewritten(headers: &Headers) -> Result<Vec<u8>, Vec<u8>> {
    let mut bytes = Vec::with_capacity(headers.encoded_len());
    if headers.encode(&mut bytes).is_ok() {
        return Ok(bytes);
    }

    let mut shown = Vec::new();
    for header in headers {
        match (header.to_bytes(), header) {
            (Ok(bytes), _) => hex::push(&mut shown, &bytes),
            (Err(_), Header::Type(text) | Header::Time(text)) => {
                put!(shown, "<{:02x}:", header.id());
                hex::push(&mut shown, text.as_bytes());
                shown.push(b'>');
            }
            (Err(error), _) => {
                put!(shown, "<{:02x}:error {}>", header.id(), self::error(&error));
            }
        }
    }
    Err(shown)
}

/// `nonce=HEX user_id_required=B read_only=B realm=none|CHARSET:HEX`.
pub fn challenge(out: &mut Vec<u8>, challenge: &DigestChallenge) {
    out.extend_from_slice(b"nonce=");
    hex::push(out, &challenge.nonce);
    put!(
        out,
        " user_id_required={} read_only={} realm=",
        u8::from(challenge.user_id_required),
        u8::from(challenge.read_only)
    );
    match &challenge.realm {
        Some(realm) => {
            put!(out, "{:02x}:", realm.charset);
            hex::push(out, &realm.value);
        }
        None => out.extend_from_slice(b"none"),
    }
}

/// `digest=HEX user=none|HEX nonce=none|HEX`.
pub fn response(out: &mut Vec<u8>, response: &DigestResponse) {
    out.extend_from_slice(b"digest=");
    hex::push(out, &response.request_digest);
    out.extend_from_slice(b" user=");
    optional(out, response.user_id.as_deref());
    out.extend_from_slice(b" nonce=");
    optional(out, response.nonce.as_ref().map(|nonce| nonce.as_slice()));
}

/// The bytes, or `none`.
pub fn optional(out: &mut Vec<u8>, bytes: Option<&[u8]>) {
    match bytes {
        Some(bytes) => hex::push(out, bytes),
        None => out.extend_from_slice(b"none"),
    }
}
