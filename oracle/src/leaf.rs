//! `oracle leaf`: the records below the engine, one question and one answer a line.

use std::io::Write;

use crate::auth::{request_digest, Credentials, DigestChallenge, DigestResponse, Realm};
use crate::error::Error;
use crate::header::Headers;
use crate::hex;
use crate::opcode::Opcode;
use crate::packet::{packet_length, ConnectParameters, Request, Response, SetPathFlags};
use crate::queue;
use crate::response::ResponseCode;
use crate::show::{self, put};
use crate::tlv::{self, TagLengthValue};

const UNREADABLE: &[u8] = b"unreadable";
const UNKNOWN: &[u8] = b"unknown";

/// `None` for a line that does not follow the grammar.
pub fn answer(line: &str, out: &mut Vec<u8>) -> Option<()> {
    let words: Vec<&str> = line.split(' ').collect();

    match words[..] {
        ["first", byte] => first(one_byte(byte)?, out),
        ["code", byte] => code(one_byte(byte)?, out),
        ["headers", bytes] => headers(&hex::parse(bytes)?, out),
        ["packet", bytes] => packet(&hex::parse(bytes)?, out),
        ["answer", bytes] => reply(&hex::parse(bytes)?, false, out),
        ["connect-answer", bytes] => reply(&hex::parse(bytes)?, true, out),
        ["length", bytes] => length(&hex::parse(bytes)?, out),
        ["request", opcode, is_final, fields, headers] => {
            let opcode = one_byte(opcode)?;
            let is_final = finality(is_final)?;
            request(opcode, is_final, fields, &hex::parse(headers)?, out)?
        }
        ["response", code, is_final, fields, headers] => {
            let code = one_byte(code)?;
            let is_final = finality(is_final)?;
            response(code, is_final, fields, &hex::parse(headers)?, out)?
        }
        ["tags", list] => tags(&hex::parse(list)?, out),
        ["write-tags", ref tags @ ..] => {
            let tags: Option<Vec<_>> = tags.iter().map(|tag| triplet(tag)).collect();
            written_tags(&tags?, out)
        }
        ["challenge", list] => match challenge(&hex::parse(list)?) {
            Some(challenge) => show::challenge(out, &challenge),
            None => out.extend_from_slice(UNREADABLE),
        },
        ["response-list", list] => match digest_response(&hex::parse(list)?) {
            Some(response) => show::response(out, &response),
            None => out.extend_from_slice(UNREADABLE),
        },
        ["verify", challenge, response, password] => {
            let (challenge, response) = (hex::parse(challenge)?, hex::parse(response)?);
            verify(&challenge, &response, &hex::parse(password)?, out)
        }
        ["respond", challenge, user, password] => {
            let credentials = credentials(user, password)?;
            respond(&hex::parse(challenge)?, &credentials, out)
        }
        ["write-challenge", nonce, user_id_required, read_only, realm] => {
            let challenge = DigestChallenge {
                nonce: hex::parse_array(nonce)?,
                user_id_required: flag(user_id_required)?,
                read_only: flag(read_only)?,
                realm: self::realm(realm)?,
            };
            written_tags(&challenge.to_tlvs(), out)
        }
        ["write-response", digest, user, nonce] => {
            let response = DigestResponse {
                request_digest: hex::parse_array(digest)?,
                user_id: self::user(user)?,
                nonce: match nonce {
                    "none" => None,
                    nonce => Some(hex::parse_array(nonce)?),
                },
            };
            written_tags(&response.to_tlvs(), out)
        }
        ["digest", nonce, password] => {
            let (nonce, password) = (hex::parse(nonce)?, hex::parse(password)?);
            hex::push(out, &request_digest(&nonce, &password));
        }
        ["queue", limit, headers, body, steps] => {
            let limit = limit.parse().ok()?;
            let body = match body {
                "none" => None,
                bytes => Some(hex::parse(bytes)?),
            };
            match parse_headers(&hex::parse(headers)?) {
                Some(headers) => queue::answer(limit, headers, body, steps, out)?,
                None => out.extend_from_slice(UNREADABLE),
            }
        }
        ["find-response", headers] => find_response(&hex::parse(headers)?, out),
        ["find-challenges", headers] => find_challenges(&hex::parse(headers)?, out),
        _ => return None,
    }

    Some(())
}

fn one_byte(text: &str) -> Option<u8> {
    hex::parse_array(text).map(|[byte]| byte)
}

fn flag(text: &str) -> Option<bool> {
    match text {
        "0" => Some(false),
        "1" => Some(true),
        _ => None,
    }
}

fn finality(text: &str) -> Option<bool> {
    match text {
        "final" => Some(true),
        "more" => Some(false),
        _ => None,
    }
}

fn finality_word(is_final: bool) -> &'static str {
    if is_final {
        "final"
    } else {
        "more"
    }
}

/// `TAG=VALUE`.
fn triplet(text: &str) -> Option<TagLengthValue> {
    let (tag, value) = text.split_once('=')?;
    Some(TagLengthValue::new(one_byte(tag)?, hex::parse(value)?))
}

/// `none` or `CHARSET:VALUE`.
fn realm(text: &str) -> Option<Option<Realm>> {
    if text == "none" {
        return Some(None);
    }
    let (charset, value) = text.split_once(':')?;
    Some(Some(Realm {
        charset: one_byte(charset)?,
        value: hex::parse(value)?,
    }))
}

/// `nouser` or a user id.
fn user(text: &str) -> Option<Option<Vec<u8>>> {
    match text {
        "nouser" => Some(None),
        user => hex::parse(user).map(Some),
    }
}

/// `nouser PASSWORD` or `USERID PASSWORD`, as scripts of `oracle engine` have it too.
pub fn credentials(user: &str, password: &str) -> Option<Credentials> {
    Some(Credentials {
        user_id: self::user(user)?,
        password: hex::parse(password)?,
    })
}

/// A list of headers that fills `bytes`.
pub fn parse_headers(bytes: &[u8]) -> Option<Headers> {
    Headers::parse(bytes).ok().map(|(_, headers)| headers)
}

fn first(byte: u8, out: &mut Vec<u8>) {
    match Opcode::from_byte(byte) {
        Ok((opcode, is_final)) => {
            put!(
                out,
                "{} {:02x} {} {:02x}",
                show::opcode(opcode),
                opcode.value(),
                finality_word(is_final),
                opcode.to_byte(is_final)
            );
        }
        Err(_) => out.extend_from_slice(UNKNOWN),
    }
}

fn code(byte: u8, out: &mut Vec<u8>) {
    match ResponseCode::try_from(byte) {
        Ok(code) => {
            put!(
                out,
                "{:02x} {} {:02x} {:02x}",
                u8::from(code),
                if code.is_success() {
                    "success"
                } else {
                    "other"
                },
                code.to_byte(true),
                code.to_byte(false)
            );
        }
        Err(_) => out.extend_from_slice(UNKNOWN),
    }
}

fn headers(bytes: &[u8], out: &mut Vec<u8>) {
    match parse_headers(bytes) {
        Some(headers) => show::headers(out, &headers),
        None => out.extend_from_slice(UNREADABLE),
    }
}

fn packet(bytes: &[u8], out: &mut Vec<u8>) {
    let Ok((rest, request)) = Request::parse(bytes) else {
        return out.extend_from_slice(UNREADABLE);
    };

    put!(
        out,
        "{} {:02x} {} connect=",
        show::opcode(request.opcode),
        request.opcode.value(),
        finality_word(request.is_final)
    );
    show::optional(
        out,
        request
            .connect
            .map(show::connect_fields)
            .as_ref()
            .map(|f| &f[..]),
    );
    out.extend_from_slice(b" set_path=");
    show::optional(
        out,
        request
            .set_path
            .map(show::set_path_flags)
            .as_ref()
            .map(|f| &f[..]),
    );
    put!(out, " left={} ", rest.len());
    show::headers(out, &request.headers);
}

fn reply(bytes: &[u8], is_connect: bool, out: &mut Vec<u8>) {
    let parsed = if is_connect {
        Response::parse_connect(bytes)
    } else {
        Response::parse(bytes)
    };
    let Ok((rest, response)) = parsed else {
        return out.extend_from_slice(UNREADABLE);
    };

    put!(
        out,
        "{:02x} {} connect=",
        u8::from(response.code),
        finality_word(response.is_final)
    );
    show::optional(
        out,
        response
            .connect
            .map(show::connect_fields)
            .as_ref()
            .map(|f| &f[..]),
    );
    put!(out, " left={} ", rest.len());
    show::headers(out, &response.headers);
}

fn length(bytes: &[u8], out: &mut Vec<u8>) {
    match packet_length(bytes) {
        Some(length) => {
            put!(out, "{length}");
        }
        None => out.extend_from_slice(b"none"),
    }
}

fn request(
    opcode: u8,
    is_final: bool,
    fields: &str,
    headers: &[u8],
    out: &mut Vec<u8>,
) -> Option<()> {
    let Ok(opcode) = Opcode::try_from(opcode) else {
        out.extend_from_slice(UNKNOWN);
        return Some(());
    };
    let (connect, set_path) = match (opcode, fields) {
        (_, "default") => (None, None),
        (Opcode::Connect, fields) => (Some(connect_parameters(fields)?), None),
        (Opcode::SetPath, flags) => (None, Some(SetPathFlags::from(one_byte(flags)?))),
        _ => return None,
    };
    let Some(headers) = parse_headers(headers) else {
        out.extend_from_slice(UNREADABLE);
        return Some(());
    };

    let request = Request {
        opcode,
        is_final,
        connect,
        set_path,
        headers,
    };
    written(request.to_bytes(), out);
    Some(())
}

fn response(
    code: u8,
    is_final: bool,
    fields: &str,
    headers: &[u8],
    out: &mut Vec<u8>,
) -> Option<()> {
    let Ok(code) = ResponseCode::try_from(code) else {
        out.extend_from_slice(UNKNOWN);
        return Some(());
    };
    let connect = match fields {
        "none" => None,
        fields => Some(connect_parameters(fields)?),
    };
    let Some(headers) = parse_headers(headers) else {
        out.extend_from_slice(UNREADABLE);
        return Some(());
    };

    let response = Response {
        code,
        is_final,
        connect,
        headers,
    };
    written(response.to_bytes(), out);
    Some(())
}

fn connect_parameters(fields: &str) -> Option<ConnectParameters> {
    let [version, flags, high, low] = hex::parse_array(fields)?;
    Some(ConnectParameters {
        version,
        flags,
        max_packet_length: u16::from_be_bytes([high, low]),
    })
}

fn written(bytes: Result<Vec<u8>, Error>, out: &mut Vec<u8>) {
    match bytes {
        Ok(bytes) => hex::push(out, &bytes),
        Err(error) => {
            put!(out, "error {}", show::error(&error));
        }
    }
}

fn parse_tags(list: &[u8]) -> Option<Vec<TagLengthValue>> {
    TagLengthValue::parse_all(list).ok().map(|(_, tlvs)| tlvs)
}

fn tags(list: &[u8], out: &mut Vec<u8>) {
    match parse_tags(list) {
        Some(tlvs) => show::tags(out, &tlvs, b' '),
        None => out.extend_from_slice(UNREADABLE),
    }
}

fn written_tags(tlvs: &[TagLengthValue], out: &mut Vec<u8>) {
    let mut bytes = Vec::new();
    written(tlv::encode_all(tlvs, &mut bytes).map(|()| bytes), out);
}

fn challenge(list: &[u8]) -> Option<DigestChallenge> {
    DigestChallenge::from_tlvs(&parse_tags(list)?).ok()
}

fn digest_response(list: &[u8]) -> Option<DigestResponse> {
    DigestResponse::from_tlvs(&parse_tags(list)?).ok()
}

fn verify(challenge: &[u8], response: &[u8], password: &[u8], out: &mut Vec<u8>) {
    match (self::challenge(challenge), digest_response(response)) {
        (Some(challenge), Some(response)) => {
            put!(out, "{}", response.verify(&challenge, password));
        }
        _ => out.extend_from_slice(UNREADABLE),
    }
}

fn respond(challenge: &[u8], credentials: &Credentials, out: &mut Vec<u8>) {
    match self::challenge(challenge) {
        Some(challenge) => written_tags(&challenge.respond(credentials).to_tlvs(), out),
        None => out.extend_from_slice(UNREADABLE),
    }
}

fn find_response(headers: &[u8], out: &mut Vec<u8>) {
    let Some(headers) = parse_headers(headers) else {
        return out.extend_from_slice(UNREADABLE);
    };

    match DigestResponse::find(&headers) {
        Some(Ok(response)) => show::response(out, &response),
        Some(Err(_)) => out.extend_from_slice(b"unreadable-list"),
        None => out.extend_from_slice(b"none"),
    }
}

fn find_challenges(headers: &[u8], out: &mut Vec<u8>) {
    let Some(headers) = parse_headers(headers) else {
        return out.extend_from_slice(UNREADABLE);
    };

    match DigestChallenge::find_all(&headers) {
        Ok(challenges) => {
            put!(out, "{}", challenges.len());
            for challenge in &challenges {
                out.push(b' ');
                show::challenge(out, challenge);
            }
        }
        Err(_) => out.extend_from_slice(b"unreadable-list"),
    }
}
