//! What the rules of the engine lead to, as `oracle cover` counts it: the scope's Engine
//! section and the places where it can be read in another way.

use crate::auth::{DigestChallenge, DigestResponse};
use crate::cover::{value, Operation};
use crate::header::Header;
use crate::opcode::Opcode;
use crate::packet::Request;

pub const CODES: &[u8] = &[
    0x10, 0x20, 0x21, 0x22, 0x23, 0x24, 0x25, 0x26, 0x30, 0x31, 0x32, 0x33, 0x34, 0x35, 0x40, 0x41,
    0x42, 0x43, 0x44, 0x45, 0x46, 0x47, 0x48, 0x49, 0x4A, 0x4B, 0x4C, 0x4D, 0x4E, 0x4F, 0x50, 0x51,
    0x52, 0x53, 0x54, 0x55, 0x60, 0x61,
];

pub const ENDS: &[u8] = &[1, 2, 3, 4, 5, 7];

type Rule = (&'static str, fn(&Operation) -> bool);

pub const RULES: &[Rule] = &[
    // Requests and answers.
    ("request connect, final", |o| o.has("connect final=1")),
    ("request connect, not final", |o| o.has("connect final=0")),
    ("request disconnect, final", |o| o.has("disconnect final=1")),
    ("request disconnect, not final", |o| {
        o.has("disconnect final=0")
    }),
    ("request put", |o| o.has("put ")),
    ("request get", |o| o.has("get ")),
    ("request set_path, final", |o| o.has("set_path final=1")),
    ("request set_path, not final", |o| o.has("set_path final=0")),
    ("request set_path, both flags", |o| {
        o.event("set_path")
            .is_some_and(|line| line.ends_with("backup=1 no_create=1"))
    }),
    ("request action", |o| o.has("action ")),
    ("request session", |o| o.has("session ")),
    ("request user_defined 10", |o| user_defined(o, "10")),
    ("request user_defined 1f", |o| user_defined(o, "1f")),
    ("request abort, final", |o| o.has("abort final=1")),
    ("request abort, not final", |o| o.has("abort final=0")),
    ("request password without a user id", |o| {
        o.has("password none")
    }),
    ("request password, empty user id", |o| o.has("password -")),
    ("request password, user id of 255", |o| {
        o.event("password ")
            .is_some_and(|line| line.len() == 9 + 2 * 255)
    }),
    ("answer password none", |o| o.has("answer password none")),
    ("answer credentials none", |o| {
        o.has("answer credentials none")
    }),
    ("answer credentials without user id", |o| {
        o.has("answer credentials nouser")
    }),
    ("answer credentials, user id of 255", |o| {
        let user = o
            .event("answer credentials")
            .and_then(|line| line.split(' ').nth(2));
        user.is_some_and(|user| user.len() == 510)
    }),
    ("credentials for a realm with a charset", |o| {
        realm(o).is_some_and(|realm| realm.contains(':') && !realm.starts_with("00"))
    }),
    ("credentials for an empty realm", |o| {
        realm(o).is_some_and(|realm| realm.ends_with(":-"))
    }),
    ("credentials with both options", |o| {
        o.event("credentials ")
            .is_some_and(|line| line.contains("user_id_required=1 read_only=1"))
    }),
    ("first byte with bits 5 and 6 set", |o| {
        o.packets
            .iter()
            .any(|packet| packet[0] & 0x60 == 0x60 && packet[0] & 0x7F != 0x7F)
    }),
    ("text changed by reading", |o| {
        o.lines
            .iter()
            .any(|line| line.contains("headers=") && line.contains("fffd"))
    }),
    // Between operations.
    ("unreadable: 0x40", |o| turned_down(o, "c00003")),
    ("unknown first byte: 0x51", |o| turned_down(o, "d10003")),
    ("Connect without its fields: 0x40", |o| {
        o.packets.len() == 1 && o.packets[0][0] & 0x7F == 0 && o.packets[0].len() < 7
    }),
    ("Abort between operations", |o| {
        o.packets.len() == 1 && o.has("abort ")
    }),
    ("0x41 to an operation", |o| o.out() == "c10003" && plain(o)),
    ("0x53 for an id", |o| o.out() == "d30003" && plain(o)),
    ("0x53, though a second id is open", |o| {
        let open = |id: &u32| o.before.ids.contains(id);
        o.out() == "d30003" && plain(o) && ids(o.request(0)).iter().skip(1).any(|id| open(id))
    }),
    ("admitted, though a second id is not open", |o| {
        let open = |id: &u32| o.before.ids.contains(id);
        !o.is_turned_away()
            && o.request(0)
                .is_some_and(|r| !matches!(r.opcode, Opcode::Connect | Opcode::Abort))
            && ids(o.request(0)).iter().skip(1).any(|id| !open(id))
    }),
    // Drains.
    ("drain ended by the same opcode", |o| {
        drained_by(o, |first, last| first == last)
    }),
    ("drain ended by another opcode", |o| {
        drained_by(o, |first, last| first != last)
    }),
    ("drain ended by Connect", |o| {
        drained_by(o, |_, last| last == Opcode::Connect)
    }),
    ("drain ended by Disconnect", |o| {
        drained_by(o, |_, last| last == Opcode::Disconnect)
    }),
    ("drain with Connect inside, not final", |o| {
        o.is_drained()
            && (1..o.packets.len()).any(|place| {
                o.request(place)
                    .is_some_and(|r| r.opcode == Opcode::Connect && !r.is_final)
            })
    }),
    ("drain ended by Abort, final", |o| {
        o.is_drained() && o.has("abort final=1")
    }),
    ("drain ended by Abort, not final", |o| {
        o.is_drained() && o.has("abort final=0")
    }),
    ("drain for want of the password", |o| {
        o.is_drained() && o.out() == "c10003"
    }),
    ("drain and end 1", |o| o.is_drained() && o.ends(1)),
    ("drain and end 2", |o| o.is_drained() && o.ends(2)),
    ("drain and end 3", |o| o.is_drained() && o.ends(3)),
    ("drain and end 4", |o| o.is_drained() && o.ends(4)),
    ("turned away at once under SRM: final", |o| {
        o.is_turned_away() && o.before.srm && o.request(0).is_some_and(|r| r.is_final)
    }),
    ("turned away at once under SRM: neither Put nor Get", |o| {
        o.is_turned_away() && o.before.srm && !o.is_drained() && !is_final(o)
    }),
    ("turned away at once: no SRM", |o| {
        o.is_turned_away() && !o.before.srm && !is_final(o)
    }),
    // Connect.
    ("limit under 255 made 255", |o| {
        field(o).is_some_and(|field| field < 255)
    }),
    ("limit 255", |o| field(o) == Some(255)),
    ("limit 256", |o| field(o) == Some(256)),
    ("limit 65535", |o| field(o) == Some(65535)),
    ("challenge without a response", |o| {
        o.has("nonce ") && response(o).is_none()
    }),
    ("challenge, none stored before", |o| {
        o.has("nonce ") && !o.before.challenged && response(o).is_some()
    }),
    ("challenge after an unreadable response", |o| {
        o.has("nonce ") && o.before.challenged && matches!(response(o), Some(None))
    }),
    ("challenge after a wrong password", |o| {
        o.has("nonce ") && o.has("password ")
    }),
    ("challenge after a right digest with another nonce", |o| {
        o.has("nonce ")
            && o.has("answer password 31323334")
            && matches!(response(o), Some(Some((_, true))))
    }),
    ("password right, nonce named", |o| {
        o.has("password ") && o.has("connect ") && matches!(response(o), Some(Some((_, true))))
    }),
    ("password right, nonce not named", |o| {
        o.has("password ") && o.has("connect ") && matches!(response(o), Some(Some((_, false))))
    }),
    ("password right, SRM on from before", |o| {
        o.before.srm && o.has("password ") && o.has("connect ")
    }),
    ("password right, two responses", |o| {
        o.has("password ")
            && o.has("connect ")
            && count(o, |h| matches!(h, Header::AuthenticateResponse(_))) > 1
    }),
    ("authenticated, and then not", |o| {
        o.before.authenticated && o.has("nonce ")
    }),
    ("challenge with a realm of 255 together", |o| {
        o.has("nonce ") && o.out().starts_with("c100ff")
    }),
    ("0x50 in place of a challenge", |o| {
        o.has("nonce ") && o.out().starts_with("d0")
    }),
    ("Connect refused by the host", |o| {
        o.has("connect ") && !success(o)
    }),
    ("Connect refused after a right password", |o| {
        o.has("password ") && o.has("connect ") && !success(o)
    }),
    ("id found at the counter", |o| {
        o.after.next == o.before.next + 1
    }),
    ("id found beyond open ones", |o| {
        o.after.next > o.before.next + 1
    }),
    ("host's id opened, with a Target", |o| {
        opened(o) && o.after.next == o.before.next && target(o)
    }),
    ("host's id opened, without a Target", |o| {
        opened(o) && !target(o)
    }),
    ("host's id ffffffff", |o| {
        opened(o) && o.after.ids.contains(&u32::MAX)
    }),
    ("host's id already open", |o| {
        o.has("connect ") && !opened(o) && o.out().starts_with("a0") && answered(o, "cb")
    }),
    ("Who inserted", |o| {
        success(o) && target(o) && o.out().contains("4a00")
    }),
    ("empty Target", |o| {
        success(o)
            && o.request(0)
                .is_some_and(|r| r.headers.target() == Some(&[]))
    }),
    ("two Targets", |o| {
        count(o, |h| matches!(h, Header::Target(_))) > 1
    }),
    ("ids: 64 open", |o| o.after.ids.len() == 64),
    ("id opened though the reply is 0x50", |o| {
        opened(o) && o.out().starts_with("d0")
    }),
    ("SRM on though the reply is 0x50", |o| {
        srm_on(o) && o.out().starts_with("d0")
    }),
    ("SRM granted by Connect", |o| {
        srm_on(o) && o.out().ends_with("9701")
    }),
    ("SRM asked for, not supported", |o| {
        o.has("connect ") && asks(o) && !o.set("srm")
    }),
    ("SRM asked for when on", |o| {
        o.has("connect ") && asks(o) && o.before.srm
    }),
    ("Connect's reply of exactly the limit", |o| {
        o.has("connect ") && exact(o)
    }),
    ("Connect's reply over the limit", |o| {
        o.has("connect ") && o.out().starts_with("d0000710")
    }),
    ("credentials, then a reply over the limit", |o| {
        o.has("answer credentials") && o.out().starts_with("d0000710")
    }),
    ("credentials, then 7", |o| {
        o.has("answer credentials") && o.ends(7)
    }),
    ("Connect and 7", |o| o.has("connect ") && o.ends(7)),
    ("challenges, the first answered", |o| {
        challenges(o) > 1 && o.has("credentials ")
    }),
    ("challenges, one unreadable", |o| {
        success(o) && challenges(o) > 1 && !o.has("credentials ")
    }),
    // Put.
    ("put without a body", |o| ends_with(o, "put ", "body=none")),
    ("put with an empty body", |o| ends_with(o, "put ", "body=-")),
    ("put with a body as long as allowed", |o| {
        body(o) == Some(size(o))
    }),
    ("put with a body one short of it", |o| {
        body(o).is_some_and(|body| body + 1 == size(o))
    }),
    ("put of several packets", |o| {
        o.has("put ") && o.packets.len() > 2
    }),
    ("0x4D after a packet that is not final", |o| {
        too_large(o) && !last_final(o)
    }),
    ("0x4D after a final packet, no SRM", |o| {
        too_large(o) && last_final(o) && !srm(o)
    }),
    ("0x4D after a final packet, SRM", |o| {
        too_large(o) && last_final(o) && srm(o)
    }),
    ("past the limit under SRM, then Abort", |o| {
        srm(o) && o.begins(Opcode::Put) && sum(o) > size(o) && o.has("abort ")
    }),
    ("0x4D though SRM is asked for", |o| {
        too_large(o) && !last_final(o) && asks(o) && o.set("srm")
    }),
    ("SRM granted to a Put", |o| {
        o.begins(Opcode::Put) && o.has("out 9000059701")
    }),
    ("SRM asked for by a Put in its second packet", |o| {
        o.begins(Opcode::Put) && !asks(o) && o.request(1).is_some_and(|r| asks_srm(&r))
    }),
    ("Put under SRM: packets without a reply", |o| {
        o.begins(Opcode::Put) && srm(o) && o.count("out ") + 1 < o.packets.len()
    }),
    ("Put under SRM: Continue on a parameter", |o| {
        o.begins(Opcode::Put) && o.before.srm && o.has("out 900003") && !o.is_turned_away()
    }),
    ("Abort inside a Put", |o| {
        o.begins(Opcode::Put) && o.has("abort ") && !o.is_drained()
    }),
    ("host's 0x10 to a Put", |o| {
        o.has("put ") && o.has("answer reply 10") && o.out() == "900003"
    }),
    ("reply of exactly the limit", |o| {
        !o.has("connect ") && exact(o)
    }),
    ("reply over the limit", |o| {
        o.out() == "d00003" && o.has("answer reply") && !o.has("answer reply 50")
    }),
    ("7, no Connect", |o| o.ends(7) && !o.has("connect ")),
    // Get.
    ("get answered by a reply", |o| {
        o.has("get ") && o.has("answer reply")
    }),
    ("get, object without a body", |o| {
        ends_with(o, "answer object", "nobody")
    }),
    ("get, empty body", |o| {
        object(o) && o.out().ends_with("490003")
    }),
    ("get, one packet", |o| {
        object(o) && o.count("out a0") == 1 && o.count("out ") == 1
    }),
    ("get, several packets", |o| {
        object(o) && o.count("out 90") > 1 && o.count("out a0") == 1
    }),
    ("get, a packet without headers", |o| {
        object(o) && o.has("out 900003") && !o.before.srm
    }),
    ("get, body read of 1", |o| room(o, |room, _| room == 1)),
    ("get, body read of all that a packet holds, and one", |o| {
        room(o, |room, all| room == all + 1)
    }),
    ("get, body read of all that a packet holds", |o| {
        room(o, |room, all| room == all)
    }),
    ("get, body read after a short one", |o| {
        o.count("body-read") > 2 * o.count("out ")
    }),
    ("get, body read fails at first", |o| {
        o.has("answer readfail") && o.count("out 90") == 0
    }),
    ("get, body read fails later", |o| {
        o.has("answer readfail") && o.count("out 90") > 0
    }),
    ("get, header too long at first", |o| {
        too_long(o) && o.count("out ") == 1
    }),
    ("get, header too long later", |o| {
        too_long(o) && o.count("out 90") > 0
    }),
    ("SRM granted to a Get in Continue", |o| {
        o.begins(Opcode::Get) && o.has("out 9000059701")
    }),
    ("SRM granted in front of an object", |o| {
        object(o) && !o.before.srm && o.lines.iter().any(|line| granted_in_front(line))
    }),
    ("SRM not granted with a reply", |o| {
        o.has("get ") && o.has("answer reply") && asks(o) && o.set("srm") && o.packets.len() == 1
    }),
    ("Get under SRM: requests without a reply", |o| {
        o.begins(Opcode::Get) && o.before.srm && o.has("get ") && !is_final(o)
    }),
    ("Get under SRM: object without waiting", |o| streams(o)),
    ("Get under SRM: waits", |o| {
        object(o) && srm(o) && o.count("out 90") > 0 && !streams(o) && waits(o)
    }),
    ("Get without SRM: parameter does nothing", |o| {
        object(o) && !srm(o) && o.count("out 90") > 1 && waits(o)
    }),
    ("Abort in a Get's request", |o| {
        o.begins(Opcode::Get) && !o.has("get ") && o.has("abort ") && !o.is_drained()
    }),
    ("Abort between a Get's replies", |o| {
        object(o) && o.has("abort ")
    }),
    ("continuation that is not final", |o| {
        object(o) && o.packets.len() > 1 && o.last().is_some_and(|r| !r.is_final)
    }),
    ("continuation with an id that is not open", |o| {
        object(o)
            && ids(o.last())
                .first()
                .is_some_and(|id| !o.before.ids.contains(id))
            && !is_first(o)
    }),
    // Others.
    ("Action of several packets", |o| {
        o.has("action ") && o.packets.len() > 1
    }),
    ("Session of several packets", |o| {
        o.has("session ") && o.packets.len() > 1
    }),
    ("user-defined of several packets", |o| {
        o.has("user_defined ") && o.packets.len() > 1
    }),
    ("Action under SRM gets Continue", |o| {
        o.has("action ") && o.before.srm && o.has("out 900003")
    }),
    ("Action keeps SRM headers", |o| {
        o.has("action ")
            && o.packets.len() == 1
            && count(o, |h| matches!(h, Header::SingleResponseMode(_))) > 0
    }),
    ("Action keeps Body", |o| {
        o.has("action ") && o.packets.len() == 1 && count(o, |h| matches!(h, Header::Body(_))) > 0
    }),
    ("Disconnect without the password", |o| {
        o.has("disconnect ") && o.set("auth") && !o.before.authenticated
    }),
    ("Disconnect names none, ids open", |o| {
        o.has("disconnect ") && ids(o.request(0)).is_empty() && !o.before.ids.is_empty()
    }),
    ("Disconnect names none, none open", |o| {
        o.has("disconnect ") && ids(o.request(0)).is_empty() && o.before.ids.is_empty()
    }),
    ("Disconnect closes one of several", |o| {
        o.has("disconnect ") && !o.after.ids.is_empty()
    }),
    ("Disconnect closes the last", |o| {
        o.has("disconnect ") && o.before.ids.len() == 1 && !ids(o.request(0)).is_empty()
    }),
    ("Disconnect clears SRM", |o| o.before.srm && !o.after.srm),
    ("Disconnect clears the password", |o| {
        o.has("disconnect ") && o.before.authenticated && !o.after.authenticated
    }),
    ("Disconnect keeps the challenge", |o| {
        o.has("disconnect ") && o.after.challenged && o.after.limit == 255
    }),
    ("Disconnect's reply over 255, not over the old limit", |o| {
        let length = o
            .event("answer reply")
            .map_or(0, |line| (line.len() - 16) / 2 + 3);
        o.has("disconnect ")
            && o.out() == "d00003"
            && length <= o.before.limit
            && o.after.limit == 255
    }),
    // Ends.
    ("end 1 between operations", |o| {
        o.ends(1) && o.packets.is_empty() && o.lines.len() == 1
    }),
    ("end 1 inside a Put", |o| o.ends(1) && o.begins(Opcode::Put)),
    ("end 1 in a Get's request", |o| {
        o.ends(1) && o.begins(Opcode::Get) && !o.has("get ")
    }),
    ("end 1 between a Get's replies", |o| {
        o.ends(1) && o.has("get ")
    }),
    ("end 1 inside another", |o| {
        o.ends(1) && o.request(0).is_some() && !o.begins(Opcode::Put) && !o.begins(Opcode::Get)
    }),
    ("end 2 after one byte", |o| o.ends(2) && o.begun == 1),
    ("end 2 after two bytes", |o| o.ends(2) && o.begun == 2),
    ("end 2 inside an operation", |o| {
        o.ends(2) && !o.packets.is_empty()
    }),
    ("end 3 between operations", |o| {
        o.ends(3) && o.packets.is_empty()
    }),
    ("end 3 inside an operation", |o| {
        o.ends(3) && !o.packets.is_empty()
    }),
    ("end 3 with bytes behind it", |o| o.ends(3) && o.begun > 3),
    ("end 4: unknown first byte", |o| {
        unreadable_last(o, |first| Opcode::from_byte(first).is_err())
    }),
    ("end 4: the same opcode", |o| {
        unreadable_last(o, |first| first & 0x1F == o.packets[0][0] & 0x1F)
    }),
    ("end 4: Abort", |o| {
        unreadable_last(o, |first| first & 0x7F == 0x7F)
    }),
    ("end 5 inside a Put", |o| o.ends(5) && o.begins(Opcode::Put)),
    ("end 5 in a Get's request", |o| {
        o.ends(5) && o.begins(Opcode::Get) && !o.has("get ")
    }),
    ("end 5 between a Get's replies", |o| {
        o.ends(5) && o.has("get ")
    }),
    ("end 5 by another user-defined", |o| {
        let user = |r: Request| matches!(r.opcode, Opcode::UserDefined(_));
        o.ends(5) && o.request(0).is_some_and(user) && o.last().is_some_and(user)
    }),
];

fn user_defined(o: &Operation, opcode: &str) -> bool {
    o.event("user_defined")
        .and_then(|line| value(line, "opcode"))
        == Some(opcode)
}

fn realm(o: &Operation) -> Option<&str> {
    value(o.event("credentials ")?, "realm")
}

fn ends_with(o: &Operation, word: &str, end: &str) -> bool {
    o.event(word).is_some_and(|line| line.ends_with(end))
}

/// A single packet that cannot be read, and its reply.
fn turned_down(o: &Operation, reply: &str) -> bool {
    o.packets.len() == 1 && o.request(0).is_none() && o.out() == reply
}

/// The host was asked nothing.
fn plain(o: &Operation) -> bool {
    o.lines.len() == 1
}

fn is_final(o: &Operation) -> bool {
    o.request(0).is_none_or(|request| request.is_final)
}

fn is_first(o: &Operation) -> bool {
    o.packets.len() == 1
}

fn last_final(o: &Operation) -> bool {
    o.last().is_some_and(|request| request.is_final)
}

fn ids(request: Option<Request>) -> Vec<u32> {
    let headers = request.map(|request| request.headers).unwrap_or_default();
    headers
        .into_iter()
        .filter_map(|header| match header {
            Header::ConnectionID(id) => Some(id),
            _ => None,
        })
        .collect()
}

/// How many headers of a kind the first packet has.
fn count(o: &Operation, kind: fn(&Header) -> bool) -> usize {
    o.request(0).map_or(0, |request| {
        request.headers.iter().filter(|h| kind(h)).count()
    })
}

fn drained_by(o: &Operation, by: fn(Opcode, Opcode) -> bool) -> bool {
    o.is_drained()
        && plain(o)
        && o.has("out ")
        && o.request(0)
            .zip(o.last())
            .is_some_and(|(first, last)| by(first.opcode, last.opcode))
}

/// Connect's limit.
fn field(o: &Operation) -> Option<u16> {
    o.request(0)?
        .connect
        .map(|connect| connect.max_packet_length)
}

/// The first AuthenticateResponse: none, unreadable, or its user id's presence and whether
/// it names a nonce.
fn response(o: &Operation) -> Option<Option<(bool, bool)>> {
    let found = DigestResponse::find(&o.request(0)?.headers)?;
    Some(
        found
            .ok()
            .map(|found| (found.user_id.is_some(), found.nonce.is_some())),
    )
}

fn challenges(o: &Operation) -> usize {
    let headers = o
        .request(0)
        .map(|request| request.headers)
        .unwrap_or_default();
    match DigestChallenge::find_all(&headers) {
        Ok(all) => all.len(),
        Err(_) => count(o, |h| matches!(h, Header::AuthenticateChallenge(_))),
    }
}

/// The host accepts a Connect.
fn success(o: &Operation) -> bool {
    o.has("connect ") && o.has("answer reply 2")
}

fn target(o: &Operation) -> bool {
    o.request(0)
        .is_some_and(|request| request.headers.target().is_some())
}

fn opened(o: &Operation) -> bool {
    o.after.ids.len() > o.before.ids.len()
}

/// The host's answer has headers that begin with these digits.
fn answered(o: &Operation, digits: &str) -> bool {
    o.event("answer reply")
        .and_then(|line| line.split(' ').nth(3))
        .is_some_and(|headers| headers.starts_with(digits))
}

fn asks_srm(request: &Request) -> bool {
    request
        .headers
        .single_response_mode()
        .is_some_and(|mode| u8::from(mode) == 1)
}

fn asks(o: &Operation) -> bool {
    o.request(0).is_some_and(|request| asks_srm(&request))
}

fn srm_on(o: &Operation) -> bool {
    !o.before.srm && o.after.srm
}

/// SRM is on in the operation, by the session or because it was granted.
fn srm(o: &Operation) -> bool {
    o.before.srm || o.has("out 9000059701") || o.lines.iter().any(|line| granted_in_front(line))
}

fn granted_in_front(line: &str) -> bool {
    line.starts_with("out ") && line.get(10..14) == Some("9701")
}

fn exact(o: &Operation) -> bool {
    o.has("answer reply") && o.out().len() == 2 * o.after.limit
}

/// The Put limit.
fn size(o: &Operation) -> usize {
    value(&o.settings, "max_object_size")
        .and_then(|size| size.parse().ok())
        .unwrap_or(0)
}

/// The length of a Put's body.
fn body(o: &Operation) -> Option<usize> {
    match value(o.event("put ")?, "body")? {
        "none" => None,
        "-" => Some(0),
        body => Some(body.len() / 2),
    }
}

/// The bytes of all body headers.
fn sum(o: &Operation) -> usize {
    (0..o.packets.len())
        .filter_map(|place| o.request(place)?.headers.body())
        .map(|body| body.len())
        .sum()
}

fn too_large(o: &Operation) -> bool {
    o.out() == "cd0003" && !o.has("put ") && o.begins(Opcode::Put)
}

fn object(o: &Operation) -> bool {
    o.has("answer object")
}

/// Some body read has a room that stands so to what a packet holds of a body.
fn room(o: &Operation, stands: fn(usize, usize) -> bool) -> bool {
    o.lines.iter().any(|line| {
        line.strip_prefix("body-read ")
            .and_then(|room| room.parse().ok())
            .is_some_and(|room| stands(room, o.before.limit - 6))
    })
}

/// An object whose header does not fit any packet.
fn too_long(o: &Operation) -> bool {
    object(o) && o.out() == "d00003" && !o.has("answer readfail")
}

/// Packets of an object that follow one another with nothing read between them.
fn streams(o: &Operation) -> bool {
    object(o) && srm(o) && o.count("out ") > o.packets.len() + 1
}

fn waits(o: &Operation) -> bool {
    o.packets.iter().any(|packet| {
        Request::parse(packet).is_ok_and(|(_, request)| {
            request
                .headers
                .single_response_mode_parameter()
                .is_some_and(|parameter| parameter.requests_wait())
        })
    })
}

/// The last packet cannot be read, ends the engine with 4, and its first byte is so.
fn unreadable_last(o: &Operation, holds: impl Fn(u8) -> bool) -> bool {
    o.ends(4) && o.packets.len() > 1 && o.packets.last().is_some_and(|packet| holds(packet[0]))
}
