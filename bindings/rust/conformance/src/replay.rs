//! Stored transcripts (`crates/replay`), played to the wrapper of the engine: what it gives is
//! compared with the lines of `stdout`, but for `state` lines, which it does not show.
use std::fs;

use obex_engine::{Authentication, Engine, Event, HostRequest, Settings};

use crate::hex;

fn shown(bytes: &[u8]) -> String {
    let mut out = Vec::new();
    if bytes.len() > 512 {
        out.extend_from_slice(format!("#{}:", bytes.len()).as_bytes());
        hex::push(&mut out, &obex_protocol::md5_of(bytes));
    } else {
        hex::push(&mut out, bytes);
    }
    String::from_utf8(out).unwrap()
}

fn flag(b: bool) -> u8 {
    b.into()
}

/// The line of `stdout` for a request; none for one that the original has not.
fn line(request: HostRequest) -> Option<String> {
    let packet = |name: &str, packet: &[u8]| {
        // header bytes as they were received
        let from = match name { "connect" => 7, "set_path" => 5, _ => 3 };
        format!("{name} final={} headers={}", packet[0] >> 7, shown(&packet[from..]))
    };
    let optional = |bytes: Option<&[u8]>| bytes.map_or("none".to_string(), shown);
    Some(match request {
        HostRequest::Connect { packet: p } => format!("{} fields={}", packet("connect", p), shown(&p[3..7])),
        HostRequest::Disconnect { packet: p } => packet("disconnect", p),
        HostRequest::SetPath { packet: p, backup, no_create } => {
            format!("{} backup={} no_create={}", packet("set_path", p), flag(backup), flag(no_create))
        }
        HostRequest::Abort { packet: p } => packet("abort", p),
        HostRequest::Put { headers, body } => format!("put final=1 headers={} body={}", shown(headers), optional(body)),
        HostRequest::Get { headers } => format!("get final=1 headers={}", shown(headers)),
        HostRequest::Action { headers } => format!("action final=1 headers={}", shown(headers)),
        HostRequest::Session { headers } => format!("session final=1 headers={}", shown(headers)),
        HostRequest::UserDefined { opcode, headers } => format!("user_defined final=1 headers={} opcode={opcode:02x}", shown(headers)),
        HostRequest::Password { user_id } => format!("password {}", optional(user_id)),
        HostRequest::Nonce => return None,
        HostRequest::Credentials { nonce, user_id_required, read_only, realm, .. } => format!(
            "credentials nonce={} user_id_required={} read_only={} realm={}",
            shown(&nonce), flag(user_id_required), flag(read_only),
            realm.map_or("none".to_string(), |r| format!("{:02x}:{}", r[0], shown(&r[1..])))
        ),
        HostRequest::Read { room } => format!("body-read {room}"),
    })
}

/// A request is told with the Target that it names if the session's `start` line asks for that.
fn tell(engine: &Engine, shows: bool, out: &mut Vec<String>) {
    match engine.event() {
        Event::Request(request) => {
            out.extend(line(request));
            if shows {
                out.push(target(engine));
            }
        }
        Event::End(end) => out.push(format!("end {}", end as u8)),
        _ => {}
    }
}

fn target(engine: &Engine) -> String {
    let Some(target) = engine.target() else { return "target none".to_string() };
    let mut bytes = target.as_bytes().to_vec();
    bytes.resize(16, 0);
    format!("target {} {}", target.as_bytes().len(), shown(&bytes))
}

pub fn run(stdin: &str, stdout: &str) -> bool {
    let stdin = fs::read_to_string(stdin).unwrap();
    let stdout = fs::read_to_string(stdout).unwrap();
    let split = |text: &str| -> Vec<Vec<String>> {
        let mut sessions: Vec<Vec<String>> = Vec::new();
        for line in text.lines() {
            if line.starts_with("start") {
                sessions.push(Vec::new());
            }
            if let Some(session) = sessions.last_mut() {
                session.push(line.to_string());
            }
        }
        sessions
    };
    let (mut played, mut passed_over, mut different) = (0, 0, 0);
    for (input, wanted) in split(&stdin).iter().zip(&split(&stdout)) {
        // sessions with stores of other lengths, or calls that this player does not make
        let own = |line: &String| ["stores", "hold", "taken", "acknowledge", "show"].iter().any(|w| line.starts_with(w));
        if input.iter().any(own) || input[0].contains("clear=1") || input[0].contains("counter=") {
            passed_over += 1;
            continue;
        }
        let wanted: Vec<&str> = wanted.iter().map(String::as_str).filter(|l| !l.starts_with("state") && !l.starts_with("own")).collect();
        let got = play(input, &wanted);
        // where the start is refused there is no engine to call further
        let wanted = if wanted[1] == "refused 8" { &wanted[..2] } else { &wanted[..] };
        played += 1;
        if got != wanted {
            different += 1;
            println!("different: {}", input[0]);
            for (a, b) in got.iter().zip(wanted) {
                if a != b {
                    println!("  got  {a:.200}\n  want {b:.200}");
                    break;
                }
            }
        }
    }
    println!("replayed {played} passed over {passed_over} different {different}");
    different == 0
}

fn play(input: &[String], wanted: &[&str]) -> Vec<String> {
    let mut out = vec![wanted[0].to_string()];
    let mut settings = Settings { max_object_size: 1 << 20, ..Settings::default() };
    let mut authentication = Authentication::default();
    let (mut required, mut charset, mut shows) = (false, 0u8, false);
    for word in input[0].split(' ').skip(1) {
        let (key, value) = word.split_once('=').unwrap();
        match key {
            "max_packet_length" => settings.max_packet_length = value.parse().unwrap(),
            "max_object_size" => settings.max_object_size = value.parse().unwrap(),
            "srm" => settings.single_response_mode = value == "1",
            "targets" => shows = value == "1",
            "auth" => required = value == "1",
            "realm" => authentication.realm = Some((0, hex::parse(value).unwrap())),
            "charset" => charset = hex::parse(value).unwrap()[0],
            "user_id_required" => authentication.user_id_required = value == "1",
            "read_only" => authentication.read_only = value == "1",
            "user_id_enforced" => authentication.user_id_enforced = value == "1",
            "refuse_trailing" => settings.refuse_trailing = value == "1",
            _ => {}
        }
    }
    if let Some(realm) = authentication.realm.as_mut() {
        realm.0 = charset;
    }
    settings.authentication = required.then_some(authentication);
    let mut engine = match Engine::start(&settings) {
        Ok(engine) => engine,
        Err(number) => {
            out.push(format!("refused {}", number as u8));
            return out;
        }
    };

    // the peer's bytes, in reads; what a read brought is offered until it is taken
    let mut sent: Vec<u8> = Vec::new();
    let mut read: Vec<u8> = Vec::new();
    let mut lines = input[1..].iter();
    let settle = |engine: &mut Engine, read: &mut Vec<u8>, out: &mut Vec<String>| loop {
        match engine.event() {
            Event::WantsBytes if read.is_empty() => break,
            Event::WantsBytes => {
                let taken = engine.bytes_offered(read).unwrap();
                read.drain(..taken);
            }
            Event::Reply(bytes) => {
                out.push(format!("out {}", shown(bytes)));
                engine.reply_taken().unwrap();
            }
            Event::Request(HostRequest::Abort { .. }) => {
                tell(engine, shows, out);
                engine.abort_acknowledged().unwrap();
                continue;
            }
            Event::Request(_) | Event::End(_) => break,
        }
        // a request or an end is told once, when it comes
        if !matches!(engine.event(), Event::Request(HostRequest::Abort { .. })) {
            tell(engine, shows, out);
        }
    };
    while let Some(text) = lines.next() {
        let words: Vec<&str> = text.split(' ').collect();
        let bytes = |word: &str| hex::parse(word).unwrap();
        let refused = match words[..] {
            ["sent", piece] => {
                sent.extend(bytes(piece));
                continue;
            }
            ["read", n] => {
                let n: usize = n.parse().unwrap();
                out.push(text.clone());
                read.extend(sent.drain(..n));
                if n == 0 {
                    let result = engine.stream_ended();
                    if let Event::End(end) = engine.event() {
                        if result.is_ok() {
                            out.push(format!("end {}", end as u8));
                        }
                    }
                    result.err()
                } else if engine.event() == Event::WantsBytes {
                    None
                } else {
                    engine.bytes_offered(&read).err()
                }
            }
            ["nonce", n] => engine.nonce_given(bytes(n).try_into().unwrap()).err(),
            ["answer", "reply", code, headers] => engine.reply_given(bytes(code)[0], &bytes(headers)).err(),
            ["answer", "object", headers, body] => engine.object_given(&bytes(headers), body == "body").err(),
            ["answer", "read", chunk] => engine.body_given(&bytes(chunk)).err(),
            ["answer", "readfail"] => engine.body_failed().err(),
            ["answer", "password", "none"] => engine.password_given(None).err(),
            ["answer", "password", p] => engine.password_given(Some(&bytes(p))).err(),
            ["answer", "credentials", "none"] => engine.credentials_given(None).err(),
            ["answer", "credentials", user, p] => {
                let id = (user != "nouser").then(|| bytes(user));
                engine.credentials_given(Some((id.as_deref(), &bytes(p)))).err()
            }
            ["close", ids] => {
                let ids = bytes(&ids.replace(',', ""));
                let ids: Vec<u32> = ids.chunks_exact(4).map(|id| u32::from_be_bytes(id.try_into().unwrap())).collect();
                engine.connections_closed(&ids).err()
            }
            _ => continue,
        };
        if let Some(refused) = refused {
            out.push(format!("refused {}", refused as u8));
        } else if words[0] != "read" && !matches!(engine.event(), Event::Request(HostRequest::Abort { .. })) {
            tell(&engine, shows, &mut out);
        }
        settle(&mut engine, &mut read, &mut out);
    }
    out
}
