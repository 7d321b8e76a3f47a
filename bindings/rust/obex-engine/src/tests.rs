//! Refusals, settings, and numbers that no call leaves.
use super::*;
use crate::engine::{BEGUN, LENGTH};

fn fresh() -> Engine {
    Engine::start(&Settings { max_object_size: 1024, ..Settings::default() }).unwrap()
}

#[test]
fn may_cross_threads() {
    fn both<T: Send + Sync>() {}
    both::<Engine>();
}

#[test]
fn wrong_calls_are_refused_and_change_nothing() {
    let mut engine = fresh();
    assert_eq!(engine.reply_taken(), Err(Refused::WrongMoment));
    assert_eq!(engine.reply_given(0x20, &[]), Err(Refused::WrongMoment));
    assert_eq!(engine.body_given(&[1]), Err(Refused::WrongMoment));
    assert_eq!(engine.nonce_given([0; 16]), Err(Refused::WrongMoment));
    assert_eq!(engine.event(), Event::WantsBytes);
    assert_eq!(engine.bytes_offered(&[0x82, 0, 3, 7]), Ok(3));
    let put = Event::Request(HostRequest::Put { headers: &[], body: None });
    assert_eq!(engine.event(), put);
    assert_eq!(engine.bytes_offered(&[1]), Err(Refused::WrongMoment));
    assert_eq!(engine.connections_closed(&[]), Err(Refused::WrongMoment));
    assert_eq!(engine.reply_given(0x77, &[]), Err(Refused::BadAnswer));
    assert_eq!(engine.reply_given(0x20, &[0x48]), Err(Refused::BadAnswer));
    assert_eq!(engine.event(), put);
    engine.reply_given(0x20, &[]).unwrap();
    assert_eq!(engine.event(), Event::Reply(&[0xA0, 0, 3]));
    engine.reply_taken().unwrap();
    engine.stream_ended().unwrap();
    assert_eq!(engine.event(), Event::End(End::Disconnected));
    assert_eq!(engine.bytes_offered(&[1]), Err(Refused::WrongMoment));
    assert_eq!(engine.event(), Event::End(End::Disconnected));
}

#[test]
fn realms_are_at_most_254_bytes() {
    let with = |n: usize| Settings {
        max_object_size: 0,
        authentication: Some(Authentication { realm: Some((0, vec![b'r'; n])), ..Authentication::default() }),
        ..Settings::default()
    };
    assert!(Engine::start(&with(254)).is_ok());
    assert_eq!(Engine::start(&with(255)).err(), Some(Refused::BadAnswer));
}

#[test]
fn connections_are_closed_together() {
    let mut engine = fresh();
    for _ in 0..3 {
        // A Connect with a Target opens an id.
        engine.bytes_offered(&[0x80, 0, 12, 0x10, 0, 0xFF, 0xFF, 0x46, 0, 5, 7, 7]).unwrap();
        engine.reply_given(0x20, &[]).unwrap();
        engine.reply_taken().unwrap();
    }
    assert_eq!(engine.connections_closed(&[1, 9]), Err(Refused::IdNotOpen));
    assert_eq!(engine.connections_closed(&[1, 1]), Err(Refused::IdRepeated));
    assert_eq!(engine.connections_closed(&[1; 65]), Err(Refused::TooManyIds));
    engine.connections_closed(&[1, 3]).unwrap();
    assert_eq!(engine.connections_closed(&[1]), Err(Refused::IdNotOpen));
    assert_eq!(engine.event(), Event::WantsBytes);
}

#[test]
fn a_used_nonce_is_refused() {
    let settings = Settings { max_object_size: 0, authentication: Some(Authentication::default()), ..Settings::default() };
    let mut engine = Engine::start(&settings).unwrap();
    let challenge = |engine: &mut Engine| {
        engine.bytes_offered(&[0x80, 0, 7, 0x10, 0, 0xFF, 0xFF]).unwrap();
        assert_eq!(engine.event(), Event::Request(HostRequest::Nonce));
    };
    challenge(&mut engine);
    engine.nonce_given([7; 16]).unwrap();
    engine.reply_taken().unwrap();
    challenge(&mut engine);
    assert_eq!(engine.nonce_given([7; 16]), Err(Refused::NonceUsed));
    assert_eq!(engine.event(), Event::Request(HostRequest::Nonce));
    engine.nonce_given([8; 16]).unwrap();
}

#[test]
fn a_request_names_the_target_of_its_connection() {
    let mut engine = fresh();
    engine.bytes_offered(&[0x80, 0, 12, 0x10, 0, 0xFF, 0xFF, 0x46, 0, 5, 7, 8]).unwrap();
    engine.reply_given(0x20, &[]).unwrap();
    engine.reply_taken().unwrap();
    engine.bytes_offered(&[0x82, 0, 8, 0xCB, 0, 0, 0, 1]).unwrap();
    assert!(matches!(engine.event(), Event::Request(HostRequest::Put { .. })));
    assert_eq!(engine.target().unwrap().as_bytes(), [7, 8]);
    engine.reply_given(0x20, &[]).unwrap();
    engine.reply_taken().unwrap();
    engine.bytes_offered(&[0x82, 0, 3]).unwrap();
    assert_eq!(engine.target(), None);
}

/// Any numbers are some state: no call reads or writes out of bounds, whatever they are.
#[test]
fn any_numbers_are_taken() {
    let mut seed = 1u64;
    let mut next = || {
        seed ^= seed << 13;
        seed ^= seed >> 7;
        seed ^= seed << 17;
        seed
    };
    let mut engine = fresh();
    let rounds = std::env::var("ROUNDS").map_or(200_000, |n| n.parse().unwrap());
    for round in 0..rounds {
        for i in 0..64 {
            let x = next();
            engine.words[i] = match x % 4 { 0 => x, 1 => x % 2, 2 => x % 13, _ => x % 70_000 };
        }
        engine.words[0] = 1024;
        let words = *engine.words;
        let result = match round % 7 {
            0 => engine.bytes_offered(&[0x82, 0, 3]).map(drop),
            1 => engine.reply_taken(),
            2 => engine.reply_given(0x20, &[]),
            3 => engine.body_given(&[1, 2, 3]),
            4 => engine.object_given(&[], true),
            5 => engine.password_given(Some(b"1234")),
            _ => engine.connections_closed(&[1, 2]),
        };
        if result.is_err() {
            // Numbers that fill their type stay as they were.
            assert_eq!(words[BEGUN..=LENGTH], engine.words[BEGUN..=LENGTH]);
        }
    }
}

#[test]
fn open_ids_are_those_that_can_be_closed() {
    let mut engine = fresh();
    assert_eq!(engine.open_ids().count(), 0);
    for _ in 0..3 {
        engine.bytes_offered(&[0x80, 0, 12, 0x10, 0, 0xFF, 0xFF, 0x46, 0, 5, 7, 7]).unwrap();
        engine.reply_given(0x20, &[]).unwrap();
        engine.reply_taken().unwrap();
    }
    let mut ids: Vec<u32> = engine.open_ids().collect();
    ids.sort();
    assert_eq!(ids, [1, 2, 3]);
    engine.connections_closed(&[2]).unwrap();
    let mut ids: Vec<u32> = engine.open_ids().collect();
    ids.sort();
    assert_eq!(ids, [1, 3]);
    engine.connections_closed(&ids).unwrap();
    assert_eq!(engine.open_ids().count(), 0);
}

#[test]
fn wrong_passwords_are_counted() {
    let settings = Settings { max_object_size: 0, authentication: Some(Authentication::default()), ..Settings::default() };
    let mut engine = Engine::start(&settings).unwrap();
    engine.bytes_offered(&[0x80, 0, 7, 0x10, 0, 0xFF, 0xFF]).unwrap();
    for wrong in 0..8 {
        assert_eq!(engine.wrong_passwords(), wrong);
        engine.nonce_given([wrong as u8; 16]).unwrap();
        engine.reply_taken().unwrap();
        let answer = [&[0x80, 0, 28, 0x10, 0, 0xFF, 0xFF, 0x4E, 0, 21, 0, 16][..], &[0; 16]].concat();
        engine.bytes_offered(&answer).unwrap();
        assert_eq!(engine.event(), Event::Request(HostRequest::Password { user_id: None }));
        engine.password_given(Some(b"1234")).unwrap();
        assert_eq!(engine.event(), Event::Request(HostRequest::Nonce));
    }
    assert_eq!(engine.wrong_passwords(), 8);
}

#[test]
fn refusals_and_ends_are_errors() {
    fn told() -> Result<(), Box<dyn std::error::Error>> {
        Ok(fresh().reply_taken()?)
    }
    assert_eq!(told().unwrap_err().to_string(), "the call is not the one that the engine waits for (refusal 9)");
    for refused in [8, 9, 10, 15, 19, 20, 21].map(Refused::of) {
        assert!(refused.to_string().ends_with(&format!("(refusal {})", refused.number())));
    }
    for end in [1, 2, 3, 4, 5, 6, 7].map(End::of) {
        let error: Box<dyn std::error::Error> = end.into();
        assert!(error.to_string().ends_with(&format!("(end {})", end.number())));
    }
}

#[test]
fn an_engine_is_shown_without_its_stores() {
    let mut engine = fresh();
    engine.bytes_offered(&[0x82, 0]).unwrap();
    assert_eq!(
        format!("{engine:?}"),
        "Engine { awaits: \"WantsBytes\", is_at_rest: false, bytes_begun: 2, open_ids: [], wrong_passwords: 0, .. }"
    );
}

/// The four settings that change what a client is answered, each set and not set.
#[test]
fn every_setting_is_heard() {
    let after = |settings: &Settings, stream: &[u8]| {
        let mut engine = Engine::start(settings).unwrap();
        let (mut from, mut replies) = (0, Vec::<u8>::new());
        loop {
            match engine.event() {
                Event::WantsBytes if from == stream.len() => return replies,
                Event::WantsBytes => from += engine.bytes_offered(&stream[from..]).unwrap(),
                Event::Reply(bytes) => {
                    replies.extend(bytes);
                    engine.reply_taken().unwrap();
                }
                Event::Request(HostRequest::Nonce) => engine.nonce_given([7; 16]).unwrap(),
                Event::Request(HostRequest::Password { .. }) => engine.password_given(Some(b"1234")).unwrap(),
                Event::Request(_) => engine.reply_given(0x20, &[]).unwrap(),
                Event::End(end) => panic!("{end}"),
            }
        }
    };
    let small = Settings { max_object_size: 2, max_packet_length: 1_000, ..Settings::default() };
    // A Put of three bytes that is not final, and a final packet that trails it.
    let long = [0x02, 0, 9, 0x48, 0, 6, 1, 2, 3, 0x82, 0, 7, 0x49, 0, 4, 4];
    assert_eq!(after(&small, &long), [0xCD, 0, 3, 0xA0, 0, 3]);
    assert_eq!(after(&Settings { refuse_trailing: true, ..small.clone() }, &long), [0xCD, 0, 3, 0xCD, 0, 3]);
    // A Connect that asks for Single Response Mode.
    let connect = [0x80, 0, 9, 0x10, 0, 0xFF, 0xFF, 0x97, 1];
    assert_eq!(after(&small, &connect), [0xA0, 0, 7, 0x10, 0, 3, 232]);
    assert_eq!(after(&Settings { single_response_mode: true, ..small.clone() }, &connect), [0xA0, 0, 9, 0x10, 0, 3, 232, 0x97, 1]);
    // A challenge with options and realm.
    let both = |user_id_required, read_only| Authentication { user_id_required, read_only, realm: Some((3, b"r".to_vec())), user_id_enforced: false };
    for (options, authentication) in [(1, both(true, false)), (2, both(false, true)), (3, both(true, true))] {
        let replies = after(&Settings { authentication: Some(authentication), ..small.clone() }, &[0x80, 0, 7, 0x10, 0, 0xFF, 0xFF]);
        assert_eq!(replies, [&[0xC1, 0, 35, 0x10, 0, 3, 232, 0x4D, 0, 28, 0, 16][..], &[7; 16], &[1, 1, options, 2, 2, 3, b'r']].concat());
    }
}
