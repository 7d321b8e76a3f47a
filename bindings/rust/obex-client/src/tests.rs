//! The client against the engine: both ends of a stream in memory.
use std::collections::VecDeque;
use std::io::{self, Read, Write};

use obex_engine::{Authentication, Engine, Event as Wants, HostRequest, Settings as ServerSettings};

use super::*;

/// A server in memory: what is written to it goes to an engine, and its replies are read from it.
struct Dock {
    engine: Engine,
    replies: VecDeque<u8>,
    records: Vec<(Vec<u8>, Option<Vec<u8>>)>,
    object: Option<io::Cursor<Vec<u8>>>,
    nonces: u8,
    aborts: usize,
}

const HEADERS: [u8; 11] = [0x01, 0, 11, 0, b'l', 0, b'o', 0, b'g', 0, 0];

impl Dock {
    fn new(settings: &ServerSettings) -> Dock {
        Dock { engine: Engine::start(settings).unwrap(), replies: VecDeque::new(), records: vec![], object: None, nonces: 0, aborts: 0 }
    }

    fn answer(&mut self) {
        let Wants::Request(request) = self.engine.event() else { unreachable!() };
        match request {
            HostRequest::Put { headers, body } => {
                self.records.push((headers.to_vec(), body.map(<[u8]>::to_vec)));
                self.engine.reply_given(0x20, &[])
            }
            HostRequest::Get { .. } if self.object.is_none() => self.engine.reply_given(0x44, &[]),
            HostRequest::Get { .. } => self.engine.object_given(&HEADERS, true),
            HostRequest::Read { room } => {
                let mut bytes = vec![0; room];
                let read = self.object.as_mut().unwrap().read(&mut bytes).unwrap();
                self.engine.body_given(&bytes[..read])
            }
            HostRequest::Abort { .. } => {
                self.aborts += 1;
                self.engine.abort_acknowledged()
            }
            HostRequest::Password { user_id } => {
                let password = (user_id == Some(b"op")).then_some(&b"1234"[..]);
                self.engine.password_given(password)
            }
            HostRequest::Nonce => {
                self.nonces += 1;
                self.engine.nonce_given([self.nonces; 16])
            }
            HostRequest::Credentials { .. } => self.engine.credentials_given(None),
            _ => self.engine.reply_given(0x20, &[]),
        }
        .unwrap();
    }
}

impl Write for &mut Dock {
    fn write(&mut self, mut bytes: &[u8]) -> io::Result<usize> {
        let length = bytes.len();
        loop {
            match self.engine.event() {
                Wants::WantsBytes if bytes.is_empty() => return Ok(length),
                Wants::WantsBytes => bytes = &bytes[self.engine.bytes_offered(bytes).unwrap()..],
                Wants::Reply(reply) => {
                    self.replies.extend(reply);
                    self.engine.reply_taken().unwrap();
                }
                Wants::Request(_) => self.answer(),
                Wants::End(end) => return Err(io::Error::other(end)),
            }
        }
    }

    fn flush(&mut self) -> io::Result<()> {
        Ok(())
    }
}

impl Read for &mut Dock {
    /// Seven bytes at most, so that responses come in pieces.
    fn read(&mut self, room: &mut [u8]) -> io::Result<usize> {
        let read = self.replies.len().min(room.len()).min(7);
        room.iter_mut().zip(self.replies.drain(..read)).for_each(|(place, byte)| *place = byte);
        Ok(read)
    }
}

fn with_password() -> ServerSettings {
    let authentication = Authentication { user_id_required: true, user_id_enforced: true, ..Authentication::default() };
    ServerSettings { max_object_size: 100_000, authentication: Some(authentication), ..ServerSettings::default() }
}

fn plain(max_packet_length: u16) -> ServerSettings {
    ServerSettings { max_object_size: 100_000, max_packet_length, single_response_mode: true, ..ServerSettings::default() }
}

#[test]
fn may_cross_threads() {
    fn both<T: Send + Sync>() {}
    both::<Client>();
}

#[test]
fn a_box_connects_with_a_password_and_puts_a_record() {
    let mut dock = Dock::new(&with_password());
    let mut connection = Connection::new(&mut dock, &Settings::default()).unwrap();
    let wrong = connection.connect_with_password(&Headers::new(), Some(b"op"), b"4321");
    assert!(matches!(wrong, Err(Error::Answered { code: 0x41, .. })));
    assert!(matches!(connection.connect_with_password(&Headers::new(), None, b"1234"), Err(Error::Challenge(_))));
    let target = Headers::new().target(&[7; 16]).unwrap();
    connection.connect_with_password(&target, Some(b"op"), b"1234").unwrap();
    assert_eq!(connection.connection_id(), Some(1));
    connection.put(&Headers::new().name("log").unwrap(), &b"pump 7 ok\n"[..]).unwrap();
    connection.disconnect(&[]).unwrap();
    assert_eq!(dock.records.len(), 1);
    assert_eq!(dock.records[0].1.as_deref(), Some(&b"pump 7 ok\n"[..]));
    let name = obex_headers::find(&dock.records[0].0, obex_headers::id::NAME).unwrap();
    assert_eq!(obex_headers::text(name), "log");
}

#[test]
fn bodies_of_every_size_come_and_go() {
    for single_response_mode in [false, true] {
        for length in [0, 1, 240, 249, 250, 251, 1_000, 65_000, 100_000] {
            let body: Vec<u8> = (0..length).map(|i| (i * 7 + length) as u8).collect();
            let mut dock = Dock::new(&plain(300));
            dock.object = Some(io::Cursor::new(body.clone()));
            let settings = Settings { max_packet_length: 255, single_response_mode };
            let mut connection = Connection::new(&mut dock, &settings).unwrap();
            connection.connect(&[]).unwrap();
            connection.put(&HEADERS, &body[..]).unwrap();
            let object = connection.get(&HEADERS).unwrap();
            assert_eq!((object.headers, object.body.as_deref()), (HEADERS.to_vec(), Some(&body[..])));
            assert_eq!(dock.records, [(HEADERS.to_vec(), Some(body))]);
        }
    }
}

#[test]
fn codes_that_are_no_success_are_errors_and_the_client_goes_on() {
    let mut dock = Dock::new(&plain(300));
    let mut connection = Connection::new(&mut dock, &Settings::default()).unwrap();
    connection.connect(&[]).unwrap();
    assert!(matches!(connection.get(&HEADERS), Err(Error::Answered { code: 0x44, stopped: false, .. })));
    assert!(matches!(connection.put(&HEADERS, &vec![0; 100_001][..]), Err(Error::Answered { code: 0x4D, .. })));
    connection.put_headers(&HEADERS).unwrap();
    assert_eq!(dock.records.last(), Some(&(HEADERS.to_vec(), None)));
}

struct Fails(usize);

impl Read for Fails {
    fn read(&mut self, room: &mut [u8]) -> io::Result<usize> {
        let read = self.0.min(room.len());
        self.0 -= read;
        if read == 0 { Err(io::Error::other("the disk")) } else { Ok(read) }
    }
}

impl Write for Fails {
    fn write(&mut self, bytes: &[u8]) -> io::Result<usize> {
        self.read(&mut vec![0; bytes.len()])
    }

    fn flush(&mut self) -> io::Result<()> {
        Ok(())
    }
}

#[test]
fn a_body_that_fails_aborts_its_operation() {
    let mut dock = Dock::new(&plain(300));
    dock.object = Some(io::Cursor::new(vec![1; 5_000]));
    let mut connection = Connection::new(&mut dock, &Settings { max_packet_length: 255, single_response_mode: false }).unwrap();
    connection.connect(&[]).unwrap();
    assert!(matches!(connection.put(&HEADERS, Fails(1_000)), Err(Error::Io(_))));
    assert!(matches!(connection.get_into(&HEADERS, &mut Fails(1_000)), Err(Error::Io(_))));
    connection.put(&HEADERS, &[5; 3][..]).unwrap();
    assert_eq!((dock.records.len(), dock.aborts), (1, 2));
}

#[test]
fn a_place_that_fails_at_the_last_part_needs_no_abort() {
    let mut dock = Dock::new(&plain(300));
    dock.object = Some(io::Cursor::new(vec![1; 5_000]));
    let mut connection = Connection::new(&mut dock, &Settings::default()).unwrap();
    connection.connect(&[]).unwrap();
    assert!(matches!(connection.get_into(&HEADERS, &mut Fails(100)), Err(Error::Io(_))));
    connection.put(&HEADERS, &[5; 3][..]).unwrap();
    assert_eq!((dock.records.len(), dock.aborts), (1, 0));
}

#[test]
fn a_transport_that_fails_is_the_last_of_it() {
    struct Gone;
    impl Read for Gone {
        fn read(&mut self, _: &mut [u8]) -> io::Result<usize> {
            Err(io::ErrorKind::ConnectionReset.into())
        }
    }
    impl Write for Gone {
        fn write(&mut self, bytes: &[u8]) -> io::Result<usize> {
            Ok(bytes.len())
        }
        fn flush(&mut self) -> io::Result<()> {
            Ok(())
        }
    }
    let mut connection = Connection::new(Gone, &Settings::default()).unwrap();
    assert!(matches!(connection.connect(&[]), Err(Error::Io(_))));
    assert!(matches!(connection.connect(&[]), Err(Error::Refused(Refused::WrongMoment))));
}

#[test]
fn wrong_calls_are_refused_and_change_nothing() {
    let mut client = Client::start(&Settings::default()).unwrap();
    assert_eq!(client.event(), Event::Ready);
    assert_eq!(client.request_sent(), Err(Refused::WrongMoment));
    assert_eq!(client.abort(), Err(Refused::WrongMoment));
    assert_eq!(client.put(&[0x48, 0, 3], true), Err(Refused::BadHeaders));
    assert_eq!(client.put(&[&[0x46, 1, 44][..], &[0; 297]].concat(), true), Err(Refused::HeaderTooLong));
    assert_eq!(client.event(), Event::Ready);
    client.stream_ended().unwrap();
    assert_eq!(client.event(), Event::End(End::Disconnected));
    assert_eq!(client.connect(&[]), Err(Refused::WrongMoment));
    assert_eq!(format!("{client:?}"), "Client { awaits: \"End\", connection_id: None, .. }");
}

#[test]
fn refusals_and_ends_are_errors() {
    fn told(error: impl std::error::Error + 'static) -> String {
        let boxed: Box<dyn std::error::Error> = error.into();
        boxed.to_string()
    }
    assert_eq!(told(Refused::WrongMoment), "the call is not one that the client waits for (refusal 9)");
    assert_eq!(told(End::Unreadable), "a response could not be read (end 23)");
    assert_eq!(told(Error::Answered { code: 0x44, headers: vec![], stopped: false }), "the server answered with 0x44");
}
