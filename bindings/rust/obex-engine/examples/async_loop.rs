//! The engine in an `async` function, without a runtime of its own: the loop of a blocking server
//! with `.await` at the two places that wait for the transport, and an answer to every request, those
//! for passwords and nonces included. `main` plays a client over a transport that is never ready at
//! once, and waits by parking its thread.
use std::collections::VecDeque;
use std::error::Error;
use std::fs::File;
use std::future::{poll_fn, Future};
use std::io::{self, Read};
use std::pin::pin;
use std::sync::Arc;
use std::task::{Context, Poll, Wake, Waker};
use std::thread::{self, Thread};

use obex_engine::{Authentication, End, Engine, Event, HostRequest, Settings};
use obex_headers::{find, id, Challenge, Headers};

const SUCCESS: u8 = 0x20;
const NOT_IMPLEMENTED: u8 = 0x51;
const PASSWORD: &[u8] = b"1234";

/// What a runtime's socket offers, by other names.
trait Transport {
    fn poll_read(&mut self, context: &mut Context, room: &mut [u8]) -> Poll<usize>;
    fn poll_write(&mut self, context: &mut Context, bytes: &[u8]) -> Poll<usize>;
}

/// Serves one client, which has to know the password, and returns the records that it put.
async fn serve(mut transport: impl Transport) -> Result<Vec<Vec<u8>>, Box<dyn Error>> {
    let settings = Settings { max_object_size: 49_152, authentication: Some(Authentication::default()), ..Settings::default() };
    let mut engine = Engine::start(&settings)?;
    let mut input = vec![0; 65_536];
    let (mut from, mut to) = (0, 0);
    let mut records = Vec::new();
    loop {
        match engine.event() {
            Event::WantsBytes if from < to => from += engine.bytes_offered(&input[from..to])?,
            Event::WantsBytes => {
                (from, to) = (0, poll_fn(|context| transport.poll_read(context, &mut input)).await);
                if to == 0 {
                    engine.stream_ended()?;
                }
            }
            Event::Reply(mut bytes) => {
                while !bytes.is_empty() {
                    let written = poll_fn(|context| transport.poll_write(context, bytes)).await;
                    bytes = &bytes[written..];
                }
                engine.reply_taken()?;
            }
            Event::Request(HostRequest::Put { body, .. }) => {
                records.push(body.unwrap_or_default().to_vec());
                engine.reply_given(SUCCESS, &[])?;
            }
            Event::Request(HostRequest::Connect { .. } | HostRequest::Disconnect { .. }) => engine.reply_given(SUCCESS, &[])?,
            Event::Request(HostRequest::Password { .. }) => engine.password_given(Some(PASSWORD))?,
            Event::Request(HostRequest::Nonce) => engine.nonce_given(nonce()?)?,
            Event::Request(HostRequest::Credentials { .. }) => engine.credentials_given(None)?,
            Event::Request(HostRequest::Abort { .. }) => engine.abort_acknowledged()?,
            // Asked for the body of an object alone, and no Get is answered by one here.
            Event::Request(HostRequest::Read { .. }) => engine.body_failed()?,
            // Each of these takes a reply; what does not has its arm above.
            Event::Request(
                HostRequest::Get { .. } | HostRequest::SetPath { .. } | HostRequest::Action { .. } | HostRequest::Session { .. } | HostRequest::UserDefined { .. },
            ) => engine.reply_given(NOT_IMPLEMENTED, &[])?,
            Event::End(End::Disconnected) => return Ok(records),
            Event::End(end) => return Err(end.into()),
        }
    }
}

/// Sixteen bytes of the system's. Without them there is no challenge, so the session stops.
fn nonce() -> io::Result<[u8; 16]> {
    let mut bytes = [0; 16];
    File::open("/dev/urandom")?.read_exact(&mut bytes)?;
    Ok(bytes)
}

/// A client in memory that answers each second question only, and takes a byte at a time. It sends the
/// next packet once a reply has come whole.
struct Slow {
    packets: VecDeque<Vec<u8>>,
    sending: VecDeque<u8>,
    reply: Vec<u8>,
    codes: Vec<u8>,
    ready: bool,
}

impl Slow {
    fn turn(&mut self, context: &mut Context) -> bool {
        self.ready = !self.ready;
        if self.ready {
            context.waker().wake_by_ref();
        }
        self.ready
    }

    /// Takes a byte of a reply. A challenge is answered by a Connect with the password's digest.
    fn take(&mut self, byte: u8) {
        self.reply.push(byte);
        if self.reply.len() < 3 || self.reply.len() < usize::from(u16::from_be_bytes([self.reply[1], self.reply[2]])) {
            return;
        }
        self.codes.push(self.reply[0]);
        if self.reply[0] == 0xC1 {
            let value = find(&self.reply[7..], id::AUTHENTICATE_CHALLENGE).unwrap();
            let answer = Headers::new().answer(&Challenge::read(value).unwrap(), None, PASSWORD).unwrap();
            self.packets.push_front([&[0x80, 0, 7 + answer.len() as u8, 0x10, 0, 0xFF, 0xFF][..], &answer].concat());
        }
        self.reply.clear();
        self.sending.extend(self.packets.pop_front().unwrap_or_default());
    }
}

impl Transport for &mut Slow {
    fn poll_read(&mut self, context: &mut Context, room: &mut [u8]) -> Poll<usize> {
        if self.turn(context) {
            return Poll::Pending;
        }
        let read = self.sending.len().min(2);
        room.iter_mut().zip(self.sending.drain(..read)).for_each(|(place, byte)| *place = byte);
        Poll::Ready(read)
    }

    fn poll_write(&mut self, context: &mut Context, bytes: &[u8]) -> Poll<usize> {
        if self.turn(context) {
            return Poll::Pending;
        }
        self.take(bytes[0]);
        Poll::Ready(1)
    }
}

struct Unpark(Thread);

impl Wake for Unpark {
    fn wake(self: Arc<Self>) {
        self.0.unpark();
    }
}

fn wait<F: Future>(future: F) -> F::Output {
    let waker = Waker::from(Arc::new(Unpark(thread::current())));
    let mut future = pin!(future);
    loop {
        match future.as_mut().poll(&mut Context::from_waker(&waker)) {
            Poll::Ready(output) => return output,
            Poll::Pending => thread::park(),
        }
    }
}

fn main() {
    // A Connect that is challenged, two Puts, one whole and one in two packets, and a Get.
    let packets = [&[0x82, 0, 9, 0x49, 0, 6, 1, 2, 3][..], &[0x02, 0, 7, 0x48, 0, 4, 4], &[0x82, 0, 7, 0x49, 0, 4, 5], &[0x83, 0, 3]];
    let mut client = Slow {
        packets: packets.map(<[u8]>::to_vec).into(),
        sending: [0x80, 0, 7, 0x10, 0, 0xFF, 0xFF].into(),
        reply: Vec::new(),
        codes: Vec::new(),
        ready: false,
    };
    let records = wait(serve(&mut client)).unwrap();
    assert_eq!(records, [&[1, 2, 3][..], &[4, 5]]);
    assert_eq!(client.codes, [0xC1, 0xA0, 0xA0, 0x90, 0xA0, 0xD1]);
    println!("{} records, after a password", records.len());
}
