//! `oracle load`: the source's engine over the same session many times, for its throughput.
//! What the host does costs as little as the engine's traits allow.

use std::future::{ready, Future};
use std::hint::black_box;
use std::io::{self, Read, Write};

use crate::auth::{Credentials, DigestChallenge};
use crate::engine::io::{block_on, Sink, Source};
use crate::engine::server::{EngineHandler, ServerEngine};
use crate::header::Headers;
use crate::packet::{Request, Response};
use crate::response::ResponseCode;

/// As the port's stores: the longest stream, the longest read or body of a Put, the
/// object's length.
const STREAM: u64 = 1 << 20;
const ROOM: usize = 1 << 16;
const OBJECT: usize = 1 << 20;

/// What came back.
#[derive(Clone, Copy, Default)]
struct Counts {
    replies: usize,
    bytes: usize,
    records: usize,
    /// The last bytes of replies and bodies, so that none of them is left unmade.
    sum: usize,
}

/// The peer: its stream comes in, the engine's replies are counted.
struct Transport<'a> {
    stream: &'a [u8],
    /// The longest read; 0: a read ends where a packet does.
    longest: usize,
    counts: Counts,
}

impl Transport<'_> {
    /// How long the next read is at most.
    fn longest(&self) -> usize {
        match (self.longest, self.stream) {
            (0, [_, high, low, ..]) => usize::from(u16::from_be_bytes([*high, *low])),
            (0, _) => self.stream.len(),
            (longest, _) => longest,
        }
    }

    fn deliver(&mut self, room: &mut [u8]) -> usize {
        let read = self.longest().min(self.stream.len()).min(room.len());
        let (bytes, rest) = self.stream.split_at(read);
        room[..read].copy_from_slice(bytes);
        self.stream = rest;
        read
    }
}

impl Source for Transport<'_> {
    fn read(&mut self, buf: &mut [u8]) -> impl Future<Output = io::Result<usize>> {
        ready(Ok(self.deliver(buf)))
    }
}

impl Sink for Transport<'_> {
    fn write_all(&mut self, buf: &[u8]) -> impl Future<Output = io::Result<()>> {
        let buf = black_box(buf);
        self.counts.replies += 1;
        self.counts.bytes += buf.len();
        self.counts.sum += last(buf);
        ready(Ok(()))
    }

    fn flush(&mut self) -> impl Future<Output = io::Result<()>> {
        ready(Ok(()))
    }
}

fn last(bytes: &[u8]) -> usize {
    bytes.last().copied().unwrap_or(0).into()
}

/// An object of zeros, read from memory.
struct Body<'a> {
    zeros: &'a [u8],
    left: usize,
}

impl Source for Body<'_> {
    fn read(&mut self, buf: &mut [u8]) -> impl Future<Output = io::Result<usize>> {
        let read = buf.len().min(self.left).min(self.zeros.len());
        buf[..read].copy_from_slice(&self.zeros[..read]);
        self.left -= read;
        ready(Ok(read))
    }
}

/// The host: Success for everything, the object for a Get.
struct Host<'a> {
    zeros: &'a [u8],
    counts: Counts,
}

impl<'a> EngineHandler for Host<'a> {
    type Body = Body<'a>;

    fn connect(&mut self, _: &Request) -> impl Future<Output = Response> {
        success()
    }

    fn disconnect(&mut self, _: &Request) -> impl Future<Output = Response> {
        success()
    }

    fn put(&mut self, _: &Request, body: Option<Vec<u8>>) -> impl Future<Output = Response> {
        let body = black_box(body);
        self.counts.records += 1;
        self.counts.sum += body.as_deref().map_or(0, last);
        success()
    }

    fn get(
        &mut self,
        _: &Request,
    ) -> impl Future<Output = Result<(Headers, Option<Body<'a>>), Response>> {
        let body = Body {
            zeros: self.zeros,
            left: OBJECT,
        };
        ready(Ok((Headers::new(), Some(body))))
    }

    fn set_path(&mut self, _: &Request) -> impl Future<Output = Response> {
        success()
    }

    fn action(&mut self, _: &Request) -> impl Future<Output = Response> {
        success()
    }

    fn session(&mut self, _: &Request) -> impl Future<Output = Response> {
        success()
    }

    fn user_defined(&mut self, _: &Request) -> impl Future<Output = Response> {
        success()
    }

    fn abort(&mut self, _: &Request) -> impl Future<Output = ()> {
        ready(())
    }

    fn password(&mut self, _: Option<&[u8]>) -> impl Future<Output = Option<Vec<u8>>> {
        ready(None)
    }

    fn credentials(&mut self, _: &DigestChallenge) -> impl Future<Output = Option<Credentials>> {
        ready(None)
    }
}

fn success() -> impl Future<Output = Response> {
    ready(Response::new(ResponseCode::Success))
}

/// One session with an engine of its own.
fn session(stream: &[u8], longest: usize, zeros: &[u8], counts: Counts) -> Counts {
    let transport = Transport {
        stream,
        longest,
        counts,
    };
    let host = Host { zeros, counts };
    let mut engine = ServerEngine::new(transport, host);
    engine.max_object_size = ROOM;

    while block_on(engine.handle_next()).is_ok() {}

    let heard = engine.stream.get_ref().counts;
    let told = engine.handler.counts;
    Counts {
        records: told.records,
        sum: heard.sum + told.sum - counts.sum,
        ..heard
    }
}

/// Plays the stream on `input` so often, in reads of at most `longest` bytes.
pub fn run(
    input: impl Read,
    output: &mut impl Write,
    count: usize,
    longest: usize,
) -> io::Result<()> {
    let mut stream = Vec::new();
    input.take(STREAM).read_to_end(&mut stream)?;
    let zeros = vec![0; ROOM];

    let mut counts = Counts::default();
    for _ in 0..count {
        counts = session(&stream, longest, &zeros, counts);
    }

    let Counts {
        replies,
        bytes,
        records,
        sum,
    } = counts;
    writeln!(
        output,
        "replies {replies} bytes {bytes} records {records} sum {sum}"
    )
}
