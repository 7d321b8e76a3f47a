//! Processor time of a Put load through both servers and through the engine's wrapper alone.
use std::hint::black_box;
use std::io::{self, Read, Write};

use obex_engine::{Engine, Event, HostRequest, Settings};

use crate::packet::{Request, Response};
use crate::response::ResponseCode;
use crate::server::{Handler, Object};

#[repr(C)]
struct Timespec {
    seconds: i64,
    nanoseconds: i64,
}

extern "C" {
    fn clock_gettime(clock: i32, time: *mut Timespec) -> i32;
}

/// This process's processor time in seconds (CLOCK_PROCESS_CPUTIME_ID).
fn now() -> f64 {
    let mut time = Timespec { seconds: 0, nanoseconds: 0 };
    unsafe { clock_gettime(2, &mut time) };
    time.seconds as f64 + time.nanoseconds as f64 * 1e-9
}

const BODY: usize = 48 << 10;

fn packet(opcode: u8, content: &[u8]) -> Vec<u8> {
    let mut bytes = vec![opcode];
    bytes.extend((3 + content.len() as u16).to_be_bytes());
    bytes.extend(content);
    bytes
}

fn long(id: u8, value: &[u8]) -> Vec<u8> {
    let mut bytes = vec![id];
    bytes.extend((3 + value.len() as u16).to_be_bytes());
    bytes.extend(value);
    bytes
}

/// As `tools/make/load put LIMIT`: a Connect, 16 Puts of 48 KiB, a Disconnect.
fn session(limit: usize) -> Vec<u8> {
    let body: Vec<u8> = (0..BODY).map(|n| (n * 7 % 251) as u8).collect();
    let name: Vec<u8> = "record.bin\0".encode_utf16().flat_map(u16::to_be_bytes).collect();
    let mut stream = packet(0x80, &[&[0x10, 0, 0xFF, 0xFF][..], &long(0x46, &[7; 16])].concat());
    for _ in 0..16 {
        let mut lead = [&[0xCB, 0, 0, 0, 1][..], &long(0x01, &name)].concat();
        let mut at = 0;
        loop {
            let room = limit - 3 - lead.len() - 3;
            let last = BODY - at <= room;
            let part = &body[at..BODY.min(at + room)];
            let header = long(if last { 0x49 } else { 0x48 }, part);
            stream.extend(packet(if last { 0x82 } else { 0x02 }, &[lead, header].concat()));
            if last {
                break;
            }
            lead = Vec::new();
            at += room;
        }
    }
    stream.extend(packet(0x81, &[0xCB, 0, 0, 0, 1]));
    stream
}

/// The peer: a read ends where a packet does (0), or is so long.
struct Transport<'a> {
    stream: &'a [u8],
    longest: usize,
    sum: usize,
}

impl Read for Transport<'_> {
    fn read(&mut self, room: &mut [u8]) -> io::Result<usize> {
        let longest = match (self.longest, self.stream) {
            (0, [_, high, low, ..]) => usize::from(u16::from_be_bytes([*high, *low])),
            (0, _) => self.stream.len(),
            (longest, _) => longest,
        };
        let read = longest.min(self.stream.len()).min(room.len());
        let (bytes, rest) = self.stream.split_at(read);
        room[..read].copy_from_slice(bytes);
        self.stream = rest;
        Ok(read)
    }
}

impl Write for Transport<'_> {
    fn write(&mut self, buf: &[u8]) -> io::Result<usize> {
        self.sum += usize::from(*black_box(buf).last().unwrap()) + buf.len();
        Ok(buf.len())
    }
    fn flush(&mut self) -> io::Result<()> {
        Ok(())
    }
}

#[derive(Default)]
struct Host {
    records: usize,
}

impl Handler for Host {
    fn put(&mut self, _: &Request, body: Option<Vec<u8>>) -> Response {
        self.records += black_box(body).map_or(0, |b| b.len());
        Response::new(ResponseCode::Success)
    }
    fn get(&mut self, _: &Request) -> Result<Object, Response> {
        Err(Response::new(ResponseCode::NotFound))
    }
}

/// Over the wrapper alone: no `Request`, no copy of the body.
fn direct(stream: &[u8], longest: usize, input: &mut [u8], calls: &mut usize) -> usize {
    let mut transport = Transport { stream, longest, sum: 0 };
    let mut engine = Engine::start(&Settings { max_object_size: 65_536, ..Settings::default() }).unwrap();
    let (mut from, mut to, mut records) = (0, 0, 0);
    loop {
        *calls += 1;
        match engine.event() {
            Event::WantsBytes => {
                if from == to {
                    to = transport.read(input).unwrap();
                    from = 0;
                    if to == 0 {
                        engine.stream_ended().unwrap();
                        continue;
                    }
                }
                from += engine.bytes_offered(&input[from..to]).unwrap();
            }
            Event::Reply(bytes) => {
                transport.write_all(bytes).unwrap();
                engine.reply_taken().unwrap();
            }
            Event::Request(HostRequest::Put { body, .. }) => {
                records += black_box(body).map_or(0, <[u8]>::len);
                engine.reply_given(0x20, &[]).unwrap();
            }
            Event::Request(_) => engine.reply_given(0x20, &[]).unwrap(),
            Event::End(_) => return records + transport.sum,
        }
    }
}

fn best(rounds: usize, count: usize, mut work: impl FnMut()) -> f64 {
    (0..rounds)
        .map(|_| {
            let start = now();
            for _ in 0..count {
                work();
            }
            (now() - start) / count as f64
        })
        .fold(f64::INFINITY, f64::min)
}

pub fn run(rounds: usize) -> bool {
    let mut input = vec![0; 65_536];
    println!("Put of 48 KiB, MB/s of bodies, best of {rounds} by processor time");
    println!("packets  a read    original   proved  ratio   wrapper alone  ratio   calls a session");
    for limit in [255, 1024, 65_535] {
        for longest in [0, 65_536] {
            let stream = session(limit);
            let count = 100;
            let mut sums = [0; 2];
            macro_rules! server {
                ($server:path, $i:expr) => {
                    || {
                        let transport = Transport { stream: &stream, longest, sum: 0 };
                        let mut server = <$server>::new(transport, Host::default()).with_max_object_size(65_536);
                        server.run().unwrap();
                        sums[$i] = server.handler().records + server.get_ref().sum;
                    }
                };
            }
            let (mut a, mut b, mut c) = (f64::INFINITY, f64::INFINITY, f64::INFINITY);
            let mut calls = 0;
            let mut sum = 0;
            for _ in 0..rounds {
                a = a.min(best(1, count, server!(obex_protocol::server::Server<_, _>, 0)));
                b = b.min(best(1, count, server!(obex_server::server::Server<_, _>, 1)));
                calls = 0;
                c = c.min(best(1, count, || sum = direct(&stream, longest, &mut input, &mut calls)));
            }
            assert!(sums[0] == sums[1] && sums[1] == sum, "{sums:?} {sum}");
            let rate = |t: f64| 16.0 * BODY as f64 / t / 1e6;
            println!("{limit:7} {:>7} {:11.0} {:8.0} {:6.2} {:15.0} {:6.2} {:10}",
                if longest == 0 { "packet" } else { "64 KiB" }, rate(a), rate(b), a / b, rate(c), a / c, calls / count);
        }
    }
    true
}

/// What a call costs by itself.
pub fn calls() -> bool {
    let mut engine = Engine::start(&Settings { max_object_size: 65_536, ..Settings::default() }).unwrap();
    let refused = best(9, 1_000_000, || {
        black_box(engine.reply_taken().is_err());
    });
    println!("a call that is refused with 9: {:.1} ns", refused * 1e9);
    let none = best(9, 1_000_000, || {
        black_box(engine.bytes_offered(black_box(&[])).unwrap());
    });
    println!("bytes, none given: {:.1} ns", none * 1e9);
    let put = [0x82u8, 0, 3];
    let small = best(9, 500_000, || {
        engine.bytes_offered(black_box(&put)).unwrap();
        engine.reply_given(0x20, &[]).unwrap();
        engine.reply_taken().unwrap();
    });
    println!("an empty Put, three calls: {:.1} ns", small * 1e9);
    let start = best(5, 2_000, || {
        black_box(Engine::start(&Settings { max_object_size: 65_536, ..Settings::default() }).unwrap());
    });
    println!("start with its stores (64 KiB body): {:.0} ns", start * 1e9);
    let start = best(5, 2_000, || {
        black_box(Engine::start(&Settings::default()).unwrap());
    });
    println!("start with its stores (64 MiB body): {:.0} ns", start * 1e9);
    true
}

/// A client that waits for each reply, over a socket pair: processor time of both ends.
pub fn sockets(rounds: usize) -> bool {
    use std::os::unix::net::UnixStream;
    fn client(mut socket: UnixStream, stream: &[u8]) {
        let mut rest = stream;
        let mut reply = [0; 65_536];
        while let [_, high, low, ..] = rest {
            let (packet, after) = rest.split_at(usize::from(u16::from_be_bytes([*high, *low])));
            socket.write_all(packet).unwrap();
            let _ = socket.read(&mut reply).unwrap();
            rest = after;
        }
    }
    println!("Put of 48 KiB over a socket pair, us a packet, processor time of both ends, best of {rounds}");
    for limit in [255, 1024, 65_535] {
        let stream = session(limit);
        let packets = {
            let (mut n, mut rest) = (0, &stream[..]);
            while let [_, high, low, ..] = rest {
                rest = &rest[usize::from(u16::from_be_bytes([*high, *low]))..];
                n += 1;
            }
            n
        };
        macro_rules! serve {
            ($server:path) => {
                || {
                    let (ours, theirs) = UnixStream::pair().unwrap();
                    std::thread::scope(|scope| {
                        scope.spawn(|| client(theirs, &stream));
                        <$server>::new(ours, Host::default()).with_max_object_size(65_536).run().unwrap();
                    });
                }
            };
        }
        let (mut a, mut b) = (f64::INFINITY, f64::INFINITY);
        for _ in 0..rounds {
            a = a.min(best(1, 4, serve!(obex_protocol::server::Server<_, _>)));
            b = b.min(best(1, 4, serve!(obex_server::server::Server<_, _>)));
        }
        println!("{limit:7} original {:.2} proved {:.2} ratio {:.2}", a * 1e6 / packets as f64, b * 1e6 / packets as f64, a / b);
    }
    true
}
