//! A dock: it keeps the records that clients put, gives the last one back, and wants a password.
//! Usage: dock PASSWORD SESSIONS, on standard output the port, then a line for each record.
use std::net::TcpListener;

use obex_protocol::header::{Header, Headers};
use obex_protocol::packet::{Request, Response};
use obex_protocol::response::ResponseCode;
use obex_protocol::server::{Authentication, Handler, Object, Server};
use obex_protocol::session::SessionOpcode;

#[derive(Default)]
struct Dock {
    password: Vec<u8>,
    records: Vec<Vec<u8>>,
}

impl Handler for Dock {
    fn put(&mut self, request: &Request, body: Option<Vec<u8>>) -> Response {
        let Some(name) = request.headers.name() else { return Response::new(ResponseCode::BadRequest) };
        let body = body.unwrap_or_default();
        println!("record {name:?} of {} bytes", body.len());
        self.records.push(body);
        Response::new(ResponseCode::Success).with(Header::Count(self.records.len() as u32))
    }

    fn get(&mut self, _: &Request) -> Result<Object, Response> {
        match self.records.last() {
            Some(record) => Ok(Object::new(Headers::new(), record.clone())),
            None => Err(Response::new(ResponseCode::NotFound)),
        }
    }

    fn session(&mut self, _: &Request) -> Response {
        println!("a session is asked for, and only its codes are known here: {:?}", SessionOpcode::CreateSession);
        Response::new(ResponseCode::NotImplemented)
    }

    fn password(&mut self, _: Option<&[u8]>) -> Option<Vec<u8>> {
        Some(self.password.clone())
    }
}

fn main() -> Result<(), Box<dyn std::error::Error>> {
    let words: Vec<String> = std::env::args().collect();
    let listener = TcpListener::bind("127.0.0.1:0")?;
    println!("{}", listener.local_addr()?.port());
    for socket in listener.incoming().take(words[2].parse()?) {
        let dock = Dock { password: words[1].clone().into_bytes(), records: Vec::new() };
        let mut server = Server::new(socket?, dock)
            .with_max_packet_length(1024)
            .with_max_object_size(48 << 10)
            .with_authentication(Authentication::default());
        server.run()?;
    }
    Ok(())
}
