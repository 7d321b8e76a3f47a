//! The proved OBEX client: [`Client`] without input and output, and [`Connection`], which reads from and
//! writes to a transport and returns when an operation is over.
//!
//! ```no_run
//! use obex_client::{Connection, Headers, Settings};
//!
//! # fn main() -> Result<(), Box<dyn std::error::Error>> {
//! let socket = std::net::TcpStream::connect("127.0.0.1:6500")?;
//! let mut connection = Connection::new(socket, &Settings::default())?;
//! connection.connect_with_password(&Headers::new(), None, b"1234")?;
//! connection.put(&Headers::new().name("log")?, &b"pump 7 ok\n"[..])?;
//! let rules = connection.get(&Headers::new().name("rules")?)?;
//! println!("{} bytes", rules.body.unwrap_or_default().len());
//! connection.disconnect(&Headers::new())?;
//! # Ok(())
//! # }
//! ```
//!
//! The calls are named as in the client; `docs/CLIENT.md` of the project says of each what it does, and
//! `docs/RUST.md` what is proved of them and what is trusted.
#![warn(missing_docs)]

mod client;
mod connection;
mod event;
mod raw;
#[cfg(test)]
mod tests;

pub use client::{Client, Settings};
pub use connection::{Answer, Connection, Error, Object};
pub use event::{End, Event, Refused};
pub use obex_headers::{self, Headers};
