//! The proved OBEX server engine, without input and output.
//!
//! An [`Engine`] owns its state and its stores, and says by [`Engine::event`] what it waits for.
//! Each event is answered by a call; a call at another moment is refused and changes nothing.
//!
//! ```
//! use obex_engine::{Engine, Event, HostRequest, Settings};
//!
//! let mut engine = Engine::start(&Settings::default()).unwrap();
//! engine.bytes_offered(&[0x82, 0x00, 0x06, 0x49, 0x00, 0x03]).unwrap();
//! match engine.event() {
//!     Event::Request(HostRequest::Put { headers, body }) => {
//!         assert_eq!((headers.len(), body), (0, Some(&[][..])));
//!     }
//!     _ => unreachable!(),
//! }
//! engine.reply_given(0x20, &[]).unwrap();
//! let Event::Reply(bytes) = engine.event() else { unreachable!() };
//! assert_eq!(bytes, [0xA0, 0x00, 0x03]);
//! engine.reply_taken().unwrap();
//! ```
//!
//! The calls are named as in the engine; `docs/EMBEDDING.md` of the project says of each what it
//! does, and `docs/RUST.md` what is proved of them and what is trusted.

#![warn(missing_docs)]

mod engine;
mod event;
mod raw;
mod settings;
#[cfg(test)]
mod tests;

pub use engine::Engine;
pub use event::{End, Event, HostRequest, Refused, Target};
pub use settings::{Authentication, Settings};
