pub mod action;
pub mod auth;
mod engine;
pub mod error;
pub mod header;
pub mod md5;
pub mod opcode;
pub mod packet;
pub mod response;
pub mod server;
pub mod session;
pub mod srm;
pub mod tlv;

pub use error::{Error, Result};
