//! Stand-in for the published crate obex-protocol, for builds without a network.
include!(concat!(env!("OUT_DIR"), "/original/glue.rs"));
pub use error::{Error, Result};

/// The MD5 digest, for the comparison alone.
#[doc(hidden)]
pub fn md5_of(bytes: &[u8]) -> [u8; 16] {
    md5::digest(&[bytes])
}
