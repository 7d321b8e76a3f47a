//! The digests of OBEX, by the proved functions of `digest_c`: MD5 (RFC 1321), and the digest by which a
//! password answers a challenge.
//!
//! ```
//! assert_eq!(obex_digest::md5(b"abc")[..4], [0x90, 0x01, 0x50, 0x98]);
//! let nonce = [7; 16];
//! let message = [&nonce[..], b":1234"].concat();
//! assert_eq!(obex_digest::request_digest(&nonce, b"1234"), obex_digest::md5(&message));
//! ```
//!
//! MD5 is what the standard names. It finds damage, and is no seal.
#![warn(missing_docs)]

/// Sixteen bytes in two halves, the first byte the highest.
#[repr(C)]
struct Value {
    first: u64,
    second: u64,
}

// As `crates/digest_c/src/lib.rt` exports them; nothing checks that, so it is trusted. A slice passes
// as its pointer and then its length, a reference to an array as its pointer.
unsafe extern "C" {
    fn digest_md5(message: *const u8, length: usize, out: *mut [u8; 16]);
    fn digest_request(first: u64, second: u64, password: *const u8, length: usize) -> Value;
}

/// Returns the MD5 digest of `message`.
pub fn md5(message: &[u8]) -> [u8; 16] {
    let mut out = [0; 16];
    // SAFETY: the arguments are as declared. The function reads `message`, writes `out`, and nothing else (proved).
    unsafe { digest_md5(message.as_ptr(), message.len(), &mut out) }
    out
}

/// Returns the digest that answers a challenge: that of the nonce, a colon and the password.
pub fn request_digest(nonce: &[u8; 16], password: &[u8]) -> [u8; 16] {
    let nonce = u128::from_be_bytes(*nonce);
    // SAFETY: as above.
    let value = unsafe { digest_request((nonce >> 64) as u64, nonce as u64, password.as_ptr(), password.len()) };
    ((u128::from(value.first) << 64) | u128::from(value.second)).to_be_bytes()
}

#[cfg(test)]
mod tests {
    use super::*;

    #[test]
    fn the_digests_of_the_standard() {
        let hex = |bytes: [u8; 16]| bytes.map(|byte| format!("{byte:02x}")).concat();
        assert_eq!(hex(md5(b"")), "d41d8cd98f00b204e9800998ecf8427e");
        assert_eq!(hex(md5(b"message digest")), "f96b697d7cb7938d525a2f31aaf161d0");
        assert_eq!(hex(md5(&b"1234567890".repeat(8))), "57edf4a22be3c955ac49da2e2107b67a");
    }

    #[test]
    fn a_password_is_digested_behind_its_nonce() {
        for length in [0, 1, 38, 39, 40, 47, 100, 1_000] {
            let (nonce, password) = ([length as u8; 16], vec![b'p'; length]);
            assert_eq!(request_digest(&nonce, &password), md5(&[&nonce[..], b":", &password].concat()));
        }
    }
}
