//! The proved functions, as `crates/client_c/src/lib.rt` exports them. Nothing checks these
//! declarations against that file: they are trusted, and so is `client.rs`, that it reads the
//! numbers as `crates/client_c/specs/Words.antt` says.

/// The state and the result of the last call.
pub type Words = [u64; 32];

/// The version of the numbers' layout that `client.rs` was written for.
pub const VERSION: u64 = 1;

/// A slice passes as its pointer and then its length; a reference to an array as its pointer.
/// Every call is lent the four stores.
macro_rules! calls {
    ($($name:ident($($arg:ident: $type:ty),*);)*) => {
        unsafe extern "C" {
            $(pub fn $name(
                words: *mut Words, $($arg: $type,)*
                packet: *mut u8, packet_len: usize,
                headers: *mut u8, headers_len: usize,
                body: *mut u8, body_len: usize,
                request: *mut u8, request_len: usize,
            );)*
        }
    };
}

calls! {
    obex_client_start();
    obex_client_connect(header_bytes: *const u8, header_bytes_len: usize);
    obex_client_disconnect(header_bytes: *const u8, header_bytes_len: usize);
    obex_client_put(header_bytes: *const u8, header_bytes_len: usize, has_body: bool);
    obex_client_get(header_bytes: *const u8, header_bytes_len: usize);
    obex_client_request_sent();
    obex_client_body_given(bytes: *const u8, bytes_len: usize);
    obex_client_bytes_offered(input: *const u8, input_len: usize);
    obex_client_stream_ended();
    obex_client_part_taken();
    obex_client_abort();
}

unsafe extern "C" {
    pub safe fn obex_client_version() -> u64;
}
